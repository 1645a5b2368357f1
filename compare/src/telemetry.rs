//! TM frames: unchanged, as bit flipping returns them with the bits that were not sent; and damaged, as no decoder may call them good.
use crate::both::*;
use crate::flips::{apart, flipped};
use compare::*;
use labrador_ldpc::LDPCCode;

/// For each bit that is not sent, the sent bits of the one check that has an edge to it and to no other such bit.
fn lone_checks(code: LDPCCode) -> Vec<Vec<usize>> {
    let mut checks = vec![vec![]; code.n() + code.punctured_bits() - code.k()];
    code.iter_paritychecks().for_each(|(check, bit)| checks[check].push(bit));
    let mut lone = vec![None; code.punctured_bits()];
    for bits in checks {
        let (sent, holes): (Vec<_>, Vec<_>) = bits.into_iter().partition(|&bit| bit < code.n());
        if let [hole] = holes[..] {
            assert!(lone[hole - code.n()].replace(sent).is_none(), "{code:?}: two checks for bit {hole}");
        }
    }
    lone.into_iter().map(|sent| sent.expect("a check for each bit that is not sent")).collect()
}

/// The frame, and each bit that is not sent as its check gives it.
fn completed(code: LDPCCode, lone: &[Vec<usize>], frame: &[u8]) -> Vec<u8> {
    let mut word = frame.to_vec();
    word.resize(code.output_len(), 0);
    for (hole, sent) in lone.iter().enumerate() {
        if sent.iter().filter(|&&bit| bit_at(frame, bit)).count() % 2 == 1 {
            flip_bit(&mut word, code.n() + hole);
        }
    }
    word
}

fn meets(code: LDPCCode, word: &[u8]) -> bool {
    let mut odd = vec![false; code.n() + code.punctured_bits() - code.k()];
    code.iter_paritychecks().for_each(|(check, bit)| odd[check] ^= bit_at(word, bit));
    !odd.contains(&true)
}

/// Bit flipping returns the frame completed, at 0, with limits from 1 on. Of min-sum nothing is promised: every tenth frame shows what it does.
fn compare_unchanged(i: usize, code: LDPCCode, cases: usize, dice: &mut Dice) -> usize {
    let lone = lone_checks(code);
    let (mut hard, mut soft) = (Returned::default(), Returned::default());
    for case in 0..cases {
        let frame = frame(code, dice);
        let whole = completed(code, &lone, &frame);
        hold("a completion", code, &frame, &whole, "a word that meets every equation", meets(code, &whole));
        for most in [1, 2, 20] {
            let left = decode_bf_both(i, code, &frame, most, dice);
            hard.add(&left, &whole);
            hold_to("decode_bf", code, (&frame, most), &left, &(true, 0, whole.clone()));
        }
        if case % 10 == 0 {
            soft.add(&decode_ms_both(i, code, &confident(&frame, 1), 20, dice), &whole);
        }
    }
    hard.show(&format!("{code:?} | decode_bf"), 0) + soft.show(&format!("{code:?} | decode_ms i8"), 0)
}

/// A success does not begin with the received word, and is the frame completed if the way from it over that word is of three bits at most.
fn hold_damaged(what: &str, code: LDPCCode, flips: usize, word: &[u8], whole: &[u8], (success, _, output): &Left) {
    let front = &output[..code.n() / 8];
    let way = flips + (0..code.n()).filter(|&bit| bit_at(word, bit) != bit_at(front, bit)).count();
    let kept = !success || front != word && (way > 3 || output == whole);
    hold(what, code, word, output, "not what was received, and the frame if it is near", kept);
}

/// One to three bits flipped, random ones. That any frame comes back is not promised: the rows show how many did.
fn compare_damaged(i: usize, code: LDPCCode, flips: usize, cases: usize, dice: &mut Dice) -> usize {
    let lone = lone_checks(code);
    let (mut hard, mut soft) = (Returned::default(), Returned::default());
    for _ in 0..cases {
        let frame = frame(code, dice);
        let whole = completed(code, &lone, &frame);
        let word = flipped(&frame, &apart(code, flips, dice));
        let left = decode_bf_both(i, code, &word, 20, dice);
        hold_damaged("decode_bf", code, flips, &word, &whole, &left);
        hard.add(&left, &whole);
        let left = decode_ms_both(i, code, &confident(&word, 1), 20, dice);
        hold_damaged("decode_ms", code, flips, &word, &whole, &left);
        soft.add(&left, &whole);
    }
    hard.show(&format!("{code:?} | {flips} | decode_bf"), 0) + soft.show(&format!("{code:?} | {flips} | decode_ms i8"), 0)
}

/// Random frames of each TM code with one, two and three bits flipped.
pub fn compare_telemetry_flips(cases: usize) -> usize {
    println!("\n| code | flipped bits | operation | cases | the frame, completed, at 0 | at 1 | at 2 | at 3 | later | another word | limit spent |\n|-|-|-|-|-|-|-|-|-|-|-|");
    let damaged = |(i, &code)| {
        let mut dice = Dice::new(91 + i as u64);
        (1..=3).map(|flips| compare_damaged(i, code, flips, cases, &mut dice)).sum::<usize>()
    };
    CODES.iter().enumerate().skip(3).map(damaged).sum()
}

/// Random frames of each TM code, unchanged.
pub fn compare_clean(cases: usize) -> usize {
    println!("\n| code | operation | cases | the frame, completed, at 0 | at 1 | at 2 | at 3 | later | another word | limit spent |\n|-|-|-|-|-|-|-|-|-|-|");
    CODES.iter().enumerate().skip(3).map(|(i, &code)| compare_unchanged(i, code, cases, &mut Dice::new(61 + i as u64))).sum()
}
