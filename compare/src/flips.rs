//! One, two and three flipped bits of a TC frame: what is promised of them, and how often what is not promised holds.
use crate::both::*;
use compare::*;
use labrador_ldpc::LDPCCode;
use std::ops::RangeInclusive;

/// The checks of each bit, once for each edge.
fn checks_of_bits(code: LDPCCode) -> Vec<Vec<usize>> {
    let mut checks = vec![vec![]; code.n()];
    code.iter_paritychecks().for_each(|(check, bit)| checks[bit].push(check));
    checks
}

/// The iterations at which two wrong bits go away, by their edges.
fn iterations(x: &[usize], y: &[usize]) -> RangeInclusive<usize> {
    let shared = x.iter().any(|check| y.contains(check));
    match (x.len(), y.len()) {
        (a, b) if a != b => 2..=2,
        (3, 3) if shared => 1..=3,
        _ => 1..=1,
    }
}

pub fn flipped(frame: &[u8], bits: &[usize]) -> Vec<u8> {
    let mut word = frame.to_vec();
    bits.iter().for_each(|&bit| flip_bit(&mut word, bit));
    word
}

/// Each single bit: both decoders return the frame at iteration 1, and with a limit of 1 they do not claim it.
fn compare_one(i: usize, code: LDPCCode, dice: &mut Dice) -> usize {
    let (mut hard, mut soft) = (Returned::default(), Returned::default());
    for bit in 0..code.n() {
        let frame = frame(code, dice);
        let word = flipped(&frame, &[bit]);
        let left = decode_bf_both(i, code, &word, 2, dice);
        hard.add(&left, &frame);
        hold_to("decode_bf", code, [bit], &left, &(true, 1, frame.clone()));
        let late = decode_bf_both(i, code, &word, 1, dice);
        hold_to("decode_bf with limit 1", code, [bit], &late, &(false, 1, frame.clone()));
        for size in [1, 127, 2 + dice.below(125) as i8] {
            let llrs = confident(&word, size);
            let left = decode_ms_both(i, code, &llrs, 2, dice);
            soft.add(&left, &frame);
            hold_to("decode_ms", code, [bit], &left, &(true, 1, frame.clone()));
            let late = decode_ms_both(i, code, &llrs, 1, dice);
            hold_to("decode_ms with limit 1", code, [bit], &late, &(false, 1, word.clone()));
        }
    }
    hard.show(&format!("{code:?} | 1 | decode_bf"), 1) + soft.show(&format!("{code:?} | 1 | decode_ms i8"), 1)
}

/// Two bits: bit flipping returns the frame at the iteration that their edges give, and does not claim it with that number as the limit.
fn compare_two(i: usize, code: LDPCCode, pairs: &[(usize, usize)], dice: &mut Dice) -> usize {
    let checks = checks_of_bits(code);
    let (mut hard, mut soft) = (Returned::default(), Returned::default());
    for &(x, y) in pairs {
        let frame = frame(code, dice);
        let word = flipped(&frame, &[x, y]);
        let left = decode_bf_both(i, code, &word, 4, dice);
        hard.add(&left, &frame);
        let iters = left.1;
        hold_to("decode_bf", code, [x, y], &left, &(true, iters, frame.clone()));
        let among = iterations(&checks[x], &checks[y]);
        hold("the iteration of decode_bf", code, [x, y], iters, &among, among.contains(&iters));
        let late = decode_bf_both(i, code, &word, iters, dice);
        hold_to("decode_bf with the limit spent", code, [x, y], &late, &(false, iters, frame.clone()));
        soft.add(&decode_ms_both(i, code, &confident(&word, 1), 20, dice), &frame);
    }
    hard.show(&format!("{code:?} | 2 | decode_bf"), 1) + soft.show(&format!("{code:?} | 2 | decode_ms i8"), 1)
}

/// Three bits: nothing is promised but that a success meets the equations.
fn compare_three(i: usize, code: LDPCCode, cases: usize, dice: &mut Dice) -> usize {
    let (mut hard, mut soft) = (Returned::default(), Returned::default());
    for _ in 0..cases {
        let frame = frame(code, dice);
        let word = flipped(&frame, &apart(code, 3, dice));
        hard.add(&decode_bf_both(i, code, &word, 20, dice), &frame);
        soft.add(&decode_ms_both(i, code, &confident(&word, 1), 20, dice), &frame);
    }
    hard.show(&format!("{code:?} | 3 | decode_bf"), 1) + soft.show(&format!("{code:?} | 3 | decode_ms i8"), 1)
}

/// Random bits of which no two are the same.
pub fn apart(code: LDPCCode, count: usize, dice: &mut Dice) -> Vec<usize> {
    let mut bits = vec![];
    while bits.len() < count {
        let bit = dice.below(code.n());
        if !bits.contains(&bit) {
            bits.push(bit);
        }
    }
    bits
}

/// Every bit of the TC codes, every pair of TC128 if that many are wanted, and random pairs and triples.
pub fn compare_flips(random: usize) -> usize {
    println!("\n| code | flipped bits | operation | cases | the frame at 1 | at 2 | at 3 | later | another word | limit spent |\n|-|-|-|-|-|-|-|-|-|-|");
    let mut cases = 0;
    for (i, &code) in CODES.iter().enumerate().take(3) {
        let mut dice = Dice::new(31 + i as u64);
        let every: Vec<_> = (0..code.n()).flat_map(|x| (0..x).map(move |y| (x, y))).collect();
        let pairs = if every.len() <= random { every } else { (0..random).map(|_| every[dice.below(every.len())]).collect() };
        cases += compare_one(i, code, &mut dice) + compare_two(i, code, &pairs, &mut dice) + compare_three(i, code, random, &mut dice);
    }
    cases
}
