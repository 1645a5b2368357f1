//! One call of a decoder through both libraries: what it leaves, which is the same and as promised, or the comparison ends.
use crate::same;
use compare::archive::*;
use compare::*;
use labrador_ldpc::LDPCCode;
use std::fmt::Debug;

/// Success, iterations and output.
pub type Left = (bool, usize, Vec<u8>);

pub fn decode_bf_both(i: usize, code: LDPCCode, input: &[u8], most: usize, dice: &mut Dice) -> Left {
    let (mut theirs, mut ours) = (vec![0; code.output_len()], vec![0; code.output_len()]);
    let (mut w, mut v) = (vec![0; code.decode_bf_working_len()], vec![0; code.decode_bf_working_len()]);
    dice.fill(&mut ours);
    dice.fill(&mut v);
    let (success, iters) = code.decode_bf(input, &mut theirs, &mut w, most);
    let report = decode_bf(i, input, &mut ours, &mut v, most);
    let want = Report { answer: 0, success: success as u8, iters };
    same("decode_bf", code, &(input, most), (report, &ours), (want, &theirs));
    same("decode_bf's working", code, &(input, most), v.iter().all(|&x| x == 0), true);
    (success, iters, ours)
}

pub fn decode_ms_both(i: usize, code: LDPCCode, input: &[i8], most: usize, dice: &mut Dice) -> Left {
    let (mut theirs, mut ours) = (vec![0; code.output_len()], vec![0; code.output_len()]);
    let (mut w, mut v) = (vec![0i8; code.decode_ms_working_len()], vec![0i8; code.decode_ms_working_len()]);
    let (mut s, mut t) = (vec![0; code.decode_ms_working_u8_len()], vec![0; code.decode_ms_working_u8_len()]);
    dice.fill(&mut ours);
    dice.fill(&mut t);
    v.iter_mut().for_each(|x| *x = (dice.next() >> 40) as i8);
    let (success, iters) = code.decode_ms(input, &mut theirs, &mut w, &mut s, most);
    let report = decode_ms(i, input, &mut ours, &mut v, &mut t, most);
    let want = Report { answer: 0, success: success as u8, iters };
    same("decode_ms", code, &(input, most), (report, &ours), (want, &theirs));
    same("decode_ms's working", code, &(input, most), v.iter().all(|&x| x == 0) && t.iter().all(|&x| x == 0), true);
    (success, iters, ours)
}

/// Ends the comparison where what was found is not what was promised of the case.
pub fn hold(what: &str, code: LDPCCode, case: impl Debug, found: impl Debug, promised: impl Debug, kept: bool) {
    if !kept {
        println!("DIFFERENCE from what is promised: {what} of {code:?}\ncase {case:?}\nfound {found:?}\npromised {promised:?}");
        std::process::exit(1)
    }
}

pub fn hold_to(what: &str, code: LDPCCode, case: impl Debug, left: &Left, promised: &Left) {
    hold(what, code, case, left, promised, left == promised)
}

/// How often the wanted word came back, by iteration, and what else came.
#[derive(Default)]
pub struct Returned {
    at: [usize; 4],
    later: usize,
    another: usize,
    none: usize,
}

impl Returned {
    pub fn add(&mut self, (success, iters, output): &Left, wanted: &[u8]) {
        match (success, output == wanted, iters) {
            (true, true, 0..=3) => self.at[*iters] += 1,
            (true, true, _) => self.later += 1,
            (true, false, _) => self.another += 1,
            _ => self.none += 1,
        }
    }

    /// Prints a row, its first cells given, and the iterations from the given one on; gives the number of cases.
    pub fn show(&self, cells: &str, from: usize) -> usize {
        let cases = self.at.iter().sum::<usize>() + self.later + self.another + self.none;
        let at: String = self.at[from..].iter().map(|n| format!("{n} | ")).collect();
        println!("| {cells} | {cases} | {at}{} | {} | {} |", self.later, self.another, self.none);
        cases
    }
}
