//! Compares every answer, count and output byte of the two libraries, or times them: compare [CASES] | compare few | compare time
mod both;
mod flips;
mod telemetry;

use both::*;
use compare::archive::*;
use compare::*;
use labrador_ldpc::LDPCCode;
use std::hint::black_box;
use std::time::Instant;

/// How many cases of one operation ended in which way.
#[derive(Default)]
struct Tally {
    cases: usize,
    at_once: usize,
    later: usize,
    spent: usize,
}

impl Tally {
    fn add(&mut self, success: bool, iters: usize) {
        self.cases += 1;
        match (success, iters) {
            (true, 0) => self.at_once += 1,
            (true, _) => self.later += 1,
            _ => self.spent += 1,
        }
    }
}

/// Ends the comparison at a difference, with the input that shows it.
fn differ<T: std::fmt::Debug, U: std::fmt::Debug>(what: &str, code: LDPCCode, input: &T, ours: U, theirs: U) -> ! {
    println!("DIFFERENCE in {what} of {code:?}\ninput {input:?}\nours {ours:?}\nthe Rust's {theirs:?}");
    std::process::exit(1)
}

fn same<T: std::fmt::Debug, U: std::fmt::Debug + PartialEq>(what: &str, code: LDPCCode, input: &T, ours: U, theirs: U) {
    if ours != theirs {
        differ(what, code, input, ours, theirs)
    }
}

fn compare_params(i: usize, code: LDPCCode) {
    let p = code.params();
    let mut row = [0; 10];
    let answer = params(i, &mut row);
    let theirs = [
        p.n,
        p.k,
        p.punctured_bits,
        p.submatrix_size,
        p.circulant_size,
        p.paritycheck_sum as usize,
        p.decode_bf_working_len,
        p.decode_ms_working_len,
        p.decode_ms_working_u8_len,
        p.output_len,
    ];
    same("params", code, &i, (answer, row), (0, theirs));
}

fn encode_one(i: usize, code: LDPCCode, data: &[u8]) {
    let mut theirs = vec![0; code.n() / 8];
    code.copy_encode(data, &mut theirs);
    let mut ours = vec![0x5a; code.n() / 8];
    let answer = copy_encode(i, data, &mut ours);
    same("copy_encode", code, &data, (answer, &ours), (0, &theirs));
    ours[code.k() / 8..].fill(0xa5);
    let answer = encode(i, &mut ours);
    same("encode", code, &data, (answer, &ours), (0, &theirs));
}

fn compare_encode(i: usize, code: LDPCCode, random: usize, dice: &mut Dice) -> usize {
    let mut data = vec![0; code.k() / 8];
    for bit in 0..code.k() {
        data.fill(0);
        data[bit / 8] = 128 >> (bit % 8);
        encode_one(i, code, &data);
    }
    for _ in 0..random {
        dice.fill(&mut data);
        encode_one(i, code, &data);
    }
    2 * (code.k() + random)
}

fn compare_bf(i: usize, code: LDPCCode, cases: usize, dice: &mut Dice) -> Tally {
    let mut tally = Tally::default();
    for _ in 0..cases {
        let input = received(code, dice);
        let most = limit(dice);
        let (success, iters, _) = decode_bf_both(i, code, &input, most, dice);
        tally.add(success, iters);
    }
    tally
}

fn zero_word(code: LDPCCode, dice: &mut Dice) -> Vec<i8> {
    (0..code.n()).map(|_| dice.below(128) as i8).collect()
}

fn compare_ms(i: usize, code: LDPCCode, cases: usize, dice: &mut Dice) -> Tally {
    let mut tally = Tally::default();
    for _ in 0..cases {
        // the zero word at any strengths is a TM code's way to a success at 0
        let input = if dice.below(6) == 0 { zero_word(code, dice) } else { confidences(code, dice) };
        let most = limit(dice);
        let (success, iters, _) = decode_ms_both(i, code, &input, most, dice);
        tally.add(success, iters);
    }
    tally
}

fn compare_conversions(i: usize, code: LDPCCode, cases: usize, dice: &mut Dice) -> usize {
    let (mut theirs, mut ours) = (vec![0i8; code.n()], vec![0i8; code.n()]);
    let (mut hard, mut word) = (vec![0; code.n() / 8], vec![0; code.n() / 8]);
    for _ in 0..cases {
        dice.fill(&mut word);
        code.hard_to_llrs(&word, &mut theirs);
        let answer = hard_to_llrs(i, &word, &mut ours);
        same("hard_to_llrs", code, &word, (answer, &ours), (0, &theirs));
        let soft = confidences(code, dice);
        code.llrs_to_hard(&soft, &mut hard);
        let answer = llrs_to_hard(i, &soft, &mut word);
        same("llrs_to_hard", code, &soft, (answer, &word), (0, &hard));
    }
    2 * cases
}

/// The lengths around a right one, and some far from it.
fn lengths(right: usize) -> Vec<usize> {
    let mut all = vec![0, 1, right.saturating_sub(1), right, right + 1, 2 * right, right / 2];
    all.dedup();
    all
}

/// A buffer between guard bytes; `kept` says that neither the guards nor, if asked, the buffer changed.
struct Guarded {
    bytes: Vec<u8>,
    len: usize,
}

impl Guarded {
    fn new(len: usize) -> Self {
        Guarded { bytes: vec![0xc3; len + 64], len }
    }

    fn part(&mut self) -> &mut [u8] {
        let len = self.len;
        &mut self.bytes[32..32 + len]
    }

    fn soft(&mut self) -> &mut [i8] {
        let part = self.part();
        unsafe { std::slice::from_raw_parts_mut(part.as_mut_ptr() as *mut i8, part.len()) }
    }

    fn kept(&self, whole: bool) -> bool {
        let guards = self.bytes[..32].iter().chain(&self.bytes[32 + self.len..]).all(|&b| b == 0xc3);
        guards && (!whole || self.bytes.iter().all(|&b| b == 0xc3))
    }
}

/// The first test that fails, as document 01 numbers them.
fn refusal(known: bool, wrong: &[(bool, u8)]) -> u8 {
    if !known {
        return 1;
    }
    wrong.iter().find(|w| w.0).map_or(0, |w| w.1)
}

fn refuse_encoders(code: usize, known: bool, n: usize, k: usize) -> usize {
    let mut cases = 0;
    for a in lengths(n / 8) {
        let mut word = Guarded::new(a);
        let answer = encode(code, word.part());
        assert_eq!(answer, refusal(known, &[(a != n / 8, 3)]), "encode {code} {a}");
        assert!(word.kept(answer != 0), "encode wrote {code} {a}");
        cases += 1;
        for d in lengths(k / 8) {
            let (data, mut word) = (vec![7; d], Guarded::new(a));
            let answer = copy_encode(code, &data, word.part());
            assert_eq!(answer, refusal(known, &[(d != k / 8, 2), (a != n / 8, 3)]), "copy_encode {code} {d} {a}");
            assert!(word.kept(answer != 0), "copy_encode wrote {code} {d} {a}");
            cases += 1;
        }
    }
    cases
}

fn refuse_decoders(code: usize, known: bool, row: &[usize; 10]) -> usize {
    let mut cases = 0;
    let (n, bf, ms, signs, out) = (row[0], row[6], row[7], row[8], row[9]);
    for a in lengths(n / 8) {
        for o in lengths(out) {
            for w in lengths(bf) {
                let (input, mut output, mut working) = (vec![9; a], Guarded::new(o), Guarded::new(w));
                let report = decode_bf(code, &input, output.part(), working.part(), 1);
                let want = refusal(known, &[(a != n / 8, 2), (o != out, 3), (w != bf, 4)]);
                assert_eq!(report.answer, want, "decode_bf {code} {a} {o} {w}");
                assert!(want == 0 || (report.success, report.iters) == (0, 0), "decode_bf reports {code} {a} {o} {w}");
                assert!(output.kept(want != 0) && working.kept(want != 0), "decode_bf wrote {code} {a} {o} {w}");
                cases += 1;
            }
        }
    }
    for a in lengths(n) {
        for o in lengths(out) {
            for (w, s) in lengths(ms).into_iter().flat_map(|w| lengths(signs).into_iter().map(move |s| (w, s))) {
                let (input, mut output, mut working, mut bits) = (vec![3; a], Guarded::new(o), Guarded::new(w), Guarded::new(s));
                let report = decode_ms(code, &input, output.part(), working.soft(), bits.part(), 1);
                let want = refusal(known, &[(a != n, 2), (o != out, 3), (w != ms, 4), (s != signs, 5)]);
                assert_eq!(report.answer, want, "decode_ms {code} {a} {o} {w} {s}");
                assert!(want == 0 || (report.success, report.iters) == (0, 0), "decode_ms reports {code} {a} {o} {w} {s}");
                assert!(output.kept(want != 0) && working.kept(want != 0) && bits.kept(want != 0), "decode_ms wrote {code}");
                cases += 1;
            }
        }
        for h in lengths(n / 8) {
            let (soft, mut output) = (vec![-3; a], Guarded::new(h));
            let answer = llrs_to_hard(code, &soft, output.part());
            assert_eq!(answer, refusal(known, &[(a != n, 2), (h != n / 8, 3)]), "llrs_to_hard {code} {a} {h}");
            assert!(output.kept(answer != 0), "llrs_to_hard wrote {code} {a} {h}");
            let (hard, mut soft) = (vec![5; h], Guarded::new(a));
            let answer = hard_to_llrs(code, &hard, soft.soft());
            assert_eq!(answer, refusal(known, &[(h != n / 8, 2), (a != n, 3)]), "hard_to_llrs {code} {h} {a}");
            assert!(soft.kept(answer != 0), "hard_to_llrs wrote {code} {h} {a}");
            cases += 2;
        }
    }
    cases
}

fn compare_refusals() -> usize {
    let mut cases = 0;
    for code in (0..=CODES.len()).chain([255, usize::MAX]) {
        let known = code < CODES.len();
        let mut row = [5; 10];
        assert_eq!(params(code, &mut row), !known as u8, "params {code}");
        assert!(known || row == [0; 10], "params {code} leaves no zeros");
        for len in [0, 9, 11] {
            let mut other = vec![5; len];
            assert_eq!(params(code, &mut other), if known { 3 } else { 1 }, "params {code} {len}");
            assert!(other.iter().all(|&x| x == 5), "params wrote {code} {len}");
        }
        let shape = if known { row } else { [128, 64, 0, 16, 16, 512, 128, 1280, 8, 16] };
        cases += 4 + refuse_encoders(code, known, shape[0], shape[1]) + refuse_decoders(code, known, &shape);
    }
    cases
}

/// About how many cases in all, and at least how many for each code and decoder.
fn compare_all(wanted: usize, least: usize) {
    let start = Instant::now();
    let weights = [40, 24, 16, 5, 5, 5, 5, 2, 2];
    let mut total = 0;
    println!("| code | operation | cases | success at 0 | success later | limit spent |\n|-|-|-|-|-|-|");
    for (i, &code) in CODES.iter().enumerate() {
        let mut dice = Dice::new(i as u64 + 1);
        let each = (wanted * weights[i] / 200).max(least);
        compare_params(i, code);
        let encoded = compare_encode(i, code, (least / 10).max(each / 50), &mut dice);
        println!("| {code:?} | encode, copy_encode | {encoded} | | | |");
        let converted = compare_conversions(i, code, each / 20, &mut dice);
        println!("| {code:?} | hard_to_llrs, llrs_to_hard | {converted} | | | |");
        total += encoded + converted;
        for (name, tally) in [("decode_bf", compare_bf(i, code, each, &mut dice)), ("decode_ms i8", compare_ms(i, code, each, &mut dice))] {
            println!("| {code:?} | {name} | {} | {} | {} | {} |", tally.cases, tally.at_once, tally.later, tally.spent);
            total += tally.cases;
        }
        eprintln!("{code:?} done, {total} cases so far, {} s", start.elapsed().as_secs());
    }
    let refused = compare_refusals();
    println!("| all, and unknown codes | every operation at wrong lengths | {refused} | | | |");
    let flipped = flips::compare_flips(2 * least);
    let clean = telemetry::compare_clean(least);
    let damaged = telemetry::compare_telemetry_flips(least / 5);
    println!("\n{} cases, no difference, {} s", total + refused + flipped + clean + damaged, start.elapsed().as_secs());
}

fn sink<T>(_: T) {}

/// The best time of one of two, in microseconds, of several runs that take turns.
fn race(mut ours: impl FnMut(usize), mut theirs: impl FnMut(usize)) -> (f64, f64) {
    let mut best = (f64::MAX, f64::MAX);
    let one = |f: &mut dyn FnMut(usize)| {
        let (start, mut n) = (Instant::now(), 0);
        while start.elapsed().as_micros() < 4_000 {
            for turn in 0..8 {
                f(turn);
            }
            n += 8;
        }
        start.elapsed().as_secs_f64() * 1e6 / n as f64
    };
    for _ in 0..15 {
        best.0 = one(&mut ours).min(best.0);
        best.1 = one(&mut theirs).min(best.1);
    }
    best
}

fn show(code: LDPCCode, what: &str, (ours, theirs): (f64, f64)) {
    println!("| {code:?} | {what} | {ours:.2} | {theirs:.2} | {:.2} |", ours / theirs);
}

fn time_decoders(i: usize, code: LDPCCode, flips: usize, name: &str) {
    let mut dice = Dice::new(99 + flips as u64);
    let words: Vec<Vec<u8>> = (0..8)
        .map(|_| {
            let mut word = frame(code, &mut dice);
            flip(&mut word, &mut dice, flips);
            word
        })
        .collect();
    let (mut o, mut p) = (vec![0; code.output_len()], vec![0; code.output_len()]);
    let (mut w, mut v) = (vec![0; code.decode_bf_working_len()], vec![0; code.decode_bf_working_len()]);
    let bf = race(
        |t| sink(black_box(decode_bf(i, black_box(&words[t]), &mut o, &mut w, 20))),
        |t| sink(black_box(code.decode_bf(black_box(&words[t]), &mut p, &mut v, 20))),
    );
    show(code, &format!("decode_bf, {name}"), bf);
    let soft: Vec<Vec<i8>> = words
        .iter()
        .map(|word| {
            let mut llrs = vec![0; code.n()];
            code.hard_to_llrs(word, &mut llrs);
            llrs
        })
        .collect();
    let (mut w, mut v) = (vec![0i8; code.decode_ms_working_len()], vec![0i8; code.decode_ms_working_len()]);
    let (mut s, mut u) = (vec![0; code.decode_ms_working_u8_len()], vec![0; code.decode_ms_working_u8_len()]);
    let ms = race(
        |t| sink(black_box(decode_ms(i, black_box(&soft[t]), &mut o, &mut w, &mut s, 20))),
        |t| sink(black_box(code.decode_ms(black_box(&soft[t]), &mut p, &mut v, &mut u, 20))),
    );
    show(code, &format!("decode_ms i8, {name}"), ms);
}

fn time_all() {
    println!("| code | operation | here, us | the Rust, us | ratio |\n|-|-|-|-|-|");
    for (i, &code) in CODES.iter().enumerate() {
        let mut dice = Dice::new(7);
        let words: Vec<Vec<u8>> = (0..8).map(|_| frame(code, &mut dice)).collect();
        let (mut a, mut b) = (words.clone(), words.clone());
        let times = race(|t| sink(black_box(encode(i, black_box(&mut a[t])))), |t| sink(black_box(code.encode(black_box(&mut b[t][..])).len())));
        show(code, "encode", times);
        let k = code.k() / 8;
        let times = race(
            |t| sink(black_box(copy_encode(i, black_box(&words[t][..k]), &mut a[t]))),
            |t| sink(black_box(code.copy_encode(black_box(&words[t][..k]), &mut b[t][..]).len())),
        );
        show(code, "copy_encode", times);
        time_decoders(i, code, 0, "clean");
        time_decoders(i, code, 3, "3 flips");
        let sum = || code.iter_paritychecks().fold(0, |s, (a, v)| (s % 65536 + a % 65536 + v % 65536) % 65536);
        assert_eq!(walk(i), sum());
        show(code, "the walk, edge by edge", race(|_| sink(black_box(walk(black_box(i)))), |_| sink(black_box(sum()))));
        let (fill, _) = race(|_| sink(black_box(runs(black_box(i)))), |_| ());
        println!("| {code:?} | filling the list of {} runs | {fill:.2} | | |", runs(i));
    }
}

fn main() {
    // a test that fails ends the comparison like any other difference
    std::panic::set_hook(Box::new(|failed| {
        println!("DIFFERENCE {failed}");
        std::process::exit(1)
    }));
    match std::env::args().nth(1).as_deref() {
        Some("time") => time_all(),
        Some("few") => compare_all(0, 40),
        Some(cases) => compare_all(cases.parse().expect("a number of cases, 'few' or 'time'"), 10_000),
        None => compare_all(1_000_000, 10_000),
    }
}
