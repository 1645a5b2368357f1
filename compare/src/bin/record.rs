//! Answers of the Rust, as the list that the program `replay` runs: record >FILE
//!
//! A case is five bytes, what is read, and what must be written. The five: the operation (1 encode, 2 bit flipping,
//! 3 min-sum on i8, 4 hard_to_llrs, 5 llrs_to_hard), the code, the limit, success and iterations. A confidence is a byte,
//! its value modulo 256. The lengths follow from the operation and the code. A bench sheet is operation 6: its head has the
//! lengths of the text and of the answer, low byte first. Five zeros end the list.
use compare::{confidences, flip, frame, received, sheet, Dice, CODES};
use labrador_ldpc::LDPCCode;
use std::io::{BufWriter, Write};

/// How many cases there are of each code and operation; of a decoder's at least half do not end at iteration 0.
const EACH: usize = 50;

fn bytes(soft: &[i8]) -> Vec<u8> {
    soft.iter().map(|&x| x as u8).collect()
}

struct List<W: Write> {
    out: W,
    cases: usize,
}

impl<W: Write> List<W> {
    fn put(&mut self, head: [usize; 5], read: &[u8], written: &[u8]) -> std::io::Result<()> {
        self.cases += 1;
        self.out.write_all(&head.map(|x| u8::try_from(x).unwrap()))?;
        self.out.write_all(read)?;
        self.out.write_all(written)
    }
}

fn plain<W: Write>(list: &mut List<W>, i: usize, code: LDPCCode, dice: &mut Dice) -> std::io::Result<()> {
    let mut data = vec![0; code.k() / 8];
    let mut word = vec![0; code.n() / 8];
    dice.fill(&mut data);
    code.copy_encode(&data, &mut word);
    list.put([1, i, 0, 1, 0], &data, &word)?;
    let mut soft = vec![0i8; code.n()];
    dice.fill(&mut word);
    code.hard_to_llrs(&word, &mut soft);
    list.put([4, i, 0, 1, 0], &word, &bytes(&soft))?;
    let soft = confidences(code, dice);
    code.llrs_to_hard(&soft, &mut word);
    list.put([5, i, 0, 1, 0], &bytes(&soft), &word)
}

/// Cases of a decoder: every second one is taken only if it does not end at iteration 0.
fn decoded<W: Write>(list: &mut List<W>, i: usize, code: LDPCCode, dice: &mut Dice, op: usize) -> std::io::Result<()> {
    let mut output = vec![0; code.output_len()];
    let mut taken = 0;
    while taken < EACH {
        let most = [1, 2, 3, 20, 50, 0][dice.below(6)];
        let (read, success, iters) = if op == 2 {
            let input = received(code, dice);
            let (success, iters) = code.decode_bf(&input, &mut output, &mut vec![0; code.decode_bf_working_len()], most);
            (input, success, iters)
        } else {
            let input = confidences(code, dice);
            let mut soft = vec![0i8; code.decode_ms_working_len()];
            let (success, iters) = code.decode_ms(&input, &mut output, &mut soft, &mut vec![0; code.decode_ms_working_u8_len()], most);
            (bytes(&input), success, iters)
        };
        if taken % 2 == 0 || (iters > 0 && most > 0) {
            list.put([op, i, most, success as usize, iters], &read, &output)?;
            taken += 1;
        }
    }
    Ok(())
}

fn hex(bytes: &[u8]) -> String {
    bytes.iter().map(|b| format!("{b:02x}")).collect()
}

fn text(code: usize, op: &str, maxiters: &str, frame: &str) -> String {
    format!("code={code}\nop={op}\nmaxiters={maxiters}\nframe={frame}\n")
}

/// Sheets of every code and operation, with frames of right and of wrong lengths.
fn sheets() -> Vec<String> {
    let mut all = Vec::new();
    let mut dice = Dice::new(2000);
    for (i, &code) in CODES.iter().enumerate() {
        let data: Vec<u8> = frame(code, &mut dice)[..code.k() / 8].to_vec();
        all.extend(["0", "7"].map(|most| text(i, "encode", most, &hex(&data))));
        for (flips, most) in [(0, "0"), (0, "1"), (0, "4294967295"), (1, "20"), (3, "20"), (code.n() / 4, "3")] {
            let mut word = frame(code, &mut dice);
            flip(&mut word, &mut dice, flips);
            all.extend(["bf", "ms"].map(|op| text(i, op, most, &hex(&word))));
        }
        for op in ["encode", "bf", "ms"] {
            let right = if op == "encode" { code.k() / 8 } else { code.n() / 8 };
            all.extend([0, 1, right - 1, right + 1].map(|len| text(i, op, "1", &"5a".repeat(len))));
        }
    }
    let unknown = CODES.len();
    all.extend(["encode", "bf", "ms"].map(|op| text(unknown, op, "1", "")));
    all.push(text(unknown, "bf", "1", &"00".repeat(16)));
    // 8,192 bytes that are well formed
    all.push(text(0, "bf", "10", &"0".repeat(8160)));
    all
}

/// Texts that are no sheet.
fn malformed() -> Vec<Vec<u8>> {
    let zeros = "00".repeat(16);
    let good = text(0, "bf", "1", &zeros);
    let mut all: Vec<String> = ["", "00", "01", "+1", "-1", " 1", "1 ", "1x", "4294967296", "99999999999999999999", "0x1", "1e3"]
        .iter()
        .flat_map(|most| ["encode", "bf"].map(|op| text(0, op, most, &zeros)))
        .collect();
    all.push(text(0, "ms", &"9".repeat(3000), &zeros));
    all.push(text(0, "ms", &("0".repeat(3000) + "1"), &zeros));
    all.extend(["", "Bf", "BF", "b", "bff", "bf ", " bf", "encode\r", "decode"].map(|op| text(0, op, "1", &zeros)));
    all.extend(["0", "000", "0A", "0g", "0 0 ", "0x00", "/0", ":0", "`0", "g0", "-1", "00\r"].map(|frame| text(0, "bf", "1", frame)));
    all.extend(["", "10", "00", "a", "-", " 0", "0 ", "/", ":"].map(|code| good.replace("code=0", &format!("code={code}"))));
    for key in ["code=", "op=", "maxiters=", "frame="] {
        all.push(good.replace(key, &key.to_uppercase()));
        all.push(good.replace(key, &key.replace('=', " = ")));
        all.push(good.replace(key, &key.replace('=', "")));
        all.push(good.replace(key, &format!("{key}=")));
        all.push(good.replace(key, &format!(" {key}")));
        all.push(good.split_inclusive('\n').filter(|line| !line.starts_with(key)).collect());
        all.push(good.split_inclusive('\n').flat_map(|line| if line.starts_with(key) { vec![line, line] } else { vec![line] }).collect());
    }
    all.push(String::new());
    all.push("\n".to_string());
    all.push("\n\n\n\n".to_string());
    all.push(good.trim_end().to_string());
    all.push(good.clone() + "\n");
    all.push(good.clone() + "x");
    all.push("\n".to_string() + &good);
    all.push(good.replace('\n', "\r\n"));
    all.push(good.replace('\n', "\n\n"));
    all.push(good.replace('\n', "\0"));
    all.push(good.split_inclusive('\n').rev().collect());
    all.push(text(0, "bf", "100", &"0".repeat(8160)));
    all.push("code=0\n".repeat(1171)[..8193].to_string());
    let mut all: Vec<Vec<u8>> = all.into_iter().map(String::into_bytes).collect();
    all.extend([0, 0x80, 0xff].map(|byte| {
        let mut text = good.clone().into_bytes();
        text[40] = byte;
        text
    }));
    all
}

fn sheet_cases<W: Write>(list: &mut List<W>) -> std::io::Result<()> {
    let good = sheets();
    let bad = malformed();
    assert!(good.iter().all(|text| !sheet::answer(text.as_bytes()).starts_with("answer=9")));
    assert!(bad.iter().all(|text| sheet::answer(text).starts_with("answer=9")));
    for text in good.into_iter().map(String::into_bytes).chain(bad) {
        let answer = sheet::answer(&text);
        let (t, a) = (text.len(), answer.len());
        list.put([6, t % 256, t / 256, a % 256, a / 256], &text, answer.as_bytes())?;
    }
    Ok(())
}

fn main() -> std::io::Result<()> {
    let mut list = List { out: BufWriter::new(std::io::stdout().lock()), cases: 0 };
    for (i, &code) in CODES.iter().enumerate() {
        let mut dice = Dice::new(1000 + i as u64);
        for _ in 0..EACH {
            plain(&mut list, i, code, &mut dice)?;
        }
        decoded(&mut list, i, code, &mut dice, 2)?;
        decoded(&mut list, i, code, &mut dice, 3)?;
    }
    sheet_cases(&mut list)?;
    list.out.write_all(&[0; 5])?;
    list.out.flush()?;
    eprintln!("{} cases", list.cases);
    Ok(())
}
