//! The bench sheet of documents 01 and 02 over the Rust: the text of the answer to a text.
use crate::CODES;
use labrador_ldpc::LDPCCode;

struct Sheet {
    code: usize,
    op: String,
    maxiters: usize,
    frame: Vec<u8>,
}

/// A number in decimal without leading zeros.
fn number(value: &str) -> Option<u32> {
    let plain = value.bytes().all(|b| b.is_ascii_digit()) && (value == "0" || !value.starts_with('0'));
    if plain { value.parse().ok() } else { None }
}

/// Pairs of lower-case hex digits.
fn bytes(value: &str) -> Option<Vec<u8>> {
    let lower = value.bytes().all(|b| matches!(b, b'0'..=b'9' | b'a'..=b'f'));
    if !lower || value.len() % 2 != 0 {
        return None;
    }
    (0..value.len() / 2).map(|i| u8::from_str_radix(&value[2 * i..2 * i + 2], 16).ok()).collect()
}

fn parse(text: &[u8]) -> Option<Sheet> {
    if text.len() > 8192 {
        return None;
    }
    let lines: Vec<&str> = std::str::from_utf8(text).ok()?.strip_suffix('\n')?.split('\n').collect();
    let [code, op, maxiters, frame] = lines[..] else { return None };
    let code = code.strip_prefix("code=")?;
    let op = op.strip_prefix("op=")?;
    if code.len() != 1 || !["encode", "bf", "ms"].contains(&op) {
        return None;
    }
    Some(Sheet {
        code: number(code)? as usize,
        op: op.to_string(),
        maxiters: number(maxiters.strip_prefix("maxiters=")?)? as usize,
        frame: bytes(frame.strip_prefix("frame=")?)?,
    })
}

fn print(answer: u8, success: bool, iters: usize, output: &[u8]) -> String {
    let hex: String = output.iter().map(|b| format!("{b:02x}")).collect();
    format!("answer={answer}\nsuccess={}\niters={iters}\noutput={hex}\n", success as u8)
}

fn run(code: LDPCCode, sheet: &Sheet) -> String {
    let right = if sheet.op == "encode" { code.k() / 8 } else { code.n() / 8 };
    if sheet.frame.len() != right {
        return print(2, false, 0, &[]);
    }
    if sheet.op == "encode" {
        let mut word = vec![0; code.n() / 8];
        code.copy_encode(&sheet.frame, &mut word);
        return print(0, true, 0, &word);
    }
    let mut output = vec![0; code.output_len()];
    let (success, iters) = if sheet.op == "bf" {
        code.decode_bf(&sheet.frame, &mut output, &mut vec![0; code.decode_bf_working_len()], sheet.maxiters)
    } else {
        let mut llrs = vec![0i8; code.n()];
        code.hard_to_llrs(&sheet.frame, &mut llrs);
        let mut working = vec![0i8; code.decode_ms_working_len()];
        code.decode_ms(&llrs, &mut output, &mut working, &mut vec![0; code.decode_ms_working_u8_len()], sheet.maxiters)
    };
    print(0, success, iters, &output)
}

pub fn answer(text: &[u8]) -> String {
    match parse(text) {
        None => print(9, false, 0, &[]),
        Some(sheet) => match CODES.get(sheet.code) {
            None => print(1, false, 0, &[]),
            // before all lengths: its buffers are too much for a sheet
            Some(LDPCCode::TM8192) if sheet.op == "ms" => print(14, false, 0, &[]),
            Some(&code) => run(code, &sheet),
        },
    }
}
