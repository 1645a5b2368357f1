//! The parameters of the codes and every edge of `iter_paritychecks`, as the program `edges` writes them.
use compare::CODES;
use std::io::{BufWriter, Write};

fn main() -> std::io::Result<()> {
    let mut out = BufWriter::new(std::io::stdout().lock());
    for code in CODES {
        let p = code.params();
        writeln!(
            out,
            "{} {} {} {} {} {} {} {} {} {}",
            p.n,
            p.k,
            p.punctured_bits,
            p.submatrix_size,
            p.circulant_size,
            p.paritycheck_sum,
            p.decode_bf_working_len,
            p.decode_ms_working_len,
            p.decode_ms_working_u8_len,
            p.output_len
        )?;
        for (check, bit) in code.iter_paritychecks() {
            writeln!(out, "{check} {bit}")?;
        }
    }
    out.flush()
}
