//! The archive behind safe functions.
mod c {
    extern "C" {
        pub fn ldpc_params(code: usize, row: *mut usize, row_len: usize) -> u8;
        pub fn ldpc_encode(code: usize, codeword: *mut u8, len: usize) -> u8;
        pub fn ldpc_copy_encode(code: usize, data: *const u8, data_len: usize, codeword: *mut u8, len: usize) -> u8;
        pub fn ldpc_decode_bf(
            code: usize, input: *const u8, input_len: usize, output: *mut u8, output_len: usize,
            working: *mut u8, working_len: usize, maxiters: usize, success: *mut u8, iters: *mut usize,
        ) -> u8;
        pub fn ldpc_decode_ms_i8(
            code: usize, llrs: *const i8, llrs_len: usize, output: *mut u8, output_len: usize,
            working: *mut i8, working_len: usize, working_u8: *mut u8, working_u8_len: usize,
            maxiters: usize, success: *mut u8, iters: *mut usize,
        ) -> u8;
        pub fn ldpc_hard_to_llrs_i8(code: usize, input: *const u8, input_len: usize, llrs: *mut i8, llrs_len: usize) -> u8;
        pub fn ldpc_llrs_to_hard_i8(code: usize, llrs: *const i8, llrs_len: usize, output: *mut u8, output_len: usize) -> u8;
        pub fn measure_walk(code: usize) -> usize;
        pub fn measure_runs(code: usize) -> usize;
    }
}

/// What a decoder answers.
#[derive(Clone, Copy, Debug, PartialEq, Eq)]
pub struct Report {
    pub answer: u8,
    pub success: u8,
    pub iters: usize,
}

pub fn params(code: usize, row: &mut [usize]) -> u8 {
    unsafe { c::ldpc_params(code, row.as_mut_ptr(), row.len()) }
}

pub fn encode(code: usize, codeword: &mut [u8]) -> u8 {
    unsafe { c::ldpc_encode(code, codeword.as_mut_ptr(), codeword.len()) }
}

pub fn copy_encode(code: usize, data: &[u8], codeword: &mut [u8]) -> u8 {
    unsafe { c::ldpc_copy_encode(code, data.as_ptr(), data.len(), codeword.as_mut_ptr(), codeword.len()) }
}

pub fn decode_bf(code: usize, input: &[u8], output: &mut [u8], working: &mut [u8], maxiters: usize) -> Report {
    let (mut success, mut iters) = (77, 77);
    let answer = unsafe {
        c::ldpc_decode_bf(
            code, input.as_ptr(), input.len(), output.as_mut_ptr(), output.len(),
            working.as_mut_ptr(), working.len(), maxiters, &mut success, &mut iters,
        )
    };
    Report { answer, success, iters }
}

pub fn decode_ms(code: usize, llrs: &[i8], output: &mut [u8], working: &mut [i8], signs: &mut [u8], maxiters: usize) -> Report {
    let (mut success, mut iters) = (77, 77);
    let answer = unsafe {
        c::ldpc_decode_ms_i8(
            code, llrs.as_ptr(), llrs.len(), output.as_mut_ptr(), output.len(), working.as_mut_ptr(), working.len(),
            signs.as_mut_ptr(), signs.len(), maxiters, &mut success, &mut iters,
        )
    };
    Report { answer, success, iters }
}

pub fn hard_to_llrs(code: usize, input: &[u8], llrs: &mut [i8]) -> u8 {
    unsafe { c::ldpc_hard_to_llrs_i8(code, input.as_ptr(), input.len(), llrs.as_mut_ptr(), llrs.len()) }
}

pub fn llrs_to_hard(code: usize, llrs: &[i8], output: &mut [u8]) -> u8 {
    unsafe { c::ldpc_llrs_to_hard_i8(code, llrs.as_ptr(), llrs.len(), output.as_mut_ptr(), output.len()) }
}

pub fn walk(code: usize) -> usize {
    unsafe { c::measure_walk(code) }
}

pub fn runs(code: usize) -> usize {
    unsafe { c::measure_runs(code) }
}
