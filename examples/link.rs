// Encodes a frame of TC128, flips a bit, and has it put right. It stops where a step went wrong.
// examples/link-rust builds the library and this, and runs it.
extern "C" {
    fn ldpc_copy_encode(code: usize, data: *const u8, data_len: usize, codeword: *mut u8, codeword_len: usize) -> u8;
    fn ldpc_decode_bf(
        code: usize, input: *const u8, input_len: usize, output: *mut u8, output_len: usize, working: *mut u8,
        working_len: usize, maxiters: usize, success: *mut u8, iters: *mut usize,
    ) -> u8;
}

/// What a decoder answers: the number of a refusal, or whether it succeeded and at which iteration.
fn decode_bf(code: usize, input: &[u8], output: &mut [u8], working: &mut [u8], maxiters: usize) -> Result<(bool, usize), u8> {
    let (mut success, mut iters) = (0, 0);
    let answer = unsafe {
        ldpc_decode_bf(
            code, input.as_ptr(), input.len(), output.as_mut_ptr(), output.len(), working.as_mut_ptr(), working.len(),
            maxiters, &mut success, &mut iters,
        )
    };
    if answer == 0 { Ok((success == 1, iters)) } else { Err(answer) }
}

fn main() {
    let data = [0u8, 1, 2, 3, 4, 5, 6, 7];
    let mut frame = [0u8; 16];
    let answer = unsafe { ldpc_copy_encode(0, data.as_ptr(), data.len(), frame.as_mut_ptr(), frame.len()) };
    println!("sent     {frame:02x?}");
    assert_eq!(answer, 0);
    assert_eq!(frame, [0, 1, 2, 3, 4, 5, 6, 7, 0x34, 0x99, 0x98, 0x87, 0x94, 0xe1, 0x62, 0x56]);
    let mut received = frame;
    received[0] ^= 1;
    let (mut output, mut working) = ([0u8; 16], [0u8; 128]);
    let decoded = decode_bf(0, &received, &mut output, &mut working, 20);
    println!("decoded  {decoded:?}");
    println!("output   {output:02x?}");
    assert!(matches!(decoded, Ok((true, _))));
    assert_eq!(output, frame);
    let refused = decode_bf(0, &received, &mut output, &mut working[..127], 20);
    println!("refused  {refused:?}");
    assert_eq!(refused, Err(4));
    assert_eq!(output, frame);
}
