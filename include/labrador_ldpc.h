/* LDPC codes of CCSDS: liblabrador_ldpc.a.
 *
 * A code is a number: 0 TC128, 1 TC256, 2 TC512, 3 TM1280, 4 TM1536, 5 TM2048, 6 TM5120, 7 TM6144,
 * 8 TM8192.
 * With n, k and p the sent, data and punctured bits of a code, ldpc_params gives every length that a call asks for.
 * Bit i of a byte string is bit 7 - i % 8 of byte i / 8.
 *
 * Every function answers a number:
 *
 *   LDPC_ACCEPTED       0   the call was carried out
 *   LDPC_UNKNOWN_CODE   1   the code is not 0 to 8
 *   LDPC_WRONG_READ     2   the buffer that is read has the wrong length
 *   LDPC_WRONG_WRITTEN  3   the buffer that is written has the wrong length
 *   LDPC_WRONG_WORKING  4   the main working buffer has the wrong length
 *   LDPC_WRONG_SIGNS    5   the sign buffer of min-sum has the wrong length
 *
 * The tests run in this order, and the first that fails is the answer. A call that is refused changes no byte of any
 * buffer, with one exception: ldpc_params, asked for an unknown code, leaves ten zeros. A decoder that refuses sets
 * *success and *iters to 0. After an accepted decode the working buffers hold zeros only.
 *
 * maxiters is any number, and a huge one is honoured: a word that no pass puts right then keeps the decoder busy for as
 * long.
 *
 * Two things cannot be checked and are the caller's: the buffers of one call do not overlap, and each length is the
 * true length of its buffer. */
#ifndef LABRADOR_LDPC_H
#define LABRADOR_LDPC_H

#include <stddef.h>
#include <stdint.h>

#ifdef __cplusplus
extern "C" {
#endif

#define LDPC_ACCEPTED 0
#define LDPC_UNKNOWN_CODE 1
#define LDPC_WRONG_READ 2
#define LDPC_WRONG_WRITTEN 3
#define LDPC_WRONG_WORKING 4
#define LDPC_WRONG_SIGNS 5

#define LDPC_CODES 9

/* Ten numbers: n, k, punctured_bits, submatrix_size, circulant_size, paritycheck_sum, decode_bf_working_len,
 * decode_ms_working_len, decode_ms_working_u8_len, output_len. row_len is 10; any other is 3 and writes nothing.
 * An unknown code is 1, tested first; with row_len 10 it leaves ten zeros. */
uint8_t ldpc_params(size_t code, size_t *row, size_t row_len);

/* The first k/8 of the n/8 bytes are the data; the others become the parity. */
uint8_t ldpc_encode(size_t code, uint8_t *codeword, size_t codeword_len);

/* Copies the k/8 bytes of data to the front of the codeword, n/8 bytes, and encodes it. */
uint8_t ldpc_copy_encode(size_t code, const uint8_t *data, size_t data_len, uint8_t *codeword, size_t codeword_len);

/* Bit flipping. input: n/8 bytes; output: output_len bytes; working: decode_bf_working_len bytes. *success becomes 1
 * where the output meets every parity equation at the start of pass *iters, counted from 0; else it becomes 0 and
 * *iters maxiters. The output is written in both cases. A TC frame with one flipped bit is put right if maxiters is 2
 * or more, with two if it is 4 or more. An unchanged frame comes back with *success 1 and *iters 0 if maxiters is
 * 1 or more: the first n/8 bytes of the output are the frame; of a TM code the others are its punctured bits, the only
 * ones with which every parity equation holds. */
uint8_t ldpc_decode_bf(size_t code, const uint8_t *input, size_t input_len, uint8_t *output, size_t output_len,
                       uint8_t *working, size_t working_len, size_t maxiters, uint8_t *success, size_t *iters);

/* Min-sum. llrs: n confidences, negative for a bit 1; output: output_len bytes; working: decode_ms_working_len
 * numbers; working_u8: decode_ms_working_u8_len bytes. *success becomes 1 where the output meets every parity equation
 * after pass *iters, counted from 0; else it becomes 0 and *iters maxiters. The output is written in both cases. A TC
 * frame with one flipped bit is put right if all confidences are of one size and maxiters is 2 or more.
 * The larger a confidence's size, the surer its bit, on a logarithmic scale of any unit. Messages are added up in 8 bits too:
 * with confidences from -32 to 31 several can be added before a sum is cut at 127 or -128. */
uint8_t ldpc_decode_ms_i8(size_t code, const int8_t *llrs, size_t llrs_len, uint8_t *output, size_t output_len,
                          int8_t *working, size_t working_len, uint8_t *working_u8, size_t working_u8_len,
                          size_t maxiters, uint8_t *success, size_t *iters);

/* n/8 bytes to n confidences: -1 for a bit 1, 1 for a bit 0. */
uint8_t ldpc_hard_to_llrs_i8(size_t code, const uint8_t *input, size_t input_len, int8_t *llrs, size_t llrs_len);

/* n confidences to n/8 bytes: a bit is 1 exactly where its confidence is below 0. */
uint8_t ldpc_llrs_to_hard_i8(size_t code, const int8_t *llrs, size_t llrs_len, uint8_t *output, size_t output_len);

#ifdef __cplusplus
}
#endif

#endif
