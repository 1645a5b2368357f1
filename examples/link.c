/* Encodes a frame of TC128, flips four bits, and has both decoders put it right. Its status is 1 where a step went wrong.
 * examples/link-c builds the library and this, and runs it. */
#include <stdio.h>
#include <string.h>

#include "labrador_ldpc.h"

enum { CODE = 0, N = 128, K = 64 };

static void show(const char *what, const uint8_t *bytes, size_t len) {
    printf("%s ", what);
    for (size_t i = 0; i < len; i++) printf("%02x", bytes[i]);
    printf("\n");
}

static int wrong;

static void check(int holds, const char *what) {
    if (holds) return;
    printf("WRONG: %s\n", what);
    wrong = 1;
}

int main(void) {
    static const uint8_t data[K / 8] = {0, 1, 2, 3, 4, 5, 6, 7};
    static const uint8_t codeword[N / 8] = {0,    1,    2,    3,    4,    5,    6,    7,
                                            0x34, 0x99, 0x98, 0x87, 0x94, 0xe1, 0x62, 0x56};
    uint8_t sent[N / 8], received[N / 8], output[N / 8], bytes[128], signs[8], success, answer;
    int8_t llrs[N], soft[1280];
    size_t iters;

    answer = ldpc_copy_encode(CODE, data, sizeof data, sent, sizeof sent);
    show("sent", sent, sizeof sent);
    check(answer == LDPC_ACCEPTED && memcmp(sent, codeword, sizeof sent) == 0, "the encoder");
    memcpy(received, codeword, sizeof received);
    received[0] ^= 0x55;
    show("received", received, sizeof received);

    memset(output, 0, sizeof output);
    answer = ldpc_decode_bf(CODE, received, sizeof received, output, sizeof output, bytes, sizeof bytes, 20, &success, &iters);
    printf("bit flipping: answer %d, success %d, iterations %zu\n", answer, success, iters);
    show("output", output, sizeof output);
    check(answer == LDPC_ACCEPTED && success == 1 && memcmp(output, codeword, sizeof output) == 0, "bit flipping");

    memset(output, 0, sizeof output);
    answer = ldpc_hard_to_llrs_i8(CODE, received, sizeof received, llrs, sizeof llrs);
    check(answer == LDPC_ACCEPTED, "bits to confidences");
    answer = ldpc_decode_ms_i8(CODE, llrs, sizeof llrs, output, sizeof output, soft, sizeof soft, signs, sizeof signs, 20, &success, &iters);
    printf("min-sum: answer %d, success %d, iterations %zu\n", answer, success, iters);
    show("output", output, sizeof output);
    check(answer == LDPC_ACCEPTED && success == 1 && memcmp(output, codeword, sizeof output) == 0, "min-sum");
    return wrong;
}
