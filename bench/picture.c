/* The picture of document 01 with 02's W2 in plain C: the yardstick of bench/pictures, not proved.
 * It reads cases in test_held_stores' bytes (tests/reference/README.md), all of them picture calls, and gives test_held_stores' answers.
 * It does not look at refusal 14: the cases have none. */
#include <stdint.h>
#include <stdio.h>
#include <string.h>

enum { STORE = 5320, CALL = 8, ANSWER = 12, BUFFER = 1300, LANES_AT = 56, LANE = 458, LINE = 19, RECORD = 19 };

/* Line i of lane k: VALID, PRIVATE, block, four words. */
static const uint8_t *line_at(const uint8_t *store, unsigned k, unsigned i) {
    return store + LANES_AT + LANE * k + LINE * i;
}

static size_t valid_lines(const uint8_t *store) {
    size_t count = 0;
    for (unsigned k = 0; k < store[0]; k++)
        for (unsigned i = 0; i < store[1]; i++) count += line_at(store, k, i)[0];
    return count;
}

/* By block, then by lane, then by line; the length, or -1 where the lent buffer is too short. */
static long picture(const uint8_t *store, uint8_t *buffer, size_t lent) {
    uint8_t *at = buffer;
    if (lent < RECORD * valid_lines(store)) return -1;
    for (unsigned a = 0; a < store[2]; a++)
        for (unsigned k = 0; k < store[0]; k++)
            for (unsigned i = 0; i < store[1]; i++) {
                const uint8_t *line = line_at(store, k, i);
                if (!line[0] || line[2] != a) continue;
                at[0] = 0x10;
                at[1] = (uint8_t)k;
                at[2] = (uint8_t)a;
                memcpy(at + 3, line + 3, 16);
                at += RECORD;
            }
    return at - buffer;
}

int main(void) {
    static uint8_t in[STORE + CALL], out[ANSWER + STORE + BUFFER];
    while (fread(in, 1, sizeof in, stdin) == sizeof in) {
        const uint8_t *call = in + STORE;
        size_t lent = call[3] | (size_t)call[4] << 8;
        memset(out, 0, ANSWER);
        memcpy(out + ANSWER, in, STORE);
        memset(out + ANSWER + STORE, 0xA5, BUFFER);
        long length = picture(in, out + ANSWER + STORE, lent);
        out[0] = length < 0 ? 4 : 5;
        out[1] = length < 0 ? 15 : 0;
        if (length >= 0) {
            out[2] = (uint8_t)length;
            out[3] = (uint8_t)(length >> 8);
        }
        if (fwrite(out, 1, sizeof out, stdout) != sizeof out) return 1;
    }
    return 0;
}
