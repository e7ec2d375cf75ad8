/* The plain read, in a file of its own so that it is called and not taken apart. */
#include "read.h"

/* Two words at once, as every x86-64 and Arm processor reads them: what is measured against does not hang on what a compiler makes of a loop. */
typedef uint64_t pair __attribute__((vector_size(16)));

static pair pair_at(const uint8_t *bytes) {
    pair words;
    memcpy(&words, bytes, sizeof words);
    return words;
}

/* Four sums of pairs, so that no sum waits for the one before. */
uint64_t read_all(const uint8_t *bytes, size_t length) {
    pair a = {0, 0}, b = {0, 0}, c = {0, 0}, d = {0, 0};
    size_t i = 0;
    for (; i + 64 <= length; i += 64) {
        a += pair_at(bytes + i);
        b += pair_at(bytes + i + 16);
        c += pair_at(bytes + i + 32);
        d += pair_at(bytes + i + 48);
    }
    a += b + c + d;
    uint64_t sum = a[0] + a[1];
    for (; i < length; i++)
        sum += bytes[i];
    return sum;
}
