/* Decodes 16 blocks of a picture in the manner of a video codec: reads up to 256 bytes, and writes the sum of each block's 64 values, two
   bytes each. A block begins with the number of its coefficients; behind it stand a place and a value for each. Most blocks of a picture that
   hardly moves have none, and are left as they were: only the others go through the inverse transform, rows and columns.
   Freestanding: the machine's services stand in services.h. */

#include "../services.h"

#define BLOCKS 16
#define INPUT 256

static unsigned char input[INPUT];
static unsigned char sums[2 * BLOCKS];
static int block[64];

/* Four butterflies over eight values that lie a step apart: an inverse Haar transform in three stages. */
static __attribute__((noinline)) void inverse(int *line, int step) {
    int parts[8];
    for (int half = 1; half < 8; half *= 2) {
        for (int k = 0; k < half; k++) {
            int mean = line[k * step], detail = line[(k + half) * step];
            parts[2 * k] = mean + detail;
            parts[2 * k + 1] = mean - detail;
        }
        for (int k = 0; k < 2 * half; k++)
            line[k * step] = parts[k];
    }
}

static __attribute__((noinline)) int decoded(const unsigned char *coefficients, int count) {
    for (int k = 0; k < 64; k++)
        block[k] = 0;
    for (int k = 0; k < count; k++)
        block[coefficients[2 * k] & 63] = (signed char)coefficients[2 * k + 1];
    for (int k = 0; k < 8; k++)
        inverse(block + 8 * k, 1);
    for (int k = 0; k < 8; k++)
        inverse(block + k, 8);
    int sum = 0;
    for (int k = 0; k < 64; k++)
        sum += block[k];
    return sum;
}

/* The entry sets the global pointer, by which the linker reaches the input. */
asm(".globl _start\n_start:\n\t.option push\n\t.option norelax\n\tla gp, __global_pointer$\n\t.option pop\n\tj job");

__attribute__((noreturn)) void job(void) {
    int length = read_bytes(input, INPUT), at = 0;
    for (int k = 0; k < BLOCKS; k++) {
        int count = at < length ? input[at] & 15 : 0, sum = 0;
        if (count != 0 && at + 2 * count < length)
            sum = decoded(input + at + 1, count);
        at += 1 + 2 * count;
        sums[2 * k] = sum >> 8;
        sums[2 * k + 1] = sum;
    }
    write_bytes(sums, 2 * BLOCKS);
    leave(0);
}
