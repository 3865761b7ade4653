/* One step of a sparse system: reads up to 256 bytes, which give for each of 16 rows the number of its entries (at most 15) and for each entry
   a column and a value, multiplies this matrix by a vector, and writes the 16 results, two bytes each.
   Freestanding: the machine's services stand in services.h. */

#include "../services.h"

#define ROWS 16
#define INPUT 256

static unsigned char input[INPUT];
static unsigned char results[2 * ROWS];
static const short vector[ROWS] = {3, -1, 4, 1, -5, 9, 2, -6, 5, 3, -5, 8, 9, -7, 9, 3};

static __attribute__((noinline)) int row(const unsigned char *entries, int count) {
    int sum = 0;
    for (int k = 0; k < count; k++)
        sum += (signed char)entries[2 * k + 1] * vector[entries[2 * k] & (ROWS - 1)];
    return sum;
}

/* The entry sets the global pointer, by which the linker reaches the input. */
asm(".globl _start\n_start:\n\t.option push\n\t.option norelax\n\tla gp, __global_pointer$\n\t.option pop\n\tj job");

__attribute__((noreturn)) void job(void) {
    int length = read_bytes(input, INPUT), at = 0;
    for (int k = 0; k < ROWS; k++) {
        int count = at < length ? input[at] & 15 : 0;
        if (at + 2 * count >= length)
            count = 0;
        int sum = row(input + at + 1, count);
        at += 1 + 2 * count;
        results[2 * k] = sum >> 8;
        results[2 * k + 1] = sum;
    }
    write_bytes(results, 2 * ROWS);
    leave(0);
}
