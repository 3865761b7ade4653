/* Takes spikes out of a signal: reads up to 64 samples, one byte each, and writes for each the median of itself and the eight before it. The
   window is sorted by insertion, which takes long only where the samples fall.
   Freestanding: the machine's services stand in services.h. */

#include "../services.h"

#define SAMPLES 64
#define WINDOW 9

static unsigned char samples[SAMPLES];
static unsigned char medians[SAMPLES];

static __attribute__((noinline)) int median(const unsigned char *window) {
    unsigned char sorted[WINDOW];
    for (int k = 0; k < WINDOW; k++) {
        int value = window[k], place = k;
        while (place > 0 && sorted[place - 1] > value) {
            sorted[place] = sorted[place - 1];
            place--;
        }
        sorted[place] = value;
    }
    return sorted[WINDOW / 2];
}

/* The entry sets the global pointer, by which the linker reaches the samples. */
asm(".globl _start\n_start:\n\t.option push\n\t.option norelax\n\tla gp, __global_pointer$\n\t.option pop\n\tj job");

__attribute__((noreturn)) void job(void) {
    int count = read_bytes(samples, SAMPLES);
    for (int k = WINDOW - 1; k < count; k++)
        medians[k] = median(samples + k - WINDOW + 1);
    write_bytes(medians, SAMPLES);
    leave(0);
}
