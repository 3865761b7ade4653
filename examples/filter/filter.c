/* Smooths samples of a sensor: reads up to 64 samples, one byte each, and writes a frame of 66 bytes: for each sample the mean of
   itself and the seven before it, weighted, zeros behind them, and a check sum over the 64 (CRC-16/CCITT).
   Freestanding: the machine's services stand in services.h. */

#include "../services.h"

#define SAMPLES 64
#define TAPS 8

static const unsigned char weights[TAPS] = {1, 3, 7, 11, 11, 7, 3, 1};
static unsigned char samples[SAMPLES];
static unsigned char frame[SAMPLES + 2];

static __attribute__((noinline)) int weighted(int last) {
    int sum = 0;
    for (int tap = 0; tap < TAPS; tap++) {
        if (tap > last)
            break;
        sum += weights[tap] * samples[last - tap];
    }
    return sum / 44;
}

static __attribute__((noinline)) unsigned check_sum(void) {
    unsigned sum = 0xffff;
    for (int k = 0; k < SAMPLES; k++) {
        sum ^= frame[k] << 8;
        for (int bit = 0; bit < 8; bit++)
            sum = (sum << 1) ^ (0x1021 & -(sum >> 15 & 1));
    }
    return sum & 0xffff;
}

/* The entry sets the global pointer, by which the linker reaches the samples. */
asm(".globl _start\n_start:\n\t.option push\n\t.option norelax\n\tla gp, __global_pointer$\n\t.option pop\n\tj job");

__attribute__((noreturn)) void job(void) {
    int count = read_bytes(samples, SAMPLES);
    for (int k = 0; k < count; k++)
        frame[k] = weighted(k);
    unsigned sum = check_sum();
    frame[SAMPLES] = sum >> 8;
    frame[SAMPLES + 1] = sum;
    write_bytes(frame, SAMPLES + 2);
    leave(0);
}
