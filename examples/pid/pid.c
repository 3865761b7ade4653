/* A speed controller: reads up to 64 samples of a speed sensor, two bytes each, and writes as many settings of a motor, two bytes each.
   Each sample goes through one step of a scalar Kalman filter and one of a PID controller, in fixed point with 8 bits behind the point.
   Freestanding: the machine's services stand in services.h. */

#include "../services.h"

#define SAMPLES 64
#define TARGET (120 << 8)

static unsigned char samples[2 * SAMPLES];
static unsigned char settings[2 * SAMPLES];

static int estimate, variance = 64 << 8, integral, last;

/* One step of the filter: the estimate moves to the sample by the gain, which is the variance over the variance and the sensor's noise. */
static __attribute__((noinline)) int filtered(int sample) {
    variance += 16;
    int gain = (variance << 8) / (variance + (32 << 8));
    estimate += gain * (sample - estimate) >> 8;
    variance -= gain * variance >> 8;
    return estimate;
}

static int within(int value, int low, int high) {
    return value < low ? low : value > high ? high : value;
}

/* One step of the controller. */
static __attribute__((noinline)) int controlled(int speed) {
    int error = TARGET - speed;
    integral = within(integral + error, -(1 << 20), 1 << 20);
    int change = error - last;
    last = error;
    return within((3 * error >> 1) + (integral >> 4) + (change >> 2), 0, 255 << 8);
}

/* The entry sets the global pointer, by which the linker reaches the samples. */
asm(".globl _start\n_start:\n\t.option push\n\t.option norelax\n\tla gp, __global_pointer$\n\t.option pop\n\tj job");

__attribute__((noreturn)) void job(void) {
    int count = read_bytes(samples, 2 * SAMPLES) >> 1;
    for (int k = 0; k < count; k++) {
        int setting = controlled(filtered(samples[2 * k] << 8 | samples[2 * k + 1]));
        settings[2 * k] = setting >> 8;
        settings[2 * k + 1] = setting;
    }
    write_bytes(settings, 2 * SAMPLES);
    leave(0);
}
