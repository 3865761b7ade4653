/* Runs the commands of a motor controller: reads up to 64 commands, one byte each, and writes a frame of 66 bytes: the speed behind each of
   them, zeros behind these, and the heat that the 64 speeds make, in two bytes. The upper three bits of a command say what to do, and
   the lower five by how much.
   Freestanding: the machine's services stand in services.h. */

#include "../services.h"

#define COMMANDS 64

static unsigned char commands[COMMANDS];
static unsigned char frame[COMMANDS + 2];

/* The integer square root of a number below 16,384, bit by bit. */
static __attribute__((noinline)) int root(int square) {
    int found = 0;
    for (int bit = 64; bit != 0; bit >>= 1)
        if ((found + bit) * (found + bit) <= square)
            found += bit;
    return found;
}

/* The speed after a command. */
static __attribute__((noinline)) int after(int speed, int command) {
    int amount = command & 31;
    switch (command >> 5 & 7) {
    case 0:
        return 0;
    case 1:
        return 8 * amount;
    case 2:
        return speed + amount;
    case 3:
        return speed - amount;
    case 4:
        return speed * amount / 31;
    case 5:
        return (7 * speed + 8 * amount) / 8;
    case 6:
        return root(speed * amount);
    default:
        return speed;
    }
}

/* The heat of a motor grows with the square of its speed. */
static __attribute__((noinline)) int heat(void) {
    int sum = 0;
    for (int k = 0; k < COMMANDS; k++)
        sum += frame[k] * frame[k] / 100;
    return sum;
}

/* The entry sets the global pointer, by which the linker reaches the commands. */
asm(".globl _start\n_start:\n\t.option push\n\t.option norelax\n\tla gp, __global_pointer$\n\t.option pop\n\tj job");

__attribute__((noreturn)) void job(void) {
    int count = read_bytes(commands, COMMANDS);
    int speed = 0;
    for (int k = 0; k < count; k++) {
        speed = after(speed, commands[k]) & 255;
        frame[k] = speed;
    }
    int sum = heat();
    frame[COMMANDS] = sum >> 8;
    frame[COMMANDS + 1] = sum;
    write_bytes(frame, COMMANDS + 2);
    leave(0);
}
