/* Counts what stands in a text: reads up to 128 bytes, and writes how many words, numbers, signs, spaces and comments there are, a byte each,
   with the sum of the numbers in two bytes. A small state machine, whose switch becomes a table of jumps.
   Freestanding: the machine's services stand in services.h. */

#include "../services.h"

#define INPUT 128

enum state { SPACE, WORD, NUMBER, SIGN, COMMENT, ESCAPE };

static unsigned char input[INPUT];
static unsigned char counts[8];
static unsigned number, sum;

static enum state begun(int c) {
    if (c == '#')
        return COMMENT;
    if (c >= '0' && c <= '9')
        return NUMBER;
    if (c >= 'a' && c <= 'z')
        return WORD;
    return c <= ' ' ? SPACE : SIGN;
}

static __attribute__((noinline)) enum state after(enum state state, int c) {
    switch (state) {
    case SPACE:
        counts[SPACE]++;
        return begun(c);
    case WORD:
        if (c >= 'a' && c <= 'z')
            return WORD;
        counts[WORD]++;
        return begun(c);
    case NUMBER:
        if (c >= '0' && c <= '9') {
            number = 10 * number + c - '0';
            return NUMBER;
        }
        counts[NUMBER]++;
        sum += number % 1000;
        number = 0;
        return begun(c);
    case SIGN:
        counts[SIGN]++;
        return c == '\\' ? ESCAPE : begun(c);
    case COMMENT:
        if (c != '\n')
            return COMMENT;
        counts[COMMENT]++;
        return SPACE;
    case ESCAPE:
        counts[ESCAPE]++;
        return SPACE;
    }
    return SPACE;
}

/* The entry sets the global pointer, by which the linker reaches the input. */
asm(".globl _start\n_start:\n\t.option push\n\t.option norelax\n\tla gp, __global_pointer$\n\t.option pop\n\tj job");

__attribute__((noreturn)) void job(void) {
    int length = read_bytes(input, INPUT);
    enum state state = SPACE;
    for (int k = 0; k < length; k++)
        state = after(state, input[k]);
    counts[6] = sum >> 8;
    counts[7] = sum;
    write_bytes(counts, 8);
    leave(0);
}
