/* A machine whose orders are labels: computed goto. */
#include "../../examples/services.h"

void _start(void) {
    static const void *const labels[] = {&&add, &&twice, &&less, &&mix, &&out, &&skip, &&back, &&stop};
    unsigned char code[64];
    unsigned value = 3, at = 0, left = 200;
    int count = read_bytes(code, 64);
    for (int k = count; k < 64; k++)
        code[k] = 7;
next:
    if (left-- == 0)
        goto stop;
    goto *labels[code[at++ & 63] & 7];
add: value += at; goto next;
twice: value *= 2; goto next;
less: value -= 5; goto next;
mix: value ^= value >> 3; goto next;
out: write_bytes(&value, 4); goto next;
skip: at += 2; goto next;
back: at -= 2; goto next;
stop:
    write_bytes(&value, 4);
    leave(0);
}
