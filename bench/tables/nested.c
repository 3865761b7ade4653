/* A switch within a switch, each with a default that isn't reached. */
#include "../../examples/services.h"

static unsigned route(unsigned a, unsigned b) {
    unsigned r = b;
    switch (a & 7) {
    case 0: r += 3; break;
    case 1: r ^= 21; break;
    case 2:
        switch (b & 7) {
        case 0: r = 5; break;
        case 1: r += 77; break;
        case 2: r *= 3; break;
        case 3: r -= 8; break;
        case 4: r ^= 64; break;
        case 5: r |= 9; break;
        case 6: r <<= 2; break;
        default: r = 1; break;
        }
        break;
    case 3: r *= 7; break;
    case 4: r -= 19; break;
    case 5: r |= 128; break;
    case 6: r >>= 1; break;
    default: r = ~r; break;
    }
    return r;
}

void _start(void) {
    unsigned char pairs[64];
    int count = read_bytes(pairs, 64);
    unsigned out = 0;
    for (int k = 0; k + 1 < count; k += 2)
        out = out * 5 + route(pairs[k], pairs[k + 1]);
    write_bytes(&out, 4);
    leave(0);
}
