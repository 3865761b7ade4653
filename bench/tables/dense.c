/* A calculator of one byte an order, whose switch is dense. */
#include "../../examples/services.h"

static unsigned apply(unsigned order, unsigned value, unsigned given) {
    switch (order) {
    case 0: return value + given;
    case 1: return value - given;
    case 2: return value ^ given;
    case 3: return value << (given & 31);
    case 4: return value >> (given & 31);
    case 5: return value * given;
    case 6: return given ? value / given : 7;
    case 7: return value & given;
    case 8: return value | given;
    default: return ~value;
    }
}

void _start(void) {
    unsigned char orders[64];
    int count = read_bytes(orders, 64);
    unsigned value = 1;
    for (int k = 0; k + 1 < count; k += 2)
        value = apply(orders[k] % 16, value, orders[k + 1]);
    write_bytes(&value, 4);
    leave(0);
}
