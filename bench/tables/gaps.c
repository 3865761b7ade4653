/* A switch with gaps and negative cases, over signed numbers. */
#include "../../examples/services.h"

static int weight(int order) {
    switch (order) {
    case -5: return 31;
    case -4: return 7;
    case -2: return order * 9;
    case 0: return 11;
    case 1: return order + 100;
    case 4: return 17;
    case 6: return order - 4;
    case 7: return 23;
    case 9: return 5;
    case 11: return 41;
    case 100: return 2;
    case 101: return order / 3;
    case 102: return 60;
    case 104: return 9;
    case 105: return order ^ 3;
    case 107: return 78;
    default: return 0;
    }
}

void _start(void) {
    signed char orders[64];
    int count = read_bytes(orders, 64);
    int sum = 0;
    for (int k = 0; k < count; k++)
        sum = sum * 3 + weight(orders[k]);
    write_bytes(&sum, 4);
    leave(0);
}
