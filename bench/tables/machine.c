/* A virtual machine with a stack: a switch in a loop, whose program counter the orders move. */
#include "../../examples/services.h"

void _start(void) {
    unsigned char code[128];
    int stack[8];
    int count = read_bytes(code, 128);
    unsigned at = 0, top = 0;
    for (int k = 0; k < 8; k++)
        stack[k] = k + 1;
    for (int steps = 0; steps < 500 && at < (unsigned)count; steps++) {
        unsigned char order = code[at++];
        switch (order) {
        case 0: stack[top & 7] = at; top++; break;
        case 1: top--; break;
        case 2: stack[(top - 2) & 7] += stack[(top - 1) & 7]; top--; break;
        case 3: stack[(top - 2) & 7] -= stack[(top - 1) & 7]; top--; break;
        case 4: stack[(top - 2) & 7] *= stack[(top - 1) & 7]; top--; break;
        case 5: if (stack[(top - 1) & 7] > 0) at += 2; break;
        case 6: at -= 3; break;
        case 7: stack[(top - 1) & 7] = -stack[(top - 1) & 7]; break;
        case 8: stack[top & 7] = stack[(top - 1) & 7]; top++; break;
        case 9: at = count; break;
        case 10: write_bytes(&stack[(top - 1) & 7], 4); break;
        default: stack[top & 7] = order; top++; break;
        }
    }
    write_bytes(stack, sizeof stack);
    leave(0);
}
