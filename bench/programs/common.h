#include "../../examples/services.h"
asm(".globl _start\n_start:\n\t.option push\n\t.option norelax\n\tla gp, __global_pointer$\n\t.option pop\n\tj job");
#define NI static __attribute__((noinline))
