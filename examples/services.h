/* The services of the machine that these programs run on: read (63), write (64) and exit (93). */

static int read_bytes(void *to, int most) {
    register int count asm("a0") = 0;
    register void *place asm("a1") = to;
    register int length asm("a2") = most;
    asm volatile("li a7, 63\n\tecall" : "+r"(count) : "r"(place), "r"(length) : "a7", "memory");
    return count;
}

static void write_bytes(const void *from, int length) {
    register int descriptor asm("a0") = 1;
    register const void *place asm("a1") = from;
    register int count asm("a2") = length;
    asm volatile("li a7, 64\n\tecall" : "+r"(descriptor) : "r"(place), "r"(count) : "a7", "memory");
}

static __attribute__((noreturn)) void leave(int status) {
    register int code asm("a0") = status;
    asm volatile("li a7, 93\n\tecall" : : "r"(code) : "a7");
    __builtin_unreachable();
}
