/* Answers one frame in the manner of Modbus RTU: reads up to 64 bytes (address, function, data, CRC-16), and writes the answer with its
   CRC. Function 3 reads up to 16 registers, function 6 sets one, and any other gets an error. A frame for another address, or with a wrong
   CRC, gets no answer.
   Freestanding: the machine's services stand in services.h. */

#include "../services.h"

#define MOST 64
#define ADDRESS 17
#define REGISTERS 32

static unsigned char frame[MOST];
static unsigned char answer[MOST];
static unsigned short registers[REGISTERS];

/* CRC-16 of Modbus, bit by bit. */
static __attribute__((noinline)) unsigned crc(const unsigned char *bytes, int length) {
    unsigned sum = 0xffff;
    for (int k = 0; k < length; k++) {
        sum ^= bytes[k];
        for (int bit = 0; bit < 8; bit++)
            sum = (sum >> 1) ^ (0xa001 & -(sum & 1));
    }
    return sum;
}

/* The answer's length without its CRC. */
static __attribute__((noinline)) int answered(void) {
    int at = frame[2] << 8 | frame[3], value = frame[4] << 8 | frame[5];
    answer[0] = ADDRESS;
    answer[1] = frame[1];
    if (frame[1] == 3 && value <= 16 && at + value <= REGISTERS) {
        answer[2] = 2 * value;
        for (int k = 0; k < value; k++) {
            answer[3 + 2 * k] = registers[at + k] >> 8;
            answer[4 + 2 * k] = registers[at + k];
        }
        return 3 + 2 * value;
    }
    if (frame[1] == 6 && at < REGISTERS) {
        registers[at] = value;
        for (int k = 2; k < 6; k++)
            answer[k] = frame[k];
        return 6;
    }
    answer[1] |= 0x80;
    answer[2] = 1;
    return 3;
}

/* The entry sets the global pointer, by which the linker reaches the frame. */
asm(".globl _start\n_start:\n\t.option push\n\t.option norelax\n\tla gp, __global_pointer$\n\t.option pop\n\tj job");

__attribute__((noreturn)) void job(void) {
    int length = read_bytes(frame, MOST);
    if (length >= 8 && frame[0] == ADDRESS && crc(frame, length) == 0) {
        int given = answered();
        unsigned sum = crc(answer, given);
        answer[given] = sum;
        answer[given + 1] = sum >> 8;
        write_bytes(answer, given + 2);
    }
    leave(0);
}
