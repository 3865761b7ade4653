/* Counts words, numbers and marks of a text: a machine whose next state is a switch of the state and of the character. */
#include "../../examples/services.h"

enum { START, WORD, NUMBER, SPACE, MARK, QUOTE, DONE };

void _start(void) {
    char text[200];
    int counts[7];
    int state = START;
    int length = read_bytes(text, 200);
    for (int k = 0; k < 7; k++)
        counts[k] = k;
    for (int k = 0; k < length; k++) {
        char c = text[k];
        switch (state) {
        case START: state = SPACE; counts[0]++; break;
        case SPACE:
            if (c >= 'a' && c <= 'z') state = WORD;
            else if (c >= '0' && c <= '9') state = NUMBER;
            else if (c == '"') state = QUOTE;
            else if (c == '.') state = MARK;
            break;
        case WORD: if (c == ' ') { state = SPACE; counts[1]++; } break;
        case NUMBER: if (c < '0' || c > '9') { state = SPACE; counts[2]++; } break;
        case MARK: state = c == '.' ? DONE : SPACE; counts[3]++; break;
        case QUOTE: if (c == '"') { state = SPACE; counts[4]++; } break;
        case DONE: counts[5]++; break;
        }
        switch (c) {
        case ' ': counts[6] += 1; break;
        case '!': counts[6] += 2; break;
        case '"': counts[6] += 3; break;
        case '#': counts[6] ^= 4; break;
        case '$': counts[6] += 5; break;
        case '%': counts[6] *= 2; break;
        case '&': counts[6] -= 7; break;
        default: break;
        }
    }
    write_bytes(counts, sizeof counts);
    leave(0);
}
