/*
 * Runs texts through the lexer, for tests/tokens.py, which makes `lexer_next`: the token after one of a kind that stops at a
 * place; `operand` reads a slash again as an ERE.
 *
 * A case on standard input: the text's length, 4 bytes, the low byte first; 4 bytes of choices; then the text. A line on
 * standard output for each: for each token, its kind, start and stop as an operator and as an operand. The bits of the choices
 * say, in turn, which of the two the next token comes after; a token of the kinds 0, 2 or 3 is the last.
 */
#include "cases.h"

extern void lexer_next(const uint8_t *text, size_t n, uint64_t kind, uint64_t stop, uint64_t operand, uint64_t *out, size_t room);

int main(void)
{
    uint8_t head[8];
    while (filled(head, sizeof head)) {
        size_t n = number(head, 4);
        uint64_t choices = number(head + 4, 4);
        uint8_t *text = bytes(n);
        uint64_t kind = 0, stop = 0, out[2][3];
        for (int i = 0;; i++) {
            int chosen = choices >> i % 32 & 1;
            for (int operand = 0; operand < 2; operand++) {
                lexer_next(text, n, kind, stop, operand, out[operand], 3);
                printf("%" PRIu64 " %" PRIu64 " %" PRIu64 " ", out[operand][0], out[operand][1], out[operand][2]);
            }
            kind = out[chosen][0];
            stop = out[chosen][2];
            if (kind == 0 || kind == 2 || kind == 3)
                break;
        }
        printf("\n");
        free(text);
    }
    return 0;
}
