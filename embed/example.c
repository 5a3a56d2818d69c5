/* Reads a text from standard input, checks its batch, and prints the answer and the pairs that were looked at. */
#include "park.h"
#include <stdio.h>

static struct park park;
static uint8_t text[CHECKER_TEXT_LEN + 1]; /* with a byte more, a text that is too long is refused and not cut */

int main(void) {
    size_t bytes = fread(text, 1, sizeof text, stdin);
    if (ferror(stdin)) return fputs("standard input cannot be read\n", stderr), 66;
    if (bytes == 0) return fputs("standard input is empty: nothing to check\n", stderr), 65;

    struct park_answer answer = park_read(&park, text, bytes);
    if (answer.kind == PARK_DONE) answer = park_check(&park);

    if (answer.kind == PARK_ACCEPTED) puts("answer accepted");
    else if (answer.kind == PARK_BROKEN) printf("answer broken %u %u\n", answer.rule, answer.object);
    else {
        printf("answer refused %u %u\n", answer.number, answer.place);
        fprintf(stderr, "refused: %s\n", checker_refusal_text(answer.number));
    }
    for (uint32_t i = 0; i < park.pairs; i++) printf("pair %u %u\n", park.list[2 * i], park.list[2 * i + 1]);
    if (fflush(stdout) || ferror(stdout)) return fputs("the answer cannot be written\n", stderr), 74;
    return (int)answer.kind;
}
