/* Converts a table from standard input to the canonical text of another dialect, on standard output: a whole file in one call.

     convert csvj|tdif|csv+ csvj|tdif|csv+ <FILE

   A file that is refused (exit status 1) has no output. */
#include "words.h"
#include <stdlib.h>

/* A byte more than a file may have, so that one that is too long is found to be. */
static uint8_t file[HK_FILE_BYTES + 1];

static int convert(uint32_t from, uint32_t to, size_t length) {
    /* So much is always enough: the answer is never HK_ROOM. */
    size_t room = HK_CONVERT_ROOM(length);
    uint8_t *text = (uint8_t *)malloc(room);
    if (text == NULL) {
        return failed("convert: out of memory");
    }
    int status = DONE;
    struct hk_text_answer answer = hk_convert(from, to, file, length, text, room);
    if (answer.report.number != HK_ACCEPTED) {
        explain(answer.report);
        status = REFUSED;
    } else if (fwrite(text, 1, answer.length, stdout) != answer.length || fflush(stdout) != 0) {
        status = failed("convert: the output could not be written in full");
    }
    free(text);
    return status;
}

int main(int argc, char **argv) {
    uint32_t from = argc == 3 ? dialect_of(argv[1]) : 0;
    uint32_t to = argc == 3 ? dialect_of(argv[2]) : 0;
    if (from == 0 || to == 0) {
        fprintf(stderr, "usage: convert csvj|tdif|csv+ csvj|tdif|csv+ <FILE\n");
        return WRONG_ARGUMENTS;
    }
    size_t length = fread(file, 1, sizeof file, stdin);
    if (ferror(stdin)) {
        return failed("convert: the input could not be read to its end");
    }
    return convert(from, to, length);
}
