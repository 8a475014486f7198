/* Converts a table that comes in bursts, as from a serial line, to the canonical text of another dialect. The bursts go through a ring of
   64 bytes; what lies there in one span is a piece, so that a cell may be cut anywhere, and where the ring wraps too. Each record is
   written as it completes.

     pieces csvj|tdif|csv+ csvj|tdif|csv+ <FILE

   A file that is refused (exit status 1) has the records before its fault as its output. Memory is constant, and none is allocated. */
#include "words.h"

/* The bytes from `drained` up to `received` are waiting; both count from the file's start. The ring's size is a power of two, so that
   their remainders stay right if they overflow. */
enum { RING = 64, BURST = 23 };
static uint8_t ring[RING];
static size_t received, drained;

static struct hk_converter converter;
static uint8_t out[HK_PIECE_ROOM];

/* One burst into the ring, which has room for it. 0 if the file has ended. */
static int receive(void) {
    for (size_t i = 0; i < BURST; i++) {
        int byte = getchar();
        if (byte == EOF) {
            return i > 0;
        }
        ring[received++ % RING] = (uint8_t)byte;
    }
    return 1;
}

/* The converter has the columns' names, raw as in the file, once the header is complete. */
static void explain_column(size_t column) {
    if (column == 0 || column > hk_converter_columns(&converter)) {
        return;
    }
    struct hk_span raw = hk_converter_name(&converter, column - 1);
    uint8_t name[HK_RECORD_BYTES];
    struct hk_decode_answer cell = hk_decode(converter.source, raw.bytes, raw.length, name, sizeof name);
    fprintf(stderr, "Column %zu is ", column);
    fwrite(name, 1, cell.length, stderr);
    fprintf(stderr, ".\n");
}

/* Hands on what a call wrote, also where it was refused: these records were sound. */
static int deliver(struct hk_text_answer answer) {
    if (fwrite(out, 1, answer.length, stdout) != answer.length || fflush(stdout) != 0) {
        return failed("pieces: the output could not be written in full");
    }
    if (answer.report.number != HK_ACCEPTED) {
        explain(answer.report);
        explain_column(answer.report.column);
        return REFUSED;
    }
    return DONE;
}

/* Hands the waiting bytes to the converter, in one piece or, where the ring wraps, in two. */
static int drain(void) {
    int status = DONE;
    while (status == DONE && drained != received) {
        size_t start = drained % RING, length = received - drained;
        if (length > RING - start) {
            length = RING - start;
        }
        status = deliver(hk_converter_piece(&converter, ring + start, length, out, sizeof out));
        drained += length;
    }
    return status;
}

int main(int argc, char **argv) {
    uint32_t from = argc == 3 ? dialect_of(argv[1]) : 0;
    uint32_t to = argc == 3 ? dialect_of(argv[2]) : 0;
    if (from == 0 || to == 0) {
        fprintf(stderr, "usage: pieces csvj|tdif|csv+ csvj|tdif|csv+ <FILE\n");
        return WRONG_ARGUMENTS;
    }
    int status = DONE;
    converter = hk_converter_new(from, to);
    while (status == DONE && receive()) {
        status = drain();
    }
    if (status == DONE && ferror(stdin)) {
        /* No end call: what was received is not the whole file, and a record that was cut off might look complete. */
        status = failed("pieces: the input could not be read to its end");
    }
    if (status == DONE) {
        status = deliver(hk_converter_end(&converter, out, sizeof out));
    }
    return status;
}
