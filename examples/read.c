/* Reads a table from standard input and prints each cell: its record, its column, its kind and its content.

     read csvj|tdif|csv+ <FILE

   A file that is refused (exit status 1) has no output. */
#include "words.h"
#include <stdlib.h>

static const char *const kind_names[] = {NULL, "text", "number", "true", "false", "null"};

/* A byte more than a file may have, so that one that is too long is found to be. No content is longer than a record. */
static uint8_t file[HK_FILE_BYTES + 1];
static uint8_t content[HK_RECORD_BYTES];

/* The lists that the library is lent: where each cell starts and ends in the file, and its kind. */
struct cells {
    size_t *starts;
    size_t *ends;
    uint8_t *kinds;
};

static void release(struct cells *cells) {
    free(cells->starts);
    free(cells->ends);
    free(cells->kinds);
}

/* 0 if there is no memory; the cells are to be released in either case. */
static int allocate(struct cells *cells, size_t places) {
    cells->starts = (size_t *)calloc(places, sizeof *cells->starts);
    cells->ends = (size_t *)calloc(places, sizeof *cells->ends);
    cells->kinds = (uint8_t *)calloc(places, sizeof *cells->kinds);
    return cells->starts != NULL && cells->ends != NULL && cells->kinds != NULL;
}

static int print_cells(uint32_t dialect, const struct cells *cells, struct hk_read_answer table) {
    for (size_t i = 0; i < table.cells; i++) {
        /* A cell that was read is never refused. */
        const uint8_t *raw = file + cells->starts[i];
        struct hk_decode_answer cell = hk_decode(dialect, raw, cells->ends[i] - cells->starts[i], content, sizeof content);
        printf("%zu.%zu %s%s", i / table.columns + 1, i % table.columns + 1, kind_names[cell.kind], cell.length > 0 ? " " : "");
        fwrite(content, 1, cell.length, stdout);
        putchar('\n');
    }
    if (fflush(stdout) != 0 || ferror(stdout)) {
        return failed("read: the output could not be written in full");
    }
    return DONE;
}

/* How many cells a file has is not known before: lists that were too short, and nothing else is wrong then, are doubled. */
static int read_table(uint32_t dialect, size_t length) {
    int status = REFUSED;
    struct hk_report report = {HK_ROOM, 0, 0, 0};
    for (size_t places = 64; report.number == HK_ROOM; places *= 2) {
        struct cells cells;
        if (!allocate(&cells, places)) {
            release(&cells);
            return failed("read: out of memory");
        }
        struct hk_read_answer table = hk_read(dialect, file, length, cells.starts, places, cells.ends, places, cells.kinds, places);
        report = table.report;
        if (report.number == HK_ACCEPTED) {
            status = print_cells(dialect, &cells, table);
        }
        release(&cells);
    }
    if (report.number != HK_ACCEPTED) {
        explain(report);
    }
    return status;
}

int main(int argc, char **argv) {
    uint32_t dialect = argc == 2 ? dialect_of(argv[1]) : 0;
    if (dialect == 0) {
        fprintf(stderr, "usage: read csvj|tdif|csv+ <FILE\n");
        return WRONG_ARGUMENTS;
    }
    size_t length = fread(file, 1, sizeof file, stdin);
    if (ferror(stdin)) {
        return failed("read: the input could not be read to its end");
    }
    return read_table(dialect, length);
}
