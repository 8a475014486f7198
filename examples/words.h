/* What the examples share: a dialect by its name, a report in one sentence, and how a program ends. */
#ifndef WORDS_H
#define WORDS_H

#include <hemakuliwi.h>
#include <stdio.h>
#include <string.h>

/* The exit status. FAILED is about the machine: no memory, or an input or output that went wrong. */
enum { DONE = 0, REFUSED = 1, WRONG_ARGUMENTS = 2, FAILED = 3 };

/* The number of the dialect that a word names; 0, which is no dialect's, if it names none. */
static inline uint32_t dialect_of(const char *word) {
    static const char *const names[] = {NULL, "csvj", "tdif", "csv+"};
    uint32_t dialect = HK_CSV_PLUS;
    while (dialect > 0 && strcmp(word, names[dialect]) != 0) {
        dialect--;
    }
    return dialect;
}

/* What fault 9 says of its reason: of a cell or a name, or of the record as a whole. */
static inline void explain_not_carried(struct hk_report report) {
    if (report.column == 0) {
        fprintf(stderr, "record %zu can't be written in the target dialect, which asks for a column", report.record_number);
        fprintf(stderr, " or in which the record or the file gets too long; it begins at byte %zu\n", report.offset);
    } else {
        fprintf(stderr, "column %zu of record %zu can't be written in the target dialect,", report.column, report.record_number);
        fprintf(stderr, " which lacks such a cell or character or takes the name for an earlier one;");
        fprintf(stderr, " the record begins at byte %zu\n", report.offset);
    }
}

/* One sentence for the person who handed in the file. */
static inline void explain(struct hk_report report) {
    size_t record = report.record_number, column = report.column, byte = report.offset;
    fprintf(stderr, "refused (%zu): ", report.number);
    switch (report.number) {
    case HK_NO_RECORD:
        fprintf(stderr, "the file ends at byte %zu before record %zu, the header, begins\n", byte, record);
        break;
    case HK_ENCODING:
        fprintf(stderr, "at record %zu, byte %zu is not UTF-8 text\n", record, byte);
        break;
    case HK_SYNTAX:
        fprintf(stderr, "at record %zu, byte %zu can't stand there in a file of the source dialect\n", record, byte);
        break;
    case HK_CUT_SHORT:
        fprintf(stderr, "the file ends at byte %zu before record %zu is complete\n", byte, record);
        break;
    case HK_CELL_COUNT:
        fprintf(stderr, "record %zu has another number of cells than the header; it begins at byte %zu\n", record, byte);
        break;
    case HK_REPEATED_NAME:
        fprintf(stderr, "record %zu, the header, has in column %zu the name of an earlier column;", record, column);
        fprintf(stderr, " it begins at byte %zu\n", byte);
        break;
    case HK_HEADER_KIND:
        fprintf(stderr, "record %zu, the header, has no name in column %zu, where the cell is not text;", record, column);
        fprintf(stderr, " it begins at byte %zu\n", byte);
        break;
    case HK_LIMIT:
        fprintf(stderr, "at record %zu, a limit is passed (16,777,215 bytes in a file, 4,096 bytes or 64 columns in a record);", record);
        fprintf(stderr, " byte %zu is the first too many or, for columns, the record's first\n", byte);
        break;
    case HK_NOT_CARRIED:
        explain_not_carried(report);
        break;
    default:
        fprintf(stderr, "the converter was not called as it has to be\n");
    }
}

/* Says what the machine did not do. */
static inline int failed(const char *what) {
    fprintf(stderr, "%s\n", what);
    return FAILED;
}

#endif
