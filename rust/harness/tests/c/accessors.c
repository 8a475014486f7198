/* Reads of a converter what a program can use: before the header, after it, after a fault, after an end, and of converters that no calls
   have made. Ends with the number of the line that found it otherwise. */
#include <hemakuliwi.h>
#include <stdlib.h>
#include <string.h>

#define EXPECT(fact) \
    if (!(fact)) {   \
        return __LINE__; \
    }

static uint8_t out[HK_PIECE_ROOM];

static size_t take(struct hk_converter *converter, const char *piece) {
    return hk_converter_piece(converter, (const uint8_t *)piece, strlen(piece), out, sizeof out).report.number;
}

/* Whether the converter has taken this many bytes, and completed this many records of this many columns. */
static int has(const struct hk_converter *converter, size_t offset, size_t records, size_t columns) {
    return hk_converter_offset(converter) == offset && hk_converter_records(converter) == records &&
           hk_converter_columns(converter) == columns;
}

static int is_named(const struct hk_converter *converter, size_t k, const char *raw) {
    struct hk_span name = hk_converter_name(converter, k);
    return name.bytes != NULL && name.length == strlen(raw) && memcmp(name.bytes, raw, name.length) == 0;
}

static int is_unnamed(const struct hk_converter *converter, size_t k) {
    struct hk_span name = hk_converter_name(converter, k);
    return name.bytes == NULL && name.length == 0;
}

static int is_unnamed_from(const struct hk_converter *converter, size_t first) {
    for (size_t k = first; k <= 2 * HK_COLUMNS; k++) {
        if (!is_unnamed(converter, k)) {
            return 0;
        }
    }
    return is_unnamed(converter, HK_RECORD_BYTES) && is_unnamed(converter, SIZE_MAX / sizeof(size_t)) && is_unnamed(converter, SIZE_MAX);
}

static int is_read_between_calls(void) {
    struct hk_converter converter = hk_converter_new(HK_CSVJ, HK_CSV_PLUS);
    EXPECT(has(&converter, 0, 0, 0) && is_unnamed_from(&converter, 0))

    /* A cell is complete, and the header is not. */
    EXPECT(take(&converter, "\"st\\u006Fp\",\"fare\"") == HK_ACCEPTED)
    EXPECT(has(&converter, 18, 0, 0) && is_unnamed_from(&converter, 0))

    EXPECT(take(&converter, "\n\"Har") == HK_ACCEPTED)
    EXPECT(has(&converter, 23, 1, 2) && is_unnamed_from(&converter, 2))
    EXPECT(is_named(&converter, 0, "\"st\\u006Fp\"") && is_named(&converter, 1, "\"fare\""))
    struct hk_span first = hk_converter_name(&converter, 0);
    uint8_t content[HK_RECORD_BYTES];
    struct hk_decode_answer decoded = hk_decode(converter.source, first.bytes, first.length, content, sizeof content);
    EXPECT(decoded.kind == HK_TEXT && decoded.length == 4 && memcmp(content, "stop", 4) == 0)

    /* A call that is refused by its sizes changes nothing. */
    EXPECT(hk_converter_piece(&converter, NULL, 0, out, 0).report.number == HK_ROOM && has(&converter, 23, 1, 2))

    /* A fault after a complete record. From then on nothing is said of the offset. */
    EXPECT(take(&converter, "bour\",\"2.40\"\n\"Mint\",1.80\n\"lost\",\"0\"\n") == HK_NOT_CARRIED)
    EXPECT(hk_converter_records(&converter) == 2 && hk_converter_columns(&converter) == 2)
    EXPECT(is_named(&converter, 0, "\"st\\u006Fp\"") && is_named(&converter, 1, "\"fare\"") && is_unnamed_from(&converter, 2))
    EXPECT(hk_converter_name(&converter, 0).bytes == first.bytes)
    EXPECT(hk_converter_end(&converter, out, sizeof out).report.number == HK_NOT_CARRIED && is_named(&converter, 1, "\"fare\""))
    return 0;
}

static int is_read_after_a_fault_of_the_header(void) {
    struct hk_converter converter = hk_converter_new(HK_CSV_PLUS, HK_CSVJ);
    EXPECT(take(&converter, "a,a\n") == HK_REPEATED_NAME)
    EXPECT(hk_converter_records(&converter) == 0 && hk_converter_columns(&converter) == 0 && is_unnamed_from(&converter, 0))
    return 0;
}

static int is_read_after_an_end(void) {
    /* A name of no bytes is a name. The last record, which the end completes, is not counted. */
    struct hk_converter converter = hk_converter_new(HK_CSV_PLUS, HK_CSVJ);
    EXPECT(take(&converter, ",\"b\"\n1,2\n3,4") == HK_ACCEPTED && has(&converter, 12, 2, 2))
    EXPECT(hk_converter_end(&converter, out, sizeof out).report.number == HK_ACCEPTED && has(&converter, 12, 2, 2))
    EXPECT(is_named(&converter, 0, "") && is_named(&converter, 1, "\"b\"") && is_unnamed_from(&converter, 2))

    converter = hk_converter_new(HK_CSV_PLUS, HK_CSVJ);
    EXPECT(take(&converter, "a,b") == HK_ACCEPTED)
    EXPECT(hk_converter_end(&converter, out, sizeof out).report.number == HK_ACCEPTED && has(&converter, 3, 0, 0))
    EXPECT(is_unnamed_from(&converter, 0))

    converter = hk_converter_new(HK_CSVJ, HK_CSVJ);
    EXPECT(take(&converter, "\n\n") == HK_ACCEPTED && has(&converter, 2, 2, 0) && is_unnamed_from(&converter, 0))
    return 0;
}

/* The widest header, of which the names fill a record. */
static int is_read_at_the_limits(void) {
    static char header[HK_RECORD_BYTES + 2];
    struct hk_converter converter = hk_converter_new(HK_CSV_PLUS, HK_CSV_PLUS);
    for (size_t k = 0; k < HK_COLUMNS; k++) {
        header[2 * k] = (char)('0' + k);
        header[2 * k + 1] = ',';
    }
    memset(header + 2 * HK_COLUMNS - 1, 'x', HK_RECORD_BYTES - 2 * HK_COLUMNS + 1);
    header[HK_RECORD_BYTES] = '\n';
    EXPECT(hk_converter_piece(&converter, (const uint8_t *)header, HK_RECORD_BYTES, out, sizeof out).report.number == HK_ACCEPTED)
    EXPECT(has(&converter, HK_RECORD_BYTES, 0, 0))
    EXPECT(take(&converter, "\n") == HK_ACCEPTED && has(&converter, HK_RECORD_BYTES + 1, 1, HK_COLUMNS))
    EXPECT(is_named(&converter, 0, "0") && is_named(&converter, 1, "1") && is_unnamed_from(&converter, HK_COLUMNS))
    struct hk_span last = hk_converter_name(&converter, HK_COLUMNS - 1);
    EXPECT(last.bytes[0] == 'o' && last.bytes[last.length - 1] == 'x')
    return 0;
}

/* The converter is the last of what is allocated. */
static int is_read_if_made_up(struct hk_converter *converter) {
    memset(converter, 0, sizeof *converter);
    EXPECT(has(converter, 0, 0, 0) && is_unnamed_from(converter, 0))

    memset(converter, 0xFF, sizeof *converter);
    EXPECT(has(converter, SIZE_MAX, SIZE_MAX, HK_COLUMNS) && is_unnamed_from(converter, 0))

    /* Ends at the last byte, before the start, at the start, and past the last byte. */
    converter->name_ends[0] = HK_RECORD_BYTES;
    converter->name_ends[1] = HK_RECORD_BYTES - 1;
    converter->name_ends[2] = HK_RECORD_BYTES - 1;
    converter->name_ends[3] = HK_RECORD_BYTES + 1;
    struct hk_span all = hk_converter_name(converter, 0), none = hk_converter_name(converter, 2);
    EXPECT(all.bytes == converter->names && all.length == HK_RECORD_BYTES && is_unnamed(converter, 1))
    EXPECT(none.bytes == converter->names + HK_RECORD_BYTES - 1 && none.length == 0 && is_unnamed_from(converter, 3))

    /* No record is complete, whatever the number of columns. */
    size_t records = hk_converter_records(converter);
    memset(converter->numbers, 0, sizeof converter->numbers);
    converter->numbers[HK_AT_COLUMNS] = records;
    EXPECT(has(converter, 0, 0, 0) && is_unnamed_from(converter, 0))
    converter->numbers[HK_AT_RECORDS] = 1;
    EXPECT(has(converter, 0, 1, HK_COLUMNS))
    return 0;
}

int main(void) {
    struct hk_converter *converter = (struct hk_converter *)malloc(sizeof *converter);
    EXPECT(converter != NULL)
    int made_up = is_read_if_made_up(converter);
    free(converter);
    int lines[] = {is_read_between_calls(), is_read_after_a_fault_of_the_header(), is_read_after_an_end(), is_read_at_the_limits(), made_up};
    for (size_t i = 0; i < sizeof lines / sizeof *lines; i++) {
        if (lines[i] != 0) {
            return lines[i];
        }
    }
    return 0;
}
