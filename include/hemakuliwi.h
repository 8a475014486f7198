/* Hemakuliwi: tables in CSVJ, TDIF and CSV+, read, converted and written by proved code. `make`
   builds libhemakuliwi.a and libhemakuliwi.so, `make install` installs them. docs/RULES.md has the
   rules, docs/GUARANTEES.md what is proved.

   Every call into the library
   - requires that each pointer leads to as many elements as the length beside it says (with length
     0 it may be NULL), and that no lent list overlaps another or what is read. It requires nothing
     else: every number and all bytes have an answer.
   - ends, and writes to what it was lent and nowhere else. On refusal every lent element is as it
     was, except where a call of a converter meets a fault of the file (below).
   - has no state of its own and allocates nothing, so that threads may call at the same time, each
     with what it lends itself.
   - takes at most the stack that its declaration names, including what is passed and returned by
     value. This is not proved: the tests measure it, and add up the frames of the machine code
     along every chain of calls.

   In this order: limits, dialects, kinds and reports; whole files; files in pieces; what can be
   read of a converter; low-level forms of the calls for pieces; the inline functions. */
#ifndef HEMAKULIWI_H
#define HEMAKULIWI_H

#include <stddef.h>
#include <stdint.h>

#define HK_VERSION "0.1.0"
#define HK_VERSION_MAJOR 0
#define HK_VERSION_MINOR 1
#define HK_VERSION_PATCH 0

#ifdef __cplusplus
extern "C" {
#endif

/* ---- limits, dialects, kinds and reports */

/* The limits of a file. A room of HK_RECORD_BYTES holds any cell's content, one of HK_FILE_BYTES
   any text that is converted or written. */
#define HK_FILE_BYTES 16777215
#define HK_RECORD_BYTES 4096
#define HK_COLUMNS 64

enum hk_dialect {
    HK_CSVJ = 1,
    HK_TDIF = 2,
    HK_CSV_PLUS = 3
};

enum hk_kind {
    HK_TEXT = 1,
    HK_NUMBER = 2,
    HK_TRUE = 3,
    HK_FALSE = 4,
    HK_NULL = 5
};

/* The numbers of a report. 9 is reported by hk_convert, hk_write and converters only, 12 by
   hk_write only. */
enum hk_report_number {
    HK_ACCEPTED = 0,
    HK_NO_RECORD = 1,      /* the file ends before a record begins */
    HK_ENCODING = 2,       /* a byte breaks UTF-8 */
    HK_SYNTAX = 3,         /* a byte that is not allowed here */
    HK_CUT_SHORT = 4,      /* the file ends too early */
    HK_CELL_COUNT = 5,     /* the cell count is not the header's */
    HK_REPEATED_NAME = 6,  /* a header name repeats an earlier one */
    HK_HEADER_KIND = 7,    /* a header cell is not text */
    HK_LIMIT = 8,          /* more bytes or columns than the limits allow */
    HK_NOT_CARRIED = 9,    /* the target dialect can't represent the record */
    HK_ROOM = 10,          /* what was lent is too short, or a piece too long, and nothing else is
                              wrong */
    HK_WRONG_CALL = 11,    /* an unknown dialect number, or a call after an accepted end */
    HK_NO_TABLE = 12       /* what is to be written is no table */
};

/* Acceptance is all 0. Records and columns count from 1, the header being record 1; 0 means that
   none is named. Offsets count from 0. */
struct hk_report {
    size_t number;
    size_t record_number;
    size_t column;
    size_t offset;
};

/* ---- whole files */

/* On refusal all but the report is 0. */
struct hk_read_answer {
    struct hk_report report;
    size_t columns;
    size_t records; /* data records: the header is not counted */
    size_t cells;   /* the header's too */
};

/* Finds the cells of a whole file. Cell i is the span of the file from starts[i] up to, and
   without, ends[i], raw, with its quotes; its kind is kinds[i]. Cells are in file order: cell i is
   in column i % columns of record i / columns, both counted from 0. Elements past the cells are
   left as they were. A file is refused with its first fault, and with HK_ROOM only if it has none
   and more cells than the shortest list has elements.
   Stack of hk_read: 10,800 bytes. */
struct hk_read_answer hk_read(uint32_t dialect, const uint8_t *file, size_t file_length,
                              size_t *starts, size_t starts_length, size_t *ends,
                              size_t ends_length, uint8_t *kinds, size_t kinds_length);

/* On refusal all but the report is 0, and the report names no record or column: its offset counts
   from the cell's start. */
struct hk_decode_answer {
    struct hk_report report;
    size_t length;
    size_t kind;
};

/* Decodes the raw bytes of one cell: writes its content to `room`, a text without quotes and
   escapes, a number as spelt, nothing for the other kinds. Bytes past the content are left as they
   were. Every cell that hk_read finds is sound; HK_ROOM only if the content is longer than the
   room.
   Stack of hk_decode: 540 bytes. */
struct hk_decode_answer hk_decode(uint32_t dialect, const uint8_t *raw, size_t raw_length,
                                  uint8_t *room, size_t room_length);

/* On refusal the length is 0, except where a converter meets a fault: then it is that of the
   records before it. */
struct hk_text_answer {
    struct hk_report report;
    size_t length;
};

/* Writes a table as its canonical text to `room`. Cells are given record by record, the header
   first, and `records` counts the header too: cell i is in column i % columns of record
   i / columns, both counted from 0. Its content is the span of `content` from starts[i] up to, and
   without, ends[i]: a text as hk_decode writes it, a number as spelt, nothing for the other kinds.
   Its kind is kinds[i]. Spans may overlap, leave gaps and be in any order. Bytes past the text are
   left as they were.

   HK_NO_TABLE if the three lists differ in length, if their length is not columns times records,
   if there is no record, or if a cell is none: its span is reversed or reaches outside the content,
   its kind is no kind, or its content is not of its kind. Then the records are checked one after
   the other, for HK_LIMIT by their columns, HK_HEADER_KIND, HK_REPEATED_NAME and HK_NOT_CARRIED; a
   report has the record and the column, and offset 0. HK_ROOM only if nothing else is wrong and the
   text is longer than the room: 6 bytes for each byte of each cell's content, 6 for each cell and 1
   for each record are enough, and so are HK_FILE_BYTES.
   Stack of hk_write: 5,200 bytes. */
struct hk_text_answer hk_write(uint32_t dialect, const uint8_t *content, size_t content_length,
                               const size_t *starts, size_t starts_length, const size_t *ends,
                               size_t ends_length, const uint8_t *kinds, size_t kinds_length,
                               size_t columns, size_t records, uint8_t *room, size_t room_length);

/* Room that is enough for what a file of this length is converted to: 6 bytes for each byte of the
   file, and 6 for a last record without an ending. */
#define HK_CONVERT_ROOM(file_length)                                     \
    ((file_length) < HK_FILE_BYTES / 6 ? 6 * ((size_t)(file_length) + 1) \
                                       : (size_t)HK_FILE_BYTES)

/* Converts a whole file in the dialect `from` to its canonical text in the dialect `to`, in `room`.
   Bytes past the text are left as they were. A file is refused with its first fault; HK_NOT_CARRIED
   is checked for each record as it ends, so that it can be reported before another fault of a later
   record. HK_ROOM only if nothing else is wrong and the text is longer than the room:
   HK_CONVERT_ROOM(file_length) is enough.
   Stack of hk_convert: 11,300 bytes. */
struct hk_text_answer hk_convert(uint32_t from, uint32_t to, const uint8_t *file,
                                 size_t file_length, uint8_t *room, size_t room_length);

/* ---- files in pieces */

/* The longest piece that a call takes, and the shortest output that each call requires, which is
   enough for all that it can write. */
#define HK_PIECE_BYTES 4096
#define HK_PIECE_ROOM 49152

/* A converter takes a file in pieces and writes its records as they complete (docs/RULES.md,
   section 15).

     struct hk_converter converter = hk_converter_new(HK_CSV_PLUS, HK_CSVJ);
     hk_converter_piece(&converter, piece, piece_length, out, sizeof out);  each piece, in order
     hk_converter_end(&converter, out, sizeof out);                         after the last

   It is plain data: it may be copied and stored, and be any numbers and bytes. Zeros are a
   converter of no dialect. With one that no calls have made, such as one that was changed in
   between, a call is checked as below by the numbers that it finds, ends and stays inside what it
   was lent; what it answers and writes may be anything.

   `source` and `target` are the dialect numbers that it was made with. What else a program can use
   is read by the functions of the next section. */
struct hk_converter {
    uint32_t source;
    uint32_t target;
    size_t numbers[14];
    size_t ends[HK_COLUMNS];
    size_t name_ends[HK_COLUMNS];
    uint8_t bytes[HK_RECORD_BYTES];
    uint8_t names[HK_RECORD_BYTES];
};

/* A converter before its first call. The numbers may be any: with one of no dialect every call is
   refused.
   Stack of hk_converter_new: 9,500 bytes. */
struct hk_converter hk_converter_new(uint32_t from, uint32_t to);

/* The next bytes of the file, and its end. A call writes to `out` the canonical text of the records
   that it completes: at their LF, in TDIF at a CR, and at the end the last record of CSV+ if it has
   no ending. Bytes past the length are left as they were. It is checked in this order:

   - HK_WRONG_CALL if the converter was made with an unknown dialect number;
   - the same report again if an earlier call has met a fault of the file, which is any of 1 to 9;
   - HK_WRONG_CALL if an end was accepted before;
   - HK_ROOM if the piece has more than HK_PIECE_BYTES bytes or the output fewer than HK_PIECE_ROOM.

   A call that one of these checks refuses has length 0, and leaves the output and the converter as
   they were: after HK_ROOM it can be made once more with other sizes. Otherwise a piece is refused
   with the first fault at one of its bytes or of a record that it completes, and the end with what
   hk_convert reports for all bytes together. A piece that meets a fault has written the records
   before it, as its length says; an end that meets one has written nothing.
   Stack of hk_converter_piece: 13,400 bytes. Stack of hk_converter_end: 10,800 bytes. */
static inline struct hk_text_answer hk_converter_piece(struct hk_converter *converter,
                                                       const uint8_t *piece, size_t piece_length,
                                                       uint8_t *out, size_t out_length);
static inline struct hk_text_answer hk_converter_end(struct hk_converter *converter, uint8_t *out,
                                                     size_t out_length);

/* ---- what can be read of a converter */

/* Before, between and after calls. That a converter that calls have made holds what is said here is
   proved; these functions, which only read it, are tested. Its other bytes are internal, and may be
   anything after a fault or an end. Of a converter that no calls have made any numbers may be
   returned, within the bounds that are said here, and nothing outside it is read. */

/* How many bytes of the file were taken, as long as no fault was met. */
static inline size_t hk_converter_offset(const struct hk_converter *converter);

/* How many records are complete, the header too. A last record that the end completes is not
   counted. */
static inline size_t hk_converter_records(const struct hk_converter *converter);

/* The number of columns once hk_converter_records is above 0, and 0 before; never more than
   HK_COLUMNS. */
static inline size_t hk_converter_columns(const struct hk_converter *converter);

/* The `length` bytes from `bytes` on. */
struct hk_span {
    const uint8_t *bytes;
    size_t length;
};

/* Name k of the header, counted from 0, for k below hk_converter_columns: a span of the converter
   with its raw bytes as they are in the file, of which hk_decode gives the content. Later calls
   leave it as it is: it is there after a fault, so that a program can name the column, and after an
   end. For any other k, and where a converter that no calls have made has no span inside its names,
   `bytes` is NULL and the length 0. */
static inline struct hk_span hk_converter_name(const struct hk_converter *converter, size_t k);

/* ---- low-level forms of the calls for pieces */

/* For bindings and for programs that place the fields of a converter themselves. Each call answers
   and writes as hk_converter_piece or hk_converter_end does. */

/* Over the fields of a converter where they are, so that nothing is copied.
   Stack of hk_piece_lent: 13,400 bytes. Stack of hk_end_lent: 10,800 bytes. */
struct hk_text_answer hk_piece_lent(uint32_t source, uint32_t target, size_t numbers[14],
                                    size_t ends[HK_COLUMNS], size_t name_ends[HK_COLUMNS],
                                    uint8_t bytes[HK_RECORD_BYTES], uint8_t names[HK_RECORD_BYTES],
                                    const uint8_t *piece, size_t piece_length, uint8_t *out,
                                    size_t out_length);
struct hk_text_answer hk_end_lent(uint32_t source, uint32_t target, size_t numbers[14],
                                  size_t ends[HK_COLUMNS], size_t name_ends[HK_COLUMNS],
                                  uint8_t bytes[HK_RECORD_BYTES], uint8_t names[HK_RECORD_BYTES],
                                  uint8_t *out, size_t out_length);

/* The elements of `numbers` that the functions above read. Name k of the header is the span of
   `names` from name_ends[k - 1], or 0 for the first, up to, and without, name_ends[k], for k below
   numbers[HK_AT_COLUMNS], once numbers[HK_AT_RECORDS] is above 0. */
enum hk_converter_number {
    HK_AT_OFFSET = 1,
    HK_AT_COLUMNS = 6,
    HK_AT_RECORDS = 7
};

/* What a call answers, and the converter for the next one. */
struct hk_piece_answer {
    struct hk_text_answer answer;
    struct hk_converter next;
};

/* With the converter passed and returned by value, 9 KB each way.
   Stack of hk_piece: 50,700 bytes. Stack of hk_end: 48,200 bytes. */
struct hk_piece_answer hk_piece(struct hk_converter converter, const uint8_t *piece,
                                size_t piece_length, uint8_t *out, size_t out_length);
struct hk_piece_answer hk_end(struct hk_converter converter, uint8_t *out, size_t out_length);

/* ---- the inline functions */

static inline struct hk_text_answer hk_converter_piece(struct hk_converter *converter,
                                                       const uint8_t *piece, size_t piece_length,
                                                       uint8_t *out, size_t out_length) {
    return hk_piece_lent(converter->source, converter->target, converter->numbers, converter->ends,
                         converter->name_ends, converter->bytes, converter->names, piece,
                         piece_length, out, out_length);
}

static inline struct hk_text_answer hk_converter_end(struct hk_converter *converter, uint8_t *out,
                                                     size_t out_length) {
    return hk_end_lent(converter->source, converter->target, converter->numbers, converter->ends,
                       converter->name_ends, converter->bytes, converter->names, out, out_length);
}

static inline size_t hk_converter_offset(const struct hk_converter *converter) {
    return converter->numbers[HK_AT_OFFSET];
}

static inline size_t hk_converter_records(const struct hk_converter *converter) {
    return converter->numbers[HK_AT_RECORDS];
}

static inline size_t hk_converter_columns(const struct hk_converter *converter) {
    size_t columns = hk_converter_records(converter) > 0 ? converter->numbers[HK_AT_COLUMNS] : 0;
    return columns < HK_COLUMNS ? columns : HK_COLUMNS;
}

static inline struct hk_span hk_converter_name(const struct hk_converter *converter, size_t k) {
    struct hk_span name = {NULL, 0};
    if (k < hk_converter_columns(converter)) {
        size_t start = k > 0 ? converter->name_ends[k - 1] : 0;
        size_t end = converter->name_ends[k];
        if (start <= end && end <= HK_RECORD_BYTES) {
            name.bytes = converter->names + start;
            name.length = end - start;
        }
    }
    return name;
}

#ifdef __cplusplus
}
#endif

#endif
