/* Prints the size of each struct and the offset of each field, which Rust has to have too. Then looks whether the library goes by them:
   it ends with the number of the line that found it otherwise. */
#include <hemakuliwi.h>
#include <stdio.h>
#include <string.h>

#define SIZE(type) printf(#type " %zu\n", sizeof(struct type));
#define FIELD(type, field) printf(#type "." #field " %zu\n", offsetof(struct type, field));

#define EXPECT(fact) \
    if (!(fact)) {   \
        return __LINE__; \
    }

static void print_layout(void) {
    SIZE(hk_report)
    FIELD(hk_report, number)
    FIELD(hk_report, record_number)
    FIELD(hk_report, column)
    FIELD(hk_report, offset)
    SIZE(hk_read_answer)
    FIELD(hk_read_answer, report)
    FIELD(hk_read_answer, columns)
    FIELD(hk_read_answer, records)
    FIELD(hk_read_answer, cells)
    SIZE(hk_decode_answer)
    FIELD(hk_decode_answer, report)
    FIELD(hk_decode_answer, length)
    FIELD(hk_decode_answer, kind)
    SIZE(hk_text_answer)
    FIELD(hk_text_answer, report)
    FIELD(hk_text_answer, length)
    SIZE(hk_converter)
    FIELD(hk_converter, source)
    FIELD(hk_converter, target)
    FIELD(hk_converter, numbers)
    FIELD(hk_converter, ends)
    FIELD(hk_converter, name_ends)
    FIELD(hk_converter, bytes)
    FIELD(hk_converter, names)
    SIZE(hk_piece_answer)
    FIELD(hk_piece_answer, answer)
    FIELD(hk_piece_answer, next)
}

/* The bytes beside a struct belong to nobody. */
enum { BESIDE = 64, UNUSED = 0xA5 };

static int is_unused(const uint8_t *bytes) {
    for (size_t i = 0; i < BESIDE; i++) {
        if (bytes[i] != UNUSED) {
            return 0;
        }
    }
    return 1;
}

static struct {
    uint8_t before[BESIDE];
    struct hk_converter converter;
    uint8_t between[BESIDE];
    struct hk_piece_answer answer;
    uint8_t after[BESIDE];
} lent;

static int is_inside(void) {
    return is_unused(lent.before) && is_unused(lent.between) && is_unused(lent.after);
}

static uint8_t out[HK_PIECE_ROOM];

int main(void) {
    print_layout();

    /* A new converter has its two numbers, and zeros. */
    memset(&lent, UNUSED, sizeof lent);
    lent.converter = hk_converter_new(0x01020304, 0x05060708);
    static struct hk_converter zeros;
    EXPECT(lent.converter.source == 0x01020304 && lent.converter.target == 0x05060708 && is_inside())
    lent.converter.source = 0;
    lent.converter.target = 0;
    EXPECT(memcmp(&lent.converter, &zeros, sizeof zeros) == 0)

    /* Header and unfinished record are in the arrays, and both forms result in the same bytes. */
    const char file[] = "\xEF\xBB\xBF\"ab\",\"c\"\n\"d\",\"e";
    struct hk_converter by_value = hk_converter_new(HK_CSVJ, HK_TDIF);
    lent.converter = by_value;
    struct hk_text_answer taken = hk_converter_piece(&lent.converter, (const uint8_t *)file, sizeof file - 1, out, sizeof out);
    EXPECT(taken.report.number == HK_ACCEPTED && taken.length == 9 && memcmp(out, "\"ab\",\"c\"\n", 9) == 0)
    lent.answer = hk_piece(by_value, (const uint8_t *)file, sizeof file - 1, out, sizeof out);
    EXPECT(lent.answer.answer.length == 9 && is_inside())
    EXPECT(memcmp(&lent.answer.next, &lent.converter, sizeof by_value) == 0)
    EXPECT(lent.converter.source == HK_CSVJ && lent.converter.target == HK_TDIF)
    EXPECT(hk_converter_offset(&lent.converter) == sizeof file - 1)
    EXPECT(hk_converter_columns(&lent.converter) == 2 && hk_converter_records(&lent.converter) == 1)
    EXPECT(lent.converter.name_ends[0] == 4 && lent.converter.name_ends[1] == 7 && memcmp(lent.converter.names, "\"ab\"\"c\"", 7) == 0)
    EXPECT(lent.converter.ends[0] == 3 && memcmp(lent.converter.bytes, "\"d\"\"e", 5) == 0)

    /* A report with another number in each field. */
    const char rest[] = "\"\n\"f\",2\n";
    by_value = lent.converter;
    taken = hk_converter_piece(&lent.converter, (const uint8_t *)rest, sizeof rest - 1, out, sizeof out);
    EXPECT(taken.report.number == HK_NOT_CARRIED && taken.report.record_number == 3 && taken.report.column == 2)
    EXPECT(taken.report.offset == 20 && taken.length == 8 && memcmp(out, "\"d\",\"e\"\n", 8) == 0)
    lent.answer = hk_piece(by_value, (const uint8_t *)rest, sizeof rest - 1, out, sizeof out);
    EXPECT(memcmp(&lent.answer.answer, &taken, sizeof taken) == 0 && is_inside())
    EXPECT(memcmp(&lent.answer.next, &lent.converter, sizeof by_value) == 0)

    /* The end, in both forms. */
    const char last[] = "a\nb";
    lent.converter = hk_converter_new(HK_CSV_PLUS, HK_CSVJ);
    hk_converter_piece(&lent.converter, (const uint8_t *)last, sizeof last - 1, out, sizeof out);
    by_value = lent.converter;
    taken = hk_converter_end(&lent.converter, out, sizeof out);
    EXPECT(taken.report.number == HK_ACCEPTED && taken.length == 4 && memcmp(out, "\"b\"\n", 4) == 0)
    lent.answer = hk_end(by_value, out, sizeof out);
    EXPECT(memcmp(&lent.answer.answer, &taken, sizeof taken) == 0 && is_inside())
    EXPECT(memcmp(&lent.answer.next, &lent.converter, sizeof by_value) == 0)
    return 0;
}
