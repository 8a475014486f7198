/* Lends nothing: a NULL pointer with length 0 is as good as any other. Ends with the number of the line that found it otherwise. */
#include <hemakuliwi.h>

#define EXPECT(fact) \
    if (!(fact)) {   \
        return __LINE__; \
    }

int main(void) {
    struct hk_read_answer none = hk_read(HK_CSV_PLUS, NULL, 0, NULL, 0, NULL, 0, NULL, 0);
    EXPECT(none.report.number == HK_NO_RECORD && none.report.record_number == 1)

    const uint8_t blank[] = "\n";
    struct hk_read_answer no_columns = hk_read(HK_CSVJ, blank, 1, NULL, 0, NULL, 0, NULL, 0);
    EXPECT(no_columns.report.number == HK_ACCEPTED && no_columns.columns == 0 && no_columns.records == 0)

    struct hk_read_answer no_places = hk_read(HK_CSV_PLUS, blank, 1, NULL, 0, NULL, 0, NULL, 0);
    EXPECT(no_places.report.number == HK_ROOM)

    struct hk_read_answer no_dialect = hk_read(0, NULL, 0, NULL, 0, NULL, 0, NULL, 0);
    EXPECT(no_dialect.report.number == HK_WRONG_CALL)

    struct hk_decode_answer empty = hk_decode(HK_CSV_PLUS, NULL, 0, NULL, 0);
    EXPECT(empty.report.number == HK_ACCEPTED && empty.kind == HK_TEXT && empty.length == 0)

    const uint8_t one[] = "1";
    struct hk_decode_answer no_room = hk_decode(HK_CSVJ, one, 1, NULL, 0);
    EXPECT(no_room.report.number == HK_ROOM && no_room.kind == 0)

    uint8_t room[1] = {0};
    struct hk_text_answer no_file = hk_convert(HK_CSV_PLUS, HK_CSVJ, NULL, 0, NULL, 0);
    EXPECT(no_file.report.number == HK_NO_RECORD && no_file.report.record_number == 1 && no_file.length == 0)
    struct hk_text_answer no_target = hk_convert(HK_CSVJ, 0, NULL, 0, NULL, 0);
    EXPECT(no_target.report.number == HK_WRONG_CALL)
    struct hk_text_answer too_long = hk_convert(HK_CSVJ, HK_CSVJ, blank, 1, NULL, 0);
    EXPECT(too_long.report.number == HK_ROOM && too_long.length == 0)
    struct hk_text_answer line = hk_convert(HK_CSVJ, HK_CSVJ, blank, 1, room, 1);
    EXPECT(line.report.number == HK_ACCEPTED && line.length == 1 && room[0] == '\n')
    EXPECT(HK_CONVERT_ROOM(0) == 6 && HK_CONVERT_ROOM(1) == 12 && HK_CONVERT_ROOM(SIZE_MAX) == HK_FILE_BYTES)

    struct hk_text_answer no_records = hk_write(HK_CSVJ, NULL, 0, NULL, 0, NULL, 0, NULL, 0, 0, 0, NULL, 0);
    EXPECT(no_records.report.number == HK_NO_TABLE && no_records.length == 0)
    struct hk_text_answer unknown = hk_write(0, NULL, 0, NULL, 0, NULL, 0, NULL, 0, 0, 0, NULL, 0);
    EXPECT(unknown.report.number == HK_WRONG_CALL)
    struct hk_text_answer no_cells = hk_write(HK_TDIF, NULL, 0, NULL, 0, NULL, 0, NULL, 0, 0, 1, NULL, 0);
    EXPECT(no_cells.report.number == HK_NOT_CARRIED && no_cells.report.record_number == 1)
    struct hk_text_answer unwritten = hk_write(HK_CSVJ, NULL, 0, NULL, 0, NULL, 0, NULL, 0, 0, 1, NULL, 0);
    EXPECT(unwritten.report.number == HK_ROOM)
    room[0] = 0;
    struct hk_text_answer written = hk_write(HK_CSVJ, NULL, 0, NULL, 0, NULL, 0, NULL, 0, 0, 1, room, 1);
    EXPECT(written.report.number == HK_ACCEPTED && written.length == 1 && room[0] == '\n')

    static uint8_t out[HK_PIECE_ROOM];
    static struct hk_converter zeros;
    struct hk_converter converter = zeros;
    EXPECT(hk_converter_piece(&converter, NULL, 0, NULL, 0).report.number == HK_WRONG_CALL)
    EXPECT(hk_converter_end(&converter, NULL, 0).report.number == HK_WRONG_CALL)
    converter = hk_converter_new(HK_CSV_PLUS, HK_CSVJ);
    EXPECT(hk_converter_piece(&converter, NULL, 0, NULL, 0).report.number == HK_ROOM)
    EXPECT(hk_piece(converter, NULL, 0, NULL, 0).answer.report.number == HK_ROOM)
    EXPECT(hk_converter_end(&converter, NULL, 0).report.number == HK_ROOM)
    EXPECT(hk_end(converter, NULL, 0).answer.report.number == HK_ROOM)
    EXPECT(hk_converter_piece(&converter, NULL, 0, out, sizeof out).report.number == HK_ACCEPTED)
    EXPECT(hk_piece(converter, NULL, 0, out, sizeof out).answer.report.number == HK_ACCEPTED)
    EXPECT(hk_converter_end(&converter, out, sizeof out).report.number == HK_NO_RECORD)
    return 0;
}
