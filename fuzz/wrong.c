/* Wrong libraries, made of the right one: WRONG=n takes the n-th. The boundary has to tell each by some of the seeds (fuzz/check.sh). The
   linker's --wrap leads the calls here. */
#include <hemakuliwi.h>
#include <stdlib.h>
#include <string.h>

static int is_wrong(int number) {
    static int chosen = -1;
    if (chosen < 0) {
        const char *word = getenv("WRONG");
        chosen = word == NULL ? 0 : atoi(word);
    }
    return chosen == number;
}

struct hk_read_answer __real_hk_read(uint32_t dialect, const uint8_t *file, size_t file_length, size_t *starts, size_t starts_length,
                                     size_t *ends, size_t ends_length, uint8_t *kinds, size_t kinds_length);
struct hk_decode_answer __real_hk_decode(uint32_t dialect, const uint8_t *raw, size_t raw_length, uint8_t *room, size_t room_length);
struct hk_text_answer __real_hk_convert(uint32_t from, uint32_t to, const uint8_t *file, size_t file_length, uint8_t *room,
                                        size_t room_length);
struct hk_text_answer __real_hk_write(uint32_t dialect, const uint8_t *content, size_t content_length, const size_t *starts,
                                      size_t starts_length, const size_t *ends, size_t ends_length, const uint8_t *kinds,
                                      size_t kinds_length, size_t columns, size_t records, uint8_t *room, size_t room_length);
struct hk_piece_answer __real_hk_piece(struct hk_converter converter, const uint8_t *piece, size_t piece_length, uint8_t *out,
                                       size_t out_length);
struct hk_text_answer __real_hk_piece_lent(uint32_t source, uint32_t target, size_t *numbers, size_t *ends, size_t *name_ends,
                                           uint8_t *bytes, uint8_t *names, const uint8_t *piece, size_t piece_length, uint8_t *out,
                                           size_t out_length);

struct hk_read_answer __wrap_hk_read(uint32_t dialect, const uint8_t *file, size_t file_length, size_t *starts, size_t starts_length,
                                     size_t *ends, size_t ends_length, uint8_t *kinds, size_t kinds_length) {
    if (is_wrong(1)) { /* reads the byte after the file */
        volatile uint8_t next = file[file_length];
        (void)next;
    }
    struct hk_read_answer answer =
        __real_hk_read(dialect, file, file_length, starts, starts_length, ends, ends_length, kinds, kinds_length);
    int is_accepted = answer.report.number == HK_ACCEPTED;
    if (is_wrong(2) && is_accepted && kinds_length > answer.cells) { /* writes to a place past the cells */
        kinds[answer.cells] = 0;
    }
    if (is_wrong(3) && !is_accepted && starts_length > 0) { /* a refused file leaves a start */
        starts[0] = 0;
    }
    if (is_wrong(4) && is_accepted && answer.cells > 1) { /* a cell ends too early */
        ends[1] -= ends[1] > starts[1];
    }
    if (is_wrong(5) && answer.report.number == HK_ROOM) { /* too few places are not reported */
        answer.report.number = HK_ACCEPTED;
    }
    return answer;
}

struct hk_decode_answer __wrap_hk_decode(uint32_t dialect, const uint8_t *raw, size_t raw_length, uint8_t *room, size_t room_length) {
    if (is_wrong(6) && raw_length > 0) { /* reads the byte before the cell */
        volatile uint8_t before = raw[-1];
        (void)before;
    }
    struct hk_decode_answer answer = __real_hk_decode(dialect, raw, raw_length, room, room_length);
    if (is_wrong(7) && answer.report.number != HK_ACCEPTED && room_length > 0) { /* a refused cell leaves a byte */
        room[room_length - 1] = 0;
    }
    if (is_wrong(8) && answer.kind == HK_NUMBER) { /* a number is a text */
        answer.kind = HK_TEXT;
    }
    return answer;
}

struct hk_text_answer __wrap_hk_convert(uint32_t from, uint32_t to, const uint8_t *file, size_t file_length, uint8_t *room,
                                        size_t room_length) {
    struct hk_text_answer answer = __real_hk_convert(from, to, file, file_length, room, room_length);
    if (is_wrong(9) && answer.length == room_length) { /* writes the byte after the room */
        ((volatile uint8_t *)room)[room_length] = 0;
    }
    if (is_wrong(10) && answer.length > 9 && room[1] == 'a') { /* another letter */
        room[1] = 'b';
    }
    if (is_wrong(11) && answer.report.number == HK_SYNTAX) { /* another place */
        answer.report.offset -= answer.report.offset > 0;
    }
    return answer;
}

struct hk_text_answer __wrap_hk_write(uint32_t dialect, const uint8_t *content, size_t content_length, const size_t *starts,
                                      size_t starts_length, const size_t *ends, size_t ends_length, const uint8_t *kinds,
                                      size_t kinds_length, size_t columns, size_t records, uint8_t *room, size_t room_length) {
    struct hk_text_answer answer = __real_hk_write(dialect, content, content_length, starts, starts_length, ends, ends_length, kinds,
                                                   kinds_length, columns, records, room, room_length);
    if (is_wrong(12) && kinds_length > 0) { /* changes what it may only read */
        ((uint8_t *)kinds)[0] ^= 4;
    }
    if (is_wrong(13) && answer.report.number == HK_ROOM && room_length > 0) { /* a refused table leaves a byte */
        room[0] = 0;
    }
    return answer;
}

struct hk_piece_answer __wrap_hk_piece(struct hk_converter converter, const uint8_t *piece, size_t piece_length, uint8_t *out,
                                       size_t out_length) {
    struct hk_piece_answer answer = __real_hk_piece(converter, piece, piece_length, out, out_length);
    if (is_wrong(14) && piece_length == 1) { /* the forms differ */
        answer.next.bytes[HK_RECORD_BYTES - 1] ^= 1;
    }
    return answer;
}

struct hk_text_answer __wrap_hk_piece_lent(uint32_t source, uint32_t target, size_t *numbers, size_t *ends, size_t *name_ends,
                                           uint8_t *bytes, uint8_t *names, const uint8_t *piece, size_t piece_length, uint8_t *out,
                                           size_t out_length) {
    if (is_wrong(15)) { /* writes past the state */
        ((volatile uint8_t *)names)[HK_RECORD_BYTES] = 0;
    }
    struct hk_text_answer answer = __real_hk_piece_lent(source, target, numbers, ends, name_ends, bytes, names, piece, piece_length, out,
                                                        out_length);
    if (is_wrong(16) && answer.length > 0 && answer.length < out_length) { /* writes past its text */
        out[answer.length] = 0;
    }
    if (is_wrong(17) && answer.report.number == HK_ROOM) { /* a refused call changes the converter */
        ends[0]++;
    }
    return answer;
}
