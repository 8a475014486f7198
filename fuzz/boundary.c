/* All calls of the library at its boundary, on bytes that a fuzzer makes up: their first ones choose a call, dialects and sizes, the rest
   is what the call is given. Whatever they are, a call has to stay inside what it was lent, a refused one has to change nothing, and the
   calls have to agree with each other: a file converted whole and in pieces, read and decoded, written and read back. */
#include "boundary.h"
#include "guarded.h"
#include <hemakuliwi.h>

enum {
    MOST_BYTES = 12288, /* of a file, a raw cell or a content */
    MOST_CELLS = MOST_BYTES + 1,
    MOST_ROOM = 6 * (MOST_BYTES + 1),
    MOST_STEPS = 32,
    MOST_OUT = HK_PIECE_ROOM + HK_PIECE_BYTES,
    SOME_CELLS = 300, /* of tables with more cells only the first are decoded, which takes long */
};

/* ---- what the input chooses */

struct choices {
    uint8_t call;
    uint8_t dialects;
    uint8_t sides[2];
    uint8_t lengths[3];
    uint8_t stretched[2]; /* which byte of the rest stands there many times */
    uint8_t times;
    uint8_t steps;
};

static struct choices chosen;
static uint32_t source, target;
static uint8_t steps[MOST_STEPS], body[MOST_BYTES];
static size_t step_count, body_length;

/* How often a byte is repeated: up to 63 times, or so that a record comes near to its limit as it is read or as it is written. */
static size_t repetitions(uint8_t times) {
    static const size_t least[] = {0, 640, 4040, 2000};
    return least[times / 64] + times % 64;
}

static void append(const uint8_t *bytes, size_t length) {
    size_t free = MOST_BYTES - body_length;
    size_t taken = length < free ? length : free;
    memcpy(body + body_length, bytes, taken);
    body_length += taken;
}

static int choose(const uint8_t *data, size_t size) {
    static const uint32_t numbers[16] = {1, 2, 3, 1, 2, 3, 1, 2, 3, 1, 2, 3, 0, 4, 257, UINT32_MAX};
    if (size < sizeof chosen) {
        return 0;
    }
    memcpy(&chosen, data, sizeof chosen);
    data += sizeof chosen;
    size -= sizeof chosen;
    source = numbers[chosen.dialects % 16];
    target = numbers[chosen.dialects / 16];
    step_count = chosen.steps % MOST_STEPS < size ? chosen.steps % MOST_STEPS : size;
    memcpy(steps, data, step_count);
    data += step_count;
    size -= step_count;
    size_t place = size == 0 ? 0 : (chosen.stretched[0] + 256u * chosen.stretched[1]) % size;
    body_length = 0;
    append(data, place);
    for (size_t i = repetitions(chosen.times); i > 0 && place < size; i--) {
        append(data + place, 1);
    }
    append(data + place, size - place);
    return 1;
}

/* A length that is near this one, or any small one. */
static size_t length_near(uint8_t choice, size_t exact, size_t most) {
    size_t length = choice >= 128 ? choice - 128u : exact + choice < 64 ? 0 : exact + choice - 64;
    return length < most ? length : most;
}

/* ---- what is lent */

static struct guarded input, room, cell, content, starts, ends, kinds, out, numbers, state_ends, name_ends, state_bytes, state_names;

static void make_all_guarded(void) {
    make_guarded(&input, MOST_ROOM);
    make_guarded(&room, MOST_ROOM);
    make_guarded(&cell, HK_RECORD_BYTES);
    make_guarded(&content, HK_RECORD_BYTES);
    make_guarded(&starts, MOST_CELLS * sizeof(size_t));
    make_guarded(&ends, MOST_CELLS * sizeof(size_t));
    make_guarded(&kinds, MOST_CELLS);
    make_guarded(&out, MOST_OUT);
    make_guarded(&numbers, sizeof ((struct hk_converter *)0)->numbers);
    make_guarded(&state_ends, sizeof ((struct hk_converter *)0)->ends);
    make_guarded(&name_ends, sizeof ((struct hk_converter *)0)->name_ends);
    make_guarded(&state_bytes, HK_RECORD_BYTES);
    make_guarded(&state_names, HK_RECORD_BYTES);
}

static void choose_sides(void) {
    struct guarded *const all[] = {&input, &room,    &cell,       &content,   &starts,      &ends,       &kinds,
                                   &out,   &numbers, &state_ends, &name_ends, &state_bytes, &state_names};
    unsigned sides = chosen.sides[0] + 256u * chosen.sides[1];
    for (size_t i = 0; i < sizeof all / sizeof *all; i++) {
        all[i]->is_first = sides >> i & 1;
    }
}

/* ---- reports */

#define NUMBER(number) (1u << (number))

enum {
    ACCEPTED = NUMBER(HK_ACCEPTED),
    FAULTS = NUMBER(HK_ROOM) - NUMBER(HK_NO_RECORD),
    READ_FAULTS = FAULTS - NUMBER(HK_NOT_CARRIED),
    PIECE_FAULTS = FAULTS - NUMBER(HK_NO_RECORD) - NUMBER(HK_CUT_SHORT),
    END_FAULTS = FAULTS - NUMBER(HK_ENCODING) - NUMBER(HK_SYNTAX),
    WRITE_FAULTS = NUMBER(HK_REPEATED_NAME) | NUMBER(HK_HEADER_KIND) | NUMBER(HK_LIMIT) | NUMBER(HK_NOT_CARRIED),
    CELL_FAULTS = NUMBER(HK_ENCODING) | NUMBER(HK_SYNTAX) | NUMBER(HK_CUT_SHORT),
    WRONG_CALL = NUMBER(HK_WRONG_CALL),
};

static int same_report(struct hk_report one, struct hk_report other) {
    return memcmp(&one, &other, sizeof one) == 0;
}

static struct hk_report refusal(size_t number) {
    return (struct hk_report){number, 0, 0, 0};
}

/* One of these numbers, with places in a file of this length. */
static void check_report(struct hk_report report, unsigned allowed, size_t length) {
    require(report.number <= HK_NO_TABLE && (allowed & NUMBER(report.number)) != 0, "a report has a number that this call can't have");
    if (report.number == HK_ACCEPTED || report.number >= HK_ROOM) {
        require(same_report(report, refusal(report.number)), "a report names a place though it has none");
    }
    require(report.column <= HK_COLUMNS && report.offset <= length, "a report names a place outside the file");
}

/* ---- the decoder */

static struct hk_decode_answer decode(uint32_t dialect, const uint8_t *raw, size_t length, size_t room_length, uint8_t *decoded) {
    int is_short = length <= HK_RECORD_BYTES && room_length <= HK_RECORD_BYTES;
    struct guarded *from = is_short ? &cell : &input, *to = is_short ? &content : &room;
    const uint8_t *lent = lend_bytes(from, raw, length);
    uint8_t *lent_room = lend(to, room_length);
    struct hk_decode_answer answer = hk_decode(dialect, lent, length, lent_room, room_length);
    copy_written(to, answer.length, decoded);
    take_back(to, answer.length);
    take_back_unchanged(from, raw);
    require(answer.report.number == HK_ACCEPTED ? answer.kind >= HK_TEXT && answer.kind <= HK_NULL : answer.length == 0 && answer.kind == 0,
            "a cell has no kind, or a refused one has a length or a kind");
    require(answer.report.record_number == 0, "a cell's report names a record");
    return answer;
}

/* With as much room as the raw cell, with just enough, and with a byte too little. */
static struct hk_decode_answer decode_cell(uint32_t dialect, const uint8_t *raw, size_t length, uint8_t *decoded) {
    static uint8_t again[MOST_BYTES];
    struct hk_decode_answer answer = decode(dialect, raw, length, length, decoded);
    check_report(answer.report, ACCEPTED | CELL_FAULTS | WRONG_CALL, length);
    if (answer.report.number == HK_ACCEPTED) {
        struct hk_decode_answer exact = decode(dialect, raw, length, answer.length, again);
        require(memcmp(&exact, &answer, sizeof exact) == 0 && memcmp(again, decoded, answer.length) == 0, "the room changes a content");
        if (answer.length > 0) {
            struct hk_decode_answer less = decode(dialect, raw, length, answer.length - 1, again);
            require(same_report(less.report, refusal(HK_ROOM)), "a cell has no room and is not refused");
        }
    }
    return answer;
}

static void try_decode(void) {
    static uint8_t decoded[MOST_BYTES];
    decode_cell(source, body, body_length, decoded);
}

/* ---- the reader */

struct table {
    struct hk_read_answer answer;
    size_t starts[MOST_CELLS], ends[MOST_CELLS];
    uint8_t kinds[MOST_CELLS];
};

static void read_into(struct table *table, uint32_t dialect, const uint8_t *file, size_t length, const size_t places[3]) {
    const uint8_t *lent = lend_bytes(&input, file, length);
    size_t *lent_starts = lend(&starts, places[0] * sizeof(size_t)), *lent_ends = lend(&ends, places[1] * sizeof(size_t));
    uint8_t *lent_kinds = lend(&kinds, places[2]);
    table->answer = hk_read(dialect, lent, length, lent_starts, places[0], lent_ends, places[1], lent_kinds, places[2]);
    size_t cells = table->answer.cells;
    require(cells <= places[0] && cells <= places[1] && cells <= places[2], "there are more cells than places");
    copy_written(&starts, cells * sizeof(size_t), table->starts);
    copy_written(&ends, cells * sizeof(size_t), table->ends);
    copy_written(&kinds, cells, table->kinds);
    take_back(&starts, cells * sizeof(size_t));
    take_back(&ends, cells * sizeof(size_t));
    take_back(&kinds, cells);
    take_back_unchanged(&input, file);
}

/* Counts that fit, and cells in file order inside the file. */
static void check_table(const struct table *table, size_t length) {
    struct hk_read_answer answer = table->answer;
    if (answer.report.number != HK_ACCEPTED) {
        require(answer.columns == 0 && answer.records == 0 && answer.cells == 0, "a refused file has counts");
        return;
    }
    require(answer.columns <= HK_COLUMNS && answer.cells == answer.columns * (answer.records + 1), "the counts don't fit");
    size_t end = 0;
    for (size_t i = 0; i < answer.cells; i++) {
        require(end <= table->starts[i] && table->starts[i] <= table->ends[i] && table->ends[i] <= length, "a cell is not where it can be");
        require(table->kinds[i] >= HK_TEXT && table->kinds[i] <= HK_NULL, "a cell has no kind");
        end = table->ends[i];
    }
}

/* With places enough: in a file of no more bytes than this there are no more cells. */
static void read_whole(struct table *table, uint32_t dialect, const uint8_t *file, size_t length) {
    size_t enough = length < MOST_CELLS ? length + 1 : MOST_CELLS;
    read_into(table, dialect, file, length, (const size_t[]){enough, enough, enough});
    check_report(table->answer.report, ACCEPTED | READ_FAULTS | WRONG_CALL, length);
    check_table(table, length);
}

static size_t cells_compared(const struct table *table) {
    return table->answer.cells < SOME_CELLS ? table->answer.cells : SOME_CELLS;
}

static void try_read(void) {
    static struct table whole, again;
    static uint8_t decoded[HK_RECORD_BYTES];
    read_whole(&whole, source, body, body_length);
    for (size_t i = 0; i < cells_compared(&whole); i++) {
        size_t length = whole.ends[i] - whole.starts[i];
        struct hk_decode_answer answer = decode_cell(source, body + whole.starts[i], length, decoded);
        require(answer.report.number == HK_ACCEPTED && answer.kind == whole.kinds[i], "a cell that was read is not sound");
    }
    size_t places[3], least = MOST_CELLS, cells = whole.answer.cells;
    for (size_t i = 0; i < 3; i++) {
        places[i] = length_near(chosen.lengths[i], cells, MOST_CELLS);
        least = places[i] < least ? places[i] : least;
    }
    read_into(&again, source, body, body_length, places);
    if (least < cells) {
        require(same_report(again.answer.report, refusal(HK_ROOM)), "a list is too short and the file not refused");
        check_table(&again, body_length);
    } else {
        require(memcmp(&again.answer, &whole.answer, sizeof again.answer) == 0, "the length of a list changes the answer");
        require(memcmp(again.starts, whole.starts, cells * sizeof(size_t)) == 0 &&
                    memcmp(again.ends, whole.ends, cells * sizeof(size_t)) == 0 && memcmp(again.kinds, whole.kinds, cells) == 0,
                "the length of a list changes the cells");
    }
}

/* ---- the writer */

struct contents {
    uint8_t bytes[MOST_BYTES];
    size_t length;
    size_t starts[MOST_CELLS], ends[MOST_CELLS];
    uint8_t kinds[MOST_CELLS];
    size_t places[3];
    size_t columns, records;
};

static struct hk_text_answer write_into(uint32_t dialect, const struct contents *table, size_t room_length, uint8_t *text) {
    const uint8_t *lent = lend_bytes(&input, table->bytes, table->length);
    const size_t *lent_starts = lend_bytes(&starts, table->starts, table->places[0] * sizeof(size_t));
    const size_t *lent_ends = lend_bytes(&ends, table->ends, table->places[1] * sizeof(size_t));
    const uint8_t *lent_kinds = lend_bytes(&kinds, table->kinds, table->places[2]);
    uint8_t *lent_room = lend(&room, room_length);
    struct hk_text_answer answer = hk_write(dialect, lent, table->length, lent_starts, table->places[0], lent_ends, table->places[1],
                                            lent_kinds, table->places[2], table->columns, table->records, lent_room, room_length);
    copy_written(&room, answer.length, text);
    take_back(&room, answer.length);
    take_back_unchanged(&kinds, table->kinds);
    take_back_unchanged(&ends, table->ends);
    take_back_unchanged(&starts, table->starts);
    take_back_unchanged(&input, table->bytes);
    require(answer.report.number == HK_ACCEPTED || answer.length == 0, "a refused table has a text");
    return answer;
}

/* With much room, with just enough, and with a byte too little. */
static struct hk_text_answer write_table(uint32_t dialect, const struct contents *table, uint8_t *text) {
    static uint8_t again[MOST_ROOM];
    struct hk_text_answer answer = write_into(dialect, table, MOST_ROOM, text);
    check_report(answer.report, ACCEPTED | WRITE_FAULTS | WRONG_CALL | NUMBER(HK_NO_TABLE) | NUMBER(HK_ROOM), 0);
    if (answer.report.number == HK_ACCEPTED) {
        struct hk_text_answer exact = write_into(dialect, table, answer.length, again);
        require(memcmp(&exact, &answer, sizeof exact) == 0 && memcmp(again, text, answer.length) == 0, "the room changes a table's text");
        struct hk_text_answer less = write_into(dialect, table, answer.length - 1, again);
        require(same_report(less.report, refusal(HK_ROOM)), "a text has no room and is not refused");
    }
    return answer;
}

/* The contents of the cells of a file. */
static void decode_table(struct contents *contents, uint32_t dialect, const uint8_t *file, const struct table *table) {
    contents->length = 0;
    contents->columns = table->answer.columns;
    contents->records = table->answer.records + 1;
    for (size_t i = 0; i < table->answer.cells; i++) {
        const uint8_t *raw = file + table->starts[i];
        uint8_t *decoded = contents->bytes + contents->length;
        struct hk_decode_answer answer = decode_cell(dialect, raw, table->ends[i] - table->starts[i], decoded);
        require(answer.report.number == HK_ACCEPTED && answer.kind == table->kinds[i], "a cell that was read is not sound");
        contents->starts[i] = contents->length;
        contents->length += answer.length;
        contents->ends[i] = contents->length;
        contents->kinds[i] = table->kinds[i];
    }
    for (size_t i = 0; i < 3; i++) {
        contents->places[i] = table->answer.cells;
    }
}

/* What is read in a text has to be the cells of this table. */
static void check_read_back(uint32_t dialect, const uint8_t *text, size_t length, const struct contents *wanted) {
    static struct table table;
    static uint8_t decoded[HK_RECORD_BYTES];
    read_whole(&table, dialect, text, length);
    require(table.answer.report.number == HK_ACCEPTED, "a written text is not accepted");
    require(table.answer.columns == wanted->columns && table.answer.records + 1 == wanted->records, "a written text has other counts");
    for (size_t i = 0; i < cells_compared(&table); i++) {
        struct hk_decode_answer answer = decode_cell(dialect, text + table.starts[i], table.ends[i] - table.starts[i], decoded);
        require(answer.kind == wanted->kinds[i] && answer.length == wanted->ends[i] - wanted->starts[i] &&
                    memcmp(decoded, wanted->bytes + wanted->starts[i], answer.length) == 0,
                "a cell is read back as another");
    }
}

/* A number from two bytes of the input; the last four stand for numbers that are far outside. */
static size_t any_number(const uint8_t *bytes) {
    size_t number = bytes[0] + 256u * bytes[1];
    static const size_t far[] = {SIZE_MAX, (size_t)1 << 63, (size_t)1 << 32, (size_t)1 << 31};
    return number >= 0xFFFC ? far[0xFFFF - number] : number;
}

/* Two bytes each for the numbers of columns and records, five for each cell, and the rest is the content. */
static void try_write(void) {
    enum { CELL = 5, COUNTS = 4 };
    static struct contents table;
    static uint8_t text[MOST_ROOM];
    const uint8_t *rest = body;
    size_t left = body_length;
    table.columns = table.records = 0;
    if (left >= COUNTS) {
        table.columns = any_number(rest);
        table.records = any_number(rest + 2);
        rest += COUNTS;
        left -= COUNTS;
    }
    if (table.columns == 0) {
        table.records %= 1000; /* records of no cells are counted one by one, which takes long beside all else that is tried */
    }
    size_t product = table.columns < 256 && table.records < 256 ? table.columns * table.records : 0;
    size_t given = product < left / CELL ? product : left / CELL;
    for (size_t i = 0; i < given; i++, rest += CELL, left -= CELL) {
        table.starts[i] = any_number(rest);
        table.ends[i] = any_number(rest + 2);
        table.kinds[i] = rest[4];
    }
    for (size_t i = 0; i < 3; i++) {
        table.places[i] = chosen.lengths[i] == 0 ? given : length_near(chosen.lengths[i], given, given);
    }
    memcpy(table.bytes, rest, left);
    table.length = left;
    struct hk_text_answer answer = write_table(target, &table, text);
    if (answer.report.number == HK_ACCEPTED) {
        check_read_back(target, text, answer.length, &table);
    }
}

/* ---- the converter of whole files */

static struct hk_text_answer convert_into(uint32_t from, uint32_t to, const uint8_t *file, size_t length, size_t room_length,
                                          uint8_t *text) {
    const uint8_t *lent = lend_bytes(&input, file, length);
    uint8_t *lent_room = lend(&room, room_length);
    struct hk_text_answer answer = hk_convert(from, to, lent, length, lent_room, room_length);
    copy_written(&room, answer.length, text);
    take_back(&room, answer.length);
    take_back_unchanged(&input, file);
    require(answer.report.number == HK_ACCEPTED || answer.length == 0, "a refused file has a text");
    return answer;
}

/* With the room that is promised to be enough, with just enough, and with a byte too little. */
static struct hk_text_answer convert_whole(const uint8_t *file, size_t length, uint8_t *text) {
    static uint8_t again[MOST_ROOM];
    struct hk_text_answer answer = convert_into(source, target, file, length, HK_CONVERT_ROOM(length), text);
    check_report(answer.report, ACCEPTED | FAULTS | WRONG_CALL, length);
    if (answer.report.number == HK_ACCEPTED) {
        struct hk_text_answer exact = convert_into(source, target, file, length, answer.length, again);
        require(memcmp(&exact, &answer, sizeof exact) == 0 && memcmp(again, text, answer.length) == 0, "the room changes a file's text");
        struct hk_text_answer less = convert_into(source, target, file, length, answer.length - 1, again);
        require(same_report(less.report, refusal(HK_ROOM)), "a text has no room and is not refused");
    }
    return answer;
}

/* The converter refuses what the reader refuses, as the reader does, unless a record before can't be carried. */
static void check_against_reader(struct hk_report converted, struct hk_report read) {
    if (converted.number == HK_NOT_CARRIED) {
        require(read.number == HK_ACCEPTED || read.record_number > converted.record_number, "a faulty record is not carried");
    } else if (converted.number != HK_WRONG_CALL) {
        require(same_report(converted, read), "the reader and the converter report different faults");
    }
}

static void try_convert(void) {
    static struct table table;
    static struct contents contents;
    static uint8_t text[MOST_ROOM], again[MOST_ROOM];
    struct hk_text_answer answer = convert_whole(body, body_length, text);
    read_whole(&table, source, body, body_length);
    check_against_reader(answer.report, table.answer.report);
    if (answer.report.number != HK_ACCEPTED || table.answer.cells > SOME_CELLS) {
        return;
    }
    decode_table(&contents, source, body, &table);
    check_read_back(target, text, answer.length, &contents);
    struct hk_text_answer written = write_table(target, &contents, again);
    require(memcmp(&written, &answer, sizeof written) == 0 && memcmp(again, text, answer.length) == 0, "the writer writes another text");
    struct hk_text_answer same = convert_into(target, target, text, answer.length, answer.length, again);
    require(memcmp(&same, &answer, sizeof same) == 0 && memcmp(again, text, answer.length) == 0, "canonical text is not its own");
}

/* ---- the converter of pieces, lent and by value at once */

/* The converter by value, whose fields are also what is lent. */
static struct hk_converter state;

struct call {
    const uint8_t *piece; /* none for the end of the file */
    size_t length, room;
};

static struct hk_text_answer call_lent(struct call call, struct hk_converter *next, int is_sound, uint8_t *text) {
    size_t *lent_numbers = lend_bytes(&numbers, state.numbers, sizeof state.numbers);
    size_t *lent_ends = lend_bytes(&state_ends, state.ends, sizeof state.ends);
    size_t *lent_name_ends = lend_bytes(&name_ends, state.name_ends, sizeof state.name_ends);
    uint8_t *lent_bytes = lend_bytes(&state_bytes, state.bytes, sizeof state.bytes);
    uint8_t *lent_names = lend_bytes(&state_names, state.names, sizeof state.names);
    const uint8_t *piece = lend_bytes(&input, call.piece, call.length);
    uint8_t *lent_out = lend(&out, call.room);
    struct hk_text_answer answer =
        call.piece == NULL
            ? hk_end_lent(state.source, state.target, lent_numbers, lent_ends, lent_name_ends, lent_bytes, lent_names, lent_out, call.room)
            : hk_piece_lent(state.source, state.target, lent_numbers, lent_ends, lent_name_ends, lent_bytes, lent_names, piece, call.length,
                            lent_out, call.room);
    require(answer.length <= call.room, "a call says that it wrote more than it was lent");
    *next = state;
    copy_written(&numbers, sizeof next->numbers, next->numbers);
    copy_written(&state_ends, sizeof next->ends, next->ends);
    copy_written(&name_ends, sizeof next->name_ends, next->name_ends);
    copy_written(&state_bytes, sizeof next->bytes, next->bytes);
    copy_written(&state_names, sizeof next->names, next->names);
    copy_written(&out, answer.length, text);
    take_back(&numbers, sizeof next->numbers);
    take_back(&state_ends, sizeof next->ends);
    take_back(&name_ends, sizeof next->name_ends);
    take_back(&state_bytes, sizeof next->bytes);
    take_back(&state_names, sizeof next->names);
    take_back_unchanged(&input, call.piece);
    take_back(&out, is_sound ? answer.length : call.room);
    return answer;
}

/* With a sound state nothing past the length is written. With any other the rules don't ask for that. */
static struct hk_text_answer call_both(struct call call, int is_sound, uint8_t *text) {
    static uint8_t by_value[MOST_OUT];
    static struct hk_converter next;
    struct hk_text_answer answer = call_lent(call, &next, is_sound, text);
    const uint8_t *piece = lend_bytes(&input, call.piece, call.length);
    uint8_t *lent_out = lend(&out, call.room);
    struct hk_piece_answer done =
        call.piece == NULL ? hk_end(state, lent_out, call.room) : hk_piece(state, piece, call.length, lent_out, call.room);
    require(memcmp(&done.answer, &answer, sizeof answer) == 0, "the forms answer differently");
    require(memcmp(&done.next, &next, sizeof next) == 0, "the forms leave different converters");
    copy_written(&out, answer.length, by_value);
    require(memcmp(by_value, text, answer.length) == 0, "the forms write different texts");
    take_back(&out, is_sound ? answer.length : call.room);
    take_back_unchanged(&input, call.piece);
    state = done.next;
    return answer;
}

/* What the calls so far have taken and written. */
struct past {
    size_t consumed, length;
    uint8_t text[MOST_ROOM];
    int is_closed;
    struct hk_report report; /* of the call that closed it */
};

static int is_known(uint32_t dialect) {
    return dialect >= HK_CSVJ && dialect <= HK_CSV_PLUS;
}

/* What the four checks before a call answer, or acceptance if they let it pass. */
static struct hk_report check_call(const struct past *past, struct call call) {
    if (!is_known(state.source) || !is_known(state.target)) {
        return refusal(HK_WRONG_CALL);
    }
    if (past->is_closed) {
        return past->report.number == HK_ACCEPTED ? refusal(HK_WRONG_CALL) : past->report;
    }
    return refusal(call.length > HK_PIECE_BYTES || call.room < HK_PIECE_ROOM ? HK_ROOM : HK_ACCEPTED);
}

static void make_call(struct past *past, struct call call) {
    static struct hk_converter before;
    static uint8_t text[MOST_OUT];
    struct hk_report checked = check_call(past, call);
    before = state;
    struct hk_text_answer answer = call_both(call, 1, text);
    if (checked.number != HK_ACCEPTED) {
        require(same_report(answer.report, checked) && answer.length == 0, "a call that is refused answers something else");
        require(memcmp(&before, &state, sizeof state) == 0, "a call that is refused has changed the converter");
        return;
    }
    int is_end = call.piece == NULL;
    past->consumed += call.length;
    check_report(answer.report, ACCEPTED | (is_end ? END_FAULTS : PIECE_FAULTS), past->consumed);
    require(answer.report.number == HK_ACCEPTED || !is_end || answer.length == 0, "an end that meets a fault has written");
    require(answer.length <= MOST_ROOM - past->length, "the texts are longer than they can be");
    memcpy(past->text + past->length, text, answer.length);
    past->length += answer.length;
    past->is_closed = is_end || answer.report.number != HK_ACCEPTED;
    past->report = answer.report;
    require(past->is_closed || hk_converter_offset(&state) == past->consumed, "the converter has another offset");
}

static struct call piece_of(const struct past *past, size_t length) {
    size_t left = body_length - past->consumed;
    return (struct call){body + past->consumed, length < left ? length : left, HK_PIECE_ROOM};
}

/* A piece of up to 31 bytes, or of a power of two, or one that is too long; an end; or either with an output that is too short or longer
   than it has to be. */
static struct call step_call(const struct past *past, uint8_t step) {
    static const size_t rooms[] = {0, 1, HK_PIECE_ROOM - 1, HK_PIECE_ROOM, HK_PIECE_ROOM + 1, MOST_OUT};
    static const uint8_t too_long[HK_PIECE_BYTES + 1] = {'"'};
    size_t choice = step / 4;
    struct call end = {NULL, 0, HK_PIECE_ROOM};
    switch (step % 4) {
    case 0:
        return piece_of(past, choice < 32 ? choice : (size_t)1 << (choice - 32) % 13);
    case 1:
        return choice < 60 ? piece_of(past, 1 + choice / 8) : (struct call){too_long, sizeof too_long, HK_PIECE_ROOM};
    case 2: {
        struct call call = choice % 2 == 0 ? end : piece_of(past, choice);
        call.room = rooms[choice % 6];
        return call;
    }
    default:
        return choice < 60 ? piece_of(past, HK_PIECE_BYTES) : end;
    }
}

/* Hands over what is left of this many bytes in large pieces, and then the end if it is to be. */
static void make_last_calls(struct past *past, size_t length, int has_end) {
    while (!past->is_closed && past->consumed < length) {
        size_t left = length - past->consumed;
        make_call(past, piece_of(past, left < HK_PIECE_BYTES ? left : HK_PIECE_BYTES));
    }
    if (has_end) {
        make_call(past, (struct call){NULL, 0, HK_PIECE_ROOM});
    }
}

static void try_pieces(void) {
    static struct past past, again;
    static uint8_t text[MOST_ROOM];
    past = (struct past){0};
    state = hk_converter_new(source, target);
    for (size_t i = 0; i < step_count; i++) {
        make_call(&past, step_call(&past, steps[i]));
    }
    if (!is_known(source) || !is_known(target)) {
        return;
    }
    int was_closed = past.is_closed;
    make_last_calls(&past, body_length, !was_closed);
    make_call(&past, piece_of(&past, 1));
    struct hk_text_answer whole = convert_whole(body, past.consumed, text);
    require(same_report(whole.report, past.report), "in pieces there is another fault");
    require(whole.report.number != HK_ACCEPTED || (whole.length == past.length && memcmp(text, past.text, whole.length) == 0),
            "in pieces there is another text");

    again = (struct past){0};
    state = hk_converter_new(source, target);
    make_last_calls(&again, past.consumed, 1);
    require(same_report(again.report, past.report), "with other cuts there is another fault");
    require(again.length == past.length && memcmp(again.text, past.text, again.length) == 0, "with other cuts there is another text");
}

/* ---- a converter that no calls have made */

/* The places of a converter's numbers that the checks go by: whether the end was accepted, and the report of a fault. */
enum { AT_ENDED = 9, AT_FAULT = 10 };

static struct hk_report check_made_up(struct call call) {
    const size_t *found = state.numbers;
    if (is_known(state.source) && is_known(state.target)) {
        if (found[AT_FAULT] > 0) {
            return (struct hk_report){found[AT_FAULT], found[AT_FAULT + 1], found[AT_FAULT + 2], found[AT_FAULT + 3]};
        }
        if (found[AT_ENDED] == 0) {
            return refusal(call.length > HK_PIECE_BYTES || call.room < HK_PIECE_ROOM ? HK_ROOM : HK_ACCEPTED);
        }
    }
    return refusal(HK_WRONG_CALL);
}

/* Names that can be read lie inside the converter, whatever its numbers are. */
static void check_names(void) {
    require(hk_converter_columns(&state) <= HK_COLUMNS, "a converter has too many columns");
    for (size_t k = 0; k <= HK_COLUMNS; k++) {
        struct hk_span name = hk_converter_name(&state, k);
        int is_none = name.bytes == NULL && name.length == 0;
        int is_inside = k < hk_converter_columns(&state) && name.bytes >= state.names &&
                        name.length <= (size_t)(state.names + HK_RECORD_BYTES - name.bytes);
        require(is_none || is_inside, "a name lies outside of the converter");
    }
}

/* Changes one number or one byte of the converter. */
static void change_state(const uint8_t *change) {
    static const size_t values[] = {0, 1, HK_COLUMNS, HK_COLUMNS + 1, HK_RECORD_BYTES, HK_RECORD_BYTES + 1, HK_FILE_BYTES, SIZE_MAX};
    size_t *place = change[0] % 8 < 4   ? &state.numbers[change[1] % 14]
                    : change[0] % 8 < 5 ? &state.ends[change[1] % HK_COLUMNS]
                                        : &state.name_ends[change[1] % HK_COLUMNS];
    switch (change[0] % 8) {
    case 6:
        state.bytes[change[1]] = change[2];
        break;
    case 7:
        state.names[change[1]] = change[2];
        break;
    default:
        *place = change[2] < 8 ? values[change[2]] : change[2] < 128 ? change[2] : *place + change[2] - 192;
    }
}

/* Any bytes; or the converter that a part of the input leads to, with some of it changed. Answers how many bytes of the input it took. */
static size_t make_up_state(void) {
    enum { CHANGE = 3 };
    state = hk_converter_new(source, target);
    if (chosen.lengths[0] % 8 == 0) {
        size_t length = body_length < sizeof state ? body_length : sizeof state;
        memcpy(&state, body, length);
        state.source = source;
        state.target = target;
        return length;
    }
    size_t changes = chosen.lengths[1] % 8, used = changes * CHANGE;
    if (body_length < used) {
        return body_length;
    }
    static uint8_t text[MOST_OUT];
    size_t taken = length_near(chosen.lengths[2], (body_length - used) / 2, HK_PIECE_BYTES);
    taken = taken < body_length - used ? taken : body_length - used;
    state = hk_piece(state, body + used, taken, text, sizeof text).next;
    for (size_t i = 0; i < changes; i++) {
        change_state(body + i * CHANGE);
    }
    return used + taken;
}

static void try_made_up(void) {
    static struct hk_converter before;
    static uint8_t text[MOST_OUT];
    struct past past = {.consumed = make_up_state()};
    check_names();
    for (size_t i = 0; i < step_count; i++) {
        struct call call = step_call(&past, steps[i]);
        struct hk_report checked = check_made_up(call);
        before = state;
        struct hk_text_answer answer = call_both(call, checked.number != HK_ACCEPTED, text);
        if (checked.number != HK_ACCEPTED) {
            require(same_report(answer.report, checked) && answer.length == 0, "a call that is refused answers something else");
            require(memcmp(&before, &state, sizeof state) == 0, "a call that is refused has changed the converter");
        } else {
            require(answer.report.number < HK_ROOM || answer.report.number == HK_WRONG_CALL, "a call has a number that it can't have");
            past.consumed += call.length;
        }
        require(state.source == before.source && state.target == before.target, "a converter has other dialects");
        check_names();
    }
}

/* ---- all of it */

int boundary(const uint8_t *data, size_t size) {
    static void (*const calls[])(void) = {try_read, try_decode, try_convert, try_write, try_pieces, try_made_up};
    if (input.first == NULL) {
        make_all_guarded();
    }
    if (choose(data, size)) {
        choose_sides();
        calls[chosen.call % (sizeof calls / sizeof *calls)]();
    }
    return 0;
}
