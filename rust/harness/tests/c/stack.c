/* Prints how many bytes of stack each call takes at most, on files and tables that lead through all of it: wide headers of escaped
   names, long records, and a name that repeats. A call runs on a stack that was filled before, and what it changed is what it took, with
   the few bytes of the function that makes the call and the converters that it hands over and takes back by value. */
#define _XOPEN_SOURCE 700
#include <hemakuliwi.h>
#include <pthread.h>
#include <stdio.h>
#include <stdlib.h>
#include <string.h>

enum { STACK = 1 << 18, FILL = 0xA5, PLACES = 1024 };

static uint8_t file[1 << 16];
static size_t file_length, header_length, starts[PLACES], ends[PLACES];
static uint8_t kinds[PLACES], room[HK_RECORD_BYTES], content[1 << 16], text[1 << 20];
static uint32_t dialect, target;
static uint8_t *stack;
static size_t cells, taken;

static void read_file(void) {
    cells = hk_read(dialect, file, file_length, starts, PLACES, ends, PLACES, kinds, PLACES).cells;
}

static void decode_cells(void) {
    for (size_t i = 0; i < cells; i++) {
        hk_decode(dialect, file + starts[i], ends[i] - starts[i], room, sizeof room);
    }
}

static void convert_file(void) {
    hk_convert(dialect, target, file, file_length, text, sizeof text);
}

/* The table that is written: texts of two records. */
enum { CELLS = 2 * HK_COLUMNS };
static size_t content_length, content_starts[CELLS], content_ends[CELLS];
static uint8_t content_kinds[CELLS];

static void write_table(void) {
    hk_write(target, content, content_length, content_starts, CELLS, content_ends, CELLS, content_kinds, CELLS, HK_COLUMNS, 2, text,
             sizeof text);
}

/* A converter in pieces of this many bytes; the header comes in several, and so does the record. */
enum { PIECE = 500 };
static struct hk_converter converter;
static struct hk_piece_answer answer;

static size_t piece_at(size_t start) {
    return file_length - start < PIECE ? file_length - start : PIECE;
}

static void new_converter(void) {
    converter = hk_converter_new(dialect, target);
}

static void pieces(void) {
    for (size_t i = 0; i < file_length; i += PIECE) {
        hk_converter_piece(&converter, file + i, piece_at(i), text, sizeof text);
    }
}

static void end(void) {
    hk_converter_end(&converter, text, sizeof text);
}

static void pieces_of_fields(void) {
    struct hk_converter *c = &converter;
    for (size_t i = 0; i < file_length; i += PIECE) {
        hk_piece_lent(c->source, c->target, c->numbers, c->ends, c->name_ends, c->bytes, c->names, file + i, piece_at(i), text, sizeof text);
    }
}

static void end_of_fields(void) {
    struct hk_converter *c = &converter;
    hk_end_lent(c->source, c->target, c->numbers, c->ends, c->name_ends, c->bytes, c->names, text, sizeof text);
}

static void pieces_by_value(void) {
    answer.next = converter;
    for (size_t i = 0; i < file_length; i += PIECE) {
        answer = hk_piece(answer.next, file + i, piece_at(i), text, sizeof text);
    }
}

static void end_by_value(void) {
    answer = hk_end(converter, text, sizeof text);
}

static void (*call)(void);

static void *measure(void *unused) {
    (void)unused;
    volatile uint8_t here = 0;
    call();
    size_t untouched = 0;
    while (stack[untouched] == FILL) {
        untouched++;
    }
    size_t used = (size_t)((uintptr_t)&here - (uintptr_t)(stack + untouched));
    taken = used > taken ? used : taken;
    return NULL;
}

static void on_filled_stack(void (*one)(void)) {
    pthread_attr_t attributes;
    pthread_t thread;
    memset(stack, FILL, STACK);
    call = one;
    if (pthread_attr_init(&attributes) != 0 || pthread_attr_setstack(&attributes, stack, STACK) != 0 ||
        pthread_create(&thread, &attributes, measure, NULL) != 0 || pthread_join(thread, NULL) != 0) {
        fprintf(stderr, "stack: no thread\n");
        exit(1);
    }
    pthread_attr_destroy(&attributes);
}

static void add(const char *text) {
    memcpy(file + file_length, text, strlen(text));
    file_length += strlen(text);
}

/* A header of 64 names, the last of which may repeat the first, and a data record. */
static void make_file(uint32_t number, int repeats) {
    static const char *const names[] = {NULL, "\"\\ud83d\\ude00\\n%d\"", "\"\xF0\x9F\x98\x80\"\"%d\"", "\"\xF0\x9F\x98\x80\"\"%d\""};
    static const char *const endings[] = {NULL, "\r\n", "\r", "\r\n"};
    dialect = number;
    file_length = 0;
    for (int record = 1; record <= 2; record++) {
        for (int column = 1; column <= HK_COLUMNS; column++) {
            char name[64];
            snprintf(name, sizeof name, names[number], repeats && column == HK_COLUMNS ? 1 : column);
            add(column == 1 ? "" : ",");
            add(name);
        }
        header_length = record == 1 ? file_length : header_length;
        add(endings[number]);
    }
}

/* The table of such a file, as the writer takes it. The name that repeats the first is the same span. */
static void make_table(uint32_t number, int repeats) {
    make_file(number, 0);
    read_file();
    content_length = 0;
    for (size_t i = 0; i < CELLS; i++) {
        content_starts[i] = content_length;
        content_length += hk_decode(dialect, file + starts[i], ends[i] - starts[i], content + content_length, HK_RECORD_BYTES).length;
        content_ends[i] = content_length;
        content_kinds[i] = HK_TEXT;
    }
    if (repeats) {
        content_starts[HK_COLUMNS - 1] = content_starts[0];
        content_ends[HK_COLUMNS - 1] = content_ends[0];
    }
}

struct call {
    const char *name;
    void (*run)(void);
    int is_end;
};

/* An end call has the most to do where it completes the header. */
static void prepare(int is_end) {
    new_converter();
    if (is_end) {
        hk_converter_piece(&converter, file, header_length, text, sizeof text);
    }
}

static size_t most(const struct call *one) {
    taken = 0;
    for (uint32_t number = HK_CSVJ; number <= HK_CSV_PLUS; number++) {
        for (int repeats = 1; repeats >= 0; repeats--) {
            make_table(number, repeats);
            make_file(number, repeats);
            read_file();
            if (cells != (repeats ? 0 : CELLS)) {
                fprintf(stderr, "stack: a file of dialect %u was not read as it should\n", (unsigned)number);
                exit(1);
            }
            for (target = HK_CSVJ; target <= HK_CSV_PLUS; target++) {
                prepare(one->is_end);
                on_filled_stack(one->run);
            }
        }
    }
    return taken;
}

int main(void) {
    static const struct call calls[] = {
        {"hk_read", read_file, 0},
        {"hk_decode", decode_cells, 0},
        {"hk_convert", convert_file, 0},
        {"hk_write", write_table, 0},
        {"hk_converter_new", new_converter, 0},
        {"hk_piece", pieces_by_value, 0},
        {"hk_end", end_by_value, 1},
        {"hk_piece_lent", pieces_of_fields, 0},
        {"hk_end_lent", end_of_fields, 1},
        {"hk_converter_piece", pieces, 0},
        {"hk_converter_end", end, 1},
    };
    stack = aligned_alloc(4096, STACK);
    if (stack == NULL) {
        return 1;
    }
    for (size_t i = 0; i < sizeof calls / sizeof *calls; i++) {
        printf("%s %zu\n", calls[i].name, most(&calls[i]));
    }
    free(stack);
    return 0;
}
