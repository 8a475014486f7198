/* What a call is lent stands between two pages that no one may touch, right against one of them. All other bytes between these pages have
   a pattern, and so has a room before a call, so that every write shows. Under valgrind what is beside a range may not even be read, and
   what stands in a room before a call may decide nothing. */
#include <stdint.h>
#include <stdio.h>
#include <stdlib.h>
#include <string.h>
#include <sys/mman.h>
#include <unistd.h>
#if __has_include(<valgrind/memcheck.h>)
#include <valgrind/memcheck.h>
#else
#define VALGRIND_MAKE_MEM_NOACCESS(at, size) ((void)0)
#define VALGRIND_MAKE_MEM_UNDEFINED(at, size) ((void)0)
#define VALGRIND_MAKE_MEM_DEFINED(at, size) ((void)0)
#define VALGRIND_CHECK_MEM_IS_DEFINED(at, size) 0
#endif

/* Ends the process, so that a fuzzer keeps the input. */
static inline void require(int holds, const char *what) {
    if (!holds) {
        fprintf(stderr, "boundary: %s\n", what);
        abort();
    }
}

enum { PAGE = 4096, MOST_GUARDED = 64 * PAGE };

/* Some pages between two guard pages, and what of them is lent: against the page before it, or else against the one after it. */
struct guarded {
    uint8_t *first;
    size_t size;
    size_t at, length;
    int is_first;
};

/* What stands in a place before a call: a byte that no text has, and another one than in the places near it. */
static uint8_t pattern[MOST_GUARDED];

static void make_guarded(struct guarded *guarded, size_t least) {
    size_t size = (least + PAGE - 1) / PAGE * PAGE;
    require(sysconf(_SC_PAGESIZE) == PAGE && size <= MOST_GUARDED, "the pages have another size");
    uint8_t *pages = mmap(NULL, size + 2 * PAGE, PROT_NONE, MAP_PRIVATE | MAP_ANONYMOUS, -1, 0);
    require(pages != MAP_FAILED && mprotect(pages + PAGE, size, PROT_READ | PROT_WRITE) == 0, "there are no pages");
    for (size_t i = MOST_GUARDED; i > 0 && pattern[0] == 0; i--) {
        pattern[i - 1] = (uint8_t)(0xF5 + (i - 1) % 11);
    }
    *guarded = (struct guarded){pages + PAGE, size, 0, 0, 0};
    memcpy(guarded->first, pattern, size);
}

/* Lends so many bytes of room. */
static void *lend(struct guarded *guarded, size_t length) {
    require(length <= guarded->size, "more is lent than there is");
    guarded->length = length;
    guarded->at = guarded->is_first ? 0 : guarded->size - length;
    VALGRIND_MAKE_MEM_NOACCESS(guarded->first, guarded->size);
    VALGRIND_MAKE_MEM_UNDEFINED(guarded->first + guarded->at, length);
    return guarded->first + guarded->at;
}

/* Lends bytes that the call may read. */
static void *lend_bytes(struct guarded *guarded, const void *bytes, size_t length) {
    void *lent = lend(guarded, length);
    if (length > 0) {
        memcpy(lent, bytes, length);
    }
    return lent;
}

/* Copies what a call wrote. */
static void copy_written(const struct guarded *guarded, size_t written, void *to) {
    require(written <= guarded->length, "a call says that it wrote more than it was lent");
    const uint8_t *lent = guarded->first + guarded->at;
    require(VALGRIND_CHECK_MEM_IS_DEFINED(lent, written) == 0, "what was written is not defined");
    memcpy(to, lent, written);
}

/* Nothing may have changed but the first bytes of what was lent, which are set back. */
static void take_back(struct guarded *guarded, size_t written) {
    uint8_t *lent = guarded->first + guarded->at;
    VALGRIND_MAKE_MEM_DEFINED(guarded->first, guarded->size);
    size_t end = guarded->at + written;
    require(memcmp(guarded->first, pattern, guarded->at) == 0, "a byte before what was lent has changed");
    require(memcmp(guarded->first + end, pattern + end, guarded->size - end) == 0, "a byte that is not written has changed");
    memcpy(lent, pattern + guarded->at, written);
}

/* Nothing may have changed at all of bytes that were lent to be read. */
static void take_back_unchanged(struct guarded *guarded, const void *bytes) {
    const uint8_t *lent = guarded->first + guarded->at;
    require(guarded->length == 0 || memcmp(lent, bytes, guarded->length) == 0, "a byte that is only read has changed");
    take_back(guarded, guarded->length);
}
