// The forms of include/nightvelvet_module.h beside the plain calls: on the same state both give the same code, numbers and
// bytes. tests/test_interface.py builds this file as C++ too, and in every dialect.
#include "../include/nightvelvet_module.h"
#include <stdio.h>
#include <string.h>

#define UNLIMITED UINT64_MAX

enum { FORMAT, READ, WRITE, TURN, RECOVER, DIRTY_PAGES, KINDS };
enum { CELL = 72, SLOT = 73, ROOT_AT = 7, COUNT_AT = 15, SIDE_AT = 64 };

static const char *const kind_names[KINDS] = { "format", "read", "write", "turn", "recover", "dirty_pages" };
static const uint64_t lines_of[4] = { 0, 512, 4096, 32768 };
static const uint64_t array_lens[4] = { 0, 37944, 300744, 2402136 };
static const uint64_t cache_lens[4] = { 0, 438, 584, 730 };

typedef struct buffers {
    uint8_t keys[48], control[681], array[2402136], cache[730], text[64], list[32];
} buffers;

static buffers start, plain, form; // the state of a case, and what the two calls leave
static int passed, failed;

static void check(int holds, const char *what, uint64_t depth)
{
    if (holds)
        passed++;
    else if (++failed <= 20)
        printf("module_forms: FAILED: %s at depth %u\n", what, (unsigned)depth);
}

// The number is a line, a page or a family, as the call takes one.
static uint32_t make_plain(buffers *b, int kind, uint64_t depth, uint64_t number, uint64_t allowance, uint8_t *numbers)
{
    uint64_t array = depth < 4 ? array_lens[depth] : 0, cache = depth < 4 ? cache_lens[depth] : 0;
    switch (kind) {
    case FORMAT:
        return nv_format(depth, number, b->keys, 48, b->control, 681, b->array, array, b->cache, cache, numbers, 24);
    case READ:
        return nv_read(b->keys, 48, b->control, 681, b->array, array, b->cache, cache, number, b->text, 64, allowance, numbers, 24);
    case WRITE:
        return nv_write(b->keys, 48, b->control, 681, b->array, array, b->cache, cache, number, b->text, 64, allowance, numbers, 24);
    case TURN:
        return nv_turn(b->keys, 48, b->control, 681, b->array, array, b->cache, cache, number, allowance, numbers, 24);
    case RECOVER:
        return nv_recover(b->keys, 48, b->control, 681, b->array, array, b->cache, cache, allowance, numbers, 24);
    default:
        return nv_dirty_pages(b->control, 681, b->cache, cache, b->list, 32, numbers, 24);
    }
}

static nv_answer make_form(buffers *b, int kind, uint64_t depth, uint64_t number, uint64_t allowance)
{
    nv_module m = nv_module_of(depth, b->keys, b->control, b->array, b->cache);
    switch (kind) {
    case FORMAT:
        return nv_module_format(&m, number);
    case READ:
        return nv_module_read(&m, number, b->text, allowance);
    case WRITE:
        return nv_module_write(&m, number, b->text, allowance);
    case TURN:
        return nv_module_turn(&m, number, allowance);
    case RECOVER:
        return nv_module_recover(&m, allowance);
    default:
        return nv_module_dirty_pages(&m, b->list);
    }
}

static uint64_t number_in(const uint8_t *bytes)
{
    uint64_t number = 0;
    for (int i = 0; i < 8; i++)
        number |= (uint64_t)bytes[i] << 8 * i;
    return number;
}

// Makes a call from `start` in both ways. It must give this code and, where it is refused, this place.
static void compare(int kind, uint64_t depth, uint64_t number, uint64_t allowance, uint32_t code, uint64_t first, uint64_t second)
{
    uint8_t numbers[24];
    plain = start;
    form = start;
    uint32_t got = make_plain(&plain, kind, depth, number, allowance, numbers);
    nv_answer answer = make_form(&form, kind, depth, number, allowance);
    int refused = code > NV_REFUSED;
    check(got == code && (!refused || (number_in(numbers + 8) == first && number_in(numbers + 16) == second)), kind_names[kind], depth);
    check(answer.code == code && answer.stores == number_in(numbers), kind_names[kind], depth);
    check(answer.sum == (kind == RECOVER && code == NV_DONE ? number_in(numbers + 8) : 0), kind_names[kind], depth);
    check(answer.first == (refused ? first : 0) && answer.second == (refused ? second : 0), kind_names[kind], depth);
    check(memcmp(&plain, &form, sizeof plain) == 0, kind_names[kind], depth);
}

// Makes a call on `start` that a state is built with.
static void build(int kind, uint64_t depth, uint64_t number, uint64_t allowance, uint32_t code)
{
    uint8_t numbers[24];
    check(make_plain(&start, kind, depth, number, allowance, numbers) == code, "a state", depth);
}

// An empty module with lines 0 and 1 written, the first three times.
static void build_module(uint64_t depth, uint64_t family)
{
    memset(&start, 0x5a, sizeof start);
    build(FORMAT, depth, family, 0, NV_DONE);
    for (int i = 0; i < 4; i++)
        build(WRITE, depth, i == 3, UNLIMITED, NV_DONE);
    memset(start.text, 0x3c, sizeof start.text);
}

static void without_refusals(uint64_t depth, uint64_t family)
{
    memset(&start, 0xc3, sizeof start);
    compare(FORMAT, depth, family, 0, NV_DONE, 0, 0);
    build_module(depth, family);
    compare(READ, depth, 0, 0, NV_DONE, 0, 0);
    compare(READ, depth, 2, 0, NV_BLANK, 0, 0);
    compare(READ, depth, lines_of[depth] - 1, 4, NV_CUT, 0, 0);
    compare(WRITE, depth, 0, UNLIMITED, NV_DONE, 0, 0);
    compare(WRITE, depth, 0, 3, NV_CUT, 0, 0);
    compare(TURN, depth, 0, UNLIMITED, NV_DONE, 0, 0);
    compare(TURN, depth, 0, 11, NV_CUT, 0, 0);
    compare(DIRTY_PAGES, depth, 0, 0, NV_DONE, 0, 0);
    check(number_in(plain.list) == 0 && number_in(plain.list + 8) == UNLIMITED, "the list", depth);
    compare(RECOVER, depth, 0, 0, NV_DONE, 0, 0);
    check(make_form(&form, RECOVER, depth, 0, 0).sum == 4, "the sum", depth);
    build(WRITE, depth, 0, 4, NV_CUT);
    check(start.control[COUNT_AT] == 2, "a pending batch", depth);
    compare(RECOVER, depth, 0, 3, NV_CUT, 0, 0);
    compare(RECOVER, depth, 0, 4, NV_DONE, 0, 0);
}

static void refusals(uint64_t depth, uint64_t family)
{
    uint64_t lines = lines_of[depth];
    uint32_t hurt = NV_REFUSED + (family == NV_FAMILY_PHASE ? NV_BAD_PHASE : NV_NO_COUNTER);
    compare(FORMAT, depth, 2, 0, NV_REFUSED + NV_BAD_DEPTH, 0, 0);
    compare(FORMAT, depth, UNLIMITED, 0, NV_REFUSED + NV_BAD_DEPTH, 0, 0);
    build_module(depth, family);
    compare(READ, depth, lines, UNLIMITED, NV_REFUSED + NV_BAD_LINE, 0, 0);
    compare(WRITE, depth, UNLIMITED, UNLIMITED, NV_REFUSED + NV_BAD_LINE, 0, 0);
    compare(TURN, depth, lines / 64, UNLIMITED, NV_REFUSED + NV_BAD_LINE, 0, 0);
    start.array[CELL + 5] ^= 1;
    compare(READ, depth, 1, UNLIMITED, NV_REFUSED + NV_BAD_DATA, 1, 0);
    compare(TURN, depth, 0, UNLIMITED, NV_REFUSED + NV_BAD_DATA, 1, 0);
    start.array[CELL * (lines + 3)] ^= 1;
    compare(READ, depth, 64 * 3, UNLIMITED, NV_REFUSED + NV_BAD_NODE, 0, 3);
    compare(WRITE, depth, 64 * 3, UNLIMITED, NV_REFUSED + NV_BAD_NODE, 0, 3);
    start.array[CELL + SIDE_AT] = 4;
    build(WRITE, depth, 0, 4, NV_CUT);
    compare(READ, depth, 0, UNLIMITED, NV_REFUSED + NV_PENDING, 0, 0);
    compare(RECOVER, depth, 0, UNLIMITED, hurt, 1, 0);
    check(make_form(&start, RECOVER, depth, 0, UNLIMITED).stores == 4, "stores of a refused recovery", depth);
    start.cache[SLOT + 8] = 2;
    compare(DIRTY_PAGES, depth, 0, 0, NV_REFUSED + NV_BAD_CACHE, 0, 0);
    build_module(depth, family);
    for (int i = 3; i < 127; i++)
        build(WRITE, depth, 0, UNLIMITED, NV_DONE);
    compare(WRITE, depth, 0, UNLIMITED, NV_REFUSED + NV_WORN, 0, 0);
    start.control[ROOT_AT] ^= 1;
    compare(RECOVER, depth, 0, UNLIMITED, NV_REFUSED + NV_BAD_ROOT, 0, 0);
}

static void open_pages(uint64_t depth, uint64_t family)
{
    build_module(depth, family);
    nv_module m = nv_module_of(depth, start.keys, start.control, start.array, start.cache);
    check(!nv_module_is_open(&m), "no page is open", depth);
    for (int i = 0; i < 2; i++)
        build(WRITE, depth, 64 * 5 + (uint64_t)i, UNLIMITED, NV_DONE);
    build(TURN, depth, 5, 7, NV_CUT);
    build(RECOVER, depth, 0, UNLIMITED, NV_DONE);
    check(nv_module_is_open(&m) == 1 && nv_module_open_page(&m) == 5, "page 5 is open", depth);
    compare(READ, depth, 64 * 5, UNLIMITED, NV_REFUSED + NV_OPEN_PAGE, 0, 0);
    compare(TURN, depth, 0, UNLIMITED, NV_REFUSED + NV_OPEN_PAGE, 0, 0);
    compare(TURN, depth, nv_module_open_page(&m), UNLIMITED, NV_DONE, 0, 0);
}

static void sizes(uint64_t depth, uint64_t lines)
{
    nv_module m = nv_module_of(depth, start.keys, start.control, start.array, start.cache);
    check(m.depth == depth && m.array_len == (lines ? array_lens[depth] : 0) && m.cache_len == (lines ? cache_lens[depth] : 0),
          "lengths", depth);
    check(nv_module_lines(&m) == lines && nv_module_pages(&m) == lines / 64, "lines and pages", depth);
}

// Of a depth that there is not, every call is refused.
static void other_depth(uint64_t depth)
{
    build_module(1, NV_FAMILY_PHASE);
    sizes(depth, 0);
    compare(FORMAT, depth, NV_FAMILY_PHASE, 0, NV_REFUSED + NV_BAD_DEPTH, 0, 0);
    for (int kind = READ; kind <= RECOVER; kind++)
        compare(kind, depth, 0, UNLIMITED, NV_REFUSED + NV_BAD_ARRAY_LENGTH, 0, 0);
    compare(DIRTY_PAGES, depth, 0, 0, NV_REFUSED + NV_BAD_CACHE_LENGTH, 0, 0);
}

int main(void)
{
    for (uint64_t depth = 1; depth <= 3; depth++) {
        sizes(depth, lines_of[depth]);
        for (uint64_t family = NV_FAMILY_PHASE; family <= NV_FAMILY_TAG; family++) {
            without_refusals(depth, family);
            refusals(depth, family);
            open_pages(depth, family);
        }
    }
    other_depth(0);
    other_depth(4);
    other_depth(UNLIMITED);
    printf("module_forms: %d passed, %d failed\n", passed, failed);
    return failed != 0;
}
