// A module in its buffers, calls on it, and the states that the C tests and the benchmark start from.
#ifndef MODULE_H
#define MODULE_H

#include "../include/nightvelvet.h"
#include <stdio.h>
#include <stdlib.h>
#include <string.h>

#define UNLIMITED UINT64_MAX

// One implementation of the header.
typedef struct {
    __typeof__(nv_format) *format;
    __typeof__(nv_read) *read;
    __typeof__(nv_write) *write;
    __typeof__(nv_turn) *turn;
    __typeof__(nv_recover) *recover;
    __typeof__(nv_dirty_pages) *dirty_pages;
} calls;

#define CALLS_OF(prefix) { prefix##format, prefix##read, prefix##write, prefix##turn, prefix##recover, prefix##dirty_pages }

typedef struct {
    const calls *by;
    unsigned depth, family;
    uint64_t lines;
    size_t array_len, cache_len;
    uint8_t *control, *array, *cache, *out, *text, *list, *numbers;
} module;

static const uint8_t keys[NV_KEYS_LENGTH] = {
    0, 1, 2, 3, 4, 5, 6, 7, 8, 9, 10, 11, 12, 13, 14, 15, 16, 17, 18, 19, 20, 21, 22, 23,
    24, 25, 26, 27, 28, 29, 30, 31, 32, 33, 34, 35, 36, 37, 38, 39, 40, 41, 42, 43, 44, 45, 46, 47,
};

static inline module sizes_of(const calls *by, unsigned depth, unsigned family)
{
    static const size_t arrays[] = { 0, NV_ARRAY_LENGTH_1, NV_ARRAY_LENGTH_2, NV_ARRAY_LENGTH_3 };
    static const size_t caches[] = { 0, NV_CACHE_LENGTH_1, NV_CACHE_LENGTH_2, NV_CACHE_LENGTH_3 };
    static const uint64_t lines[] = { 0, NV_LINES_1, NV_LINES_2, NV_LINES_3 };
    return (module){ .by = by, .depth = depth, .family = family, .lines = lines[depth], .array_len = arrays[depth],
                     .cache_len = caches[depth] };
}

// Gives a module buffers from `get`.
static inline module make_module(const calls *by, unsigned depth, unsigned family, void *(*get)(size_t))
{
    module m = sizes_of(by, depth, family);
    m.control = get(NV_CONTROL_LENGTH);
    m.array = get(m.array_len);
    m.cache = get(m.cache_len);
    m.out = get(NV_TEXT_LENGTH);
    m.text = get(NV_TEXT_LENGTH);
    m.list = get(NV_LIST_LENGTH);
    m.numbers = get(NV_NUMBERS_LENGTH);
    return m;
}

static inline void free_module(const module *m)
{
    free(m->control), free(m->array), free(m->cache), free(m->out), free(m->text), free(m->list), free(m->numbers);
}

static inline void copy_module(const module *to, const module *from)
{
    memcpy(to->control, from->control, NV_CONTROL_LENGTH);
    memcpy(to->array, from->array, from->array_len);
    memcpy(to->cache, from->cache, from->cache_len);
}

static inline uint64_t number_at(const module *m, uint64_t at)
{
    return nv_number(m->numbers, at);
}

static inline uint32_t call_format(const module *m)
{
    return m->by->format(m->depth, m->family, keys, sizeof keys, m->control, NV_CONTROL_LENGTH, m->array, m->array_len, m->cache,
                         m->cache_len, m->numbers, NV_NUMBERS_LENGTH);
}

static inline uint32_t call_read(const module *m, uint64_t line, uint64_t allowance)
{
    return m->by->read(keys, sizeof keys, m->control, NV_CONTROL_LENGTH, m->array, m->array_len, m->cache, m->cache_len, line,
                       m->out, NV_TEXT_LENGTH, allowance, m->numbers, NV_NUMBERS_LENGTH);
}

static inline uint32_t call_write(const module *m, uint64_t line, uint64_t allowance)
{
    return m->by->write(keys, sizeof keys, m->control, NV_CONTROL_LENGTH, m->array, m->array_len, m->cache, m->cache_len, line,
                        m->text, NV_TEXT_LENGTH, allowance, m->numbers, NV_NUMBERS_LENGTH);
}

static inline uint32_t call_turn(const module *m, uint64_t page, uint64_t allowance)
{
    return m->by->turn(keys, sizeof keys, m->control, NV_CONTROL_LENGTH, m->array, m->array_len, m->cache, m->cache_len, page,
                       allowance, m->numbers, NV_NUMBERS_LENGTH);
}

static inline uint32_t call_recover(const module *m, uint64_t allowance)
{
    return m->by->recover(keys, sizeof keys, m->control, NV_CONTROL_LENGTH, m->array, m->array_len, m->cache, m->cache_len,
                          allowance, m->numbers, NV_NUMBERS_LENGTH);
}

static inline uint32_t call_dirty_pages(const module *m)
{
    return m->by->dirty_pages(m->control, NV_CONTROL_LENGTH, m->cache, m->cache_len, m->list, NV_LIST_LENGTH, m->numbers,
                              NV_NUMBERS_LENGTH);
}

// ---- States and the call that each is for ----

enum scenario {
    CACHED_READ, BLANK_READ, FIRST_READ, EVICTING_READ, CACHED_WRITE, STOP_LOSS_WRITE, EVICTING_WRITE, FULL_WRITE,
    SMALL_TURN, FULL_TURN, IDLE_RECOVERY, SMALL_RECOVERY, FULL_RECOVERY, FORMAT, DIRTY_PAGES, BENCH_ROWS,
    EVICTING_TURN = BENCH_ROWS, RESUMED_TURN, SINGLE_TURN, TURN_RECOVERY, SCENARIOS,
};

static const char *const scenario_names[SCENARIOS] = {
    "read of a cached line", "blank read", "blank read, empty cache", "read with eviction", "write to a cached line",
    "stop-loss write", "write with eviction", "write, full batch", "turn of two lines", "turn of a full page",
    "recovery, full shadow", "recovery, one pending", "recovery, full batch", "format", "list of dirty pages",
    "turn with eviction", "turn resumed", "turn of one line", "recovery, open page",
};

enum call { READ, WRITE, TURN, RECOVER, LIST, FORMATS, CALL_KINDS };

static const char *const call_names[CALL_KINDS] = { "nv_read", "nv_write", "nv_turn", "nv_recover", "nv_dirty_pages", "nv_format" };

// The call of each scenario.
static const enum call scenario_calls[SCENARIOS] = {
    READ, READ, READ, READ, WRITE, WRITE, WRITE, WRITE, TURN, TURN, RECOVER, RECOVER, RECOVER, FORMATS, LIST,
    TURN, TURN, TURN, RECOVER,
};

enum { NEAR = 5, FAMILIES = 2 };

// A line whose path needs the slots that the path of NEAR has, below the top.
static inline uint64_t far_line(unsigned depth)
{
    return 64 * (depth == 1 ? 4 : 2 * ((uint64_t)1 << 3 * (depth - 1)));
}

static inline void broken(const char *file, int line, const char *what)
{
    fprintf(stderr, "%s:%d: does not hold: %s\n", file, line, what);
    abort();
}

// What a test rests on.
#define need(holds) ((holds) ? (void)0 : broken(__FILE__, __LINE__, #holds))

static inline void put_lines(const module *m, uint64_t line, int times)
{
    for (; times > 0; times--) {
        memset(m->text, (int)(line + (unsigned)times) & 255, NV_TEXT_LENGTH);
        need(call_write(m, line, UNLIMITED) == NV_DONE);
    }
}

// Every slot that can be filled is, and dirty.
static inline void fill_slots(const module *m)
{
    for (uint64_t page = 0; page < 4; page++)
        put_lines(m, 64 * page, 1);
    if (m->depth > 1)
        put_lines(m, 64 * (8 + 1), 2);
    if (m->depth > 2)
        put_lines(m, 64 * (64 + 8 + 2), 3);
}

// The line that a scenario's call reads or writes.
static inline uint64_t scenario_line(enum scenario s, unsigned depth)
{
    return s == EVICTING_READ || s == EVICTING_WRITE || s == FULL_WRITE || s == FULL_RECOVERY ? far_line(depth) : NEAR;
}

// The page that a scenario's call turns.
static inline uint64_t scenario_page(enum scenario s, unsigned depth)
{
    return (s == EVICTING_TURN ? far_line(depth) : NEAR) / 64;
}

// Writes the lines of a page that is to be turned; for a turn that is resumed, or recovered from, the first is worn, and power
// fails after the commit of its first batch.
static inline void prepare_turn(const module *m, enum scenario s)
{
    uint64_t first = s == FULL_TURN ? 0 : s == EVICTING_TURN ? far_line(m->depth) : NEAR;
    uint64_t lines = s == FULL_TURN ? 64 : s == SINGLE_TURN ? 1 : s == SMALL_TURN ? 2 : 3;
    int left_open = s == RESUMED_TURN || s == TURN_RECOVERY;
    for (uint64_t i = 0; i < lines; i++)
        put_lines(m, first + i, left_open && i == 0 ? 127 : 1 + (int)i % 3);
    if (s == EVICTING_TURN)
        put_lines(m, NEAR, 1);
    if (left_open)
        need(call_turn(m, scenario_page(s, m->depth), 3) == NV_CUT && m->control[15] == 2 && m->control[NV_TURN_AT] == 1);
    if (s == RESUMED_TURN)
        need(call_recover(m, UNLIMITED) == NV_DONE);
}

static inline void prepare(const module *m, enum scenario s)
{
    uint64_t far = far_line(m->depth);
    need(call_format(m) == NV_DONE);
    if (s == CACHED_READ || s == CACHED_WRITE || s == SMALL_RECOVERY || s == DIRTY_PAGES)
        put_lines(m, NEAR, 1);
    if (s == STOP_LOSS_WRITE)
        put_lines(m, NEAR, 3);
    if (s == BLANK_READ)
        put_lines(m, NEAR + 1, 1);
    if (s == EVICTING_READ || s == EVICTING_WRITE) {
        put_lines(m, far, 1);
        put_lines(m, NEAR, 1);
    }
    if (s == FULL_WRITE || s == FULL_RECOVERY) {
        put_lines(m, far, 3);
        put_lines(m, NEAR, 1);
    }
    if (s == IDLE_RECOVERY)
        fill_slots(m);
    if (scenario_calls[s] == TURN || s == TURN_RECOVERY)
        prepare_turn(m, s);
    memset(m->text, 0xe7, NV_TEXT_LENGTH);
    if (s == SMALL_RECOVERY) // cut after the commit of a batch of one cell
        need(call_write(m, NEAR, 2) == NV_CUT && m->control[15] == 1);
    if (s == FULL_RECOVERY) // cut after the commit of a batch of 2h + 2 cells
        need(call_write(m, far, 2 * m->depth + 3) == NV_CUT && m->control[15] == 2 * m->depth + 2);
}

static inline uint32_t run_scenario(const module *m, enum scenario s, uint64_t allowance)
{
    uint64_t line = scenario_line(s, m->depth);
    switch (scenario_calls[s]) {
    case READ:
        return call_read(m, line, allowance);
    case WRITE:
        return call_write(m, line, allowance);
    case TURN:
        return call_turn(m, scenario_page(s, m->depth), allowance);
    case RECOVER:
        return call_recover(m, allowance);
    case FORMATS:
        return call_format(m);
    default:
        return call_dirty_pages(m);
    }
}

// What the call of a scenario returns.
static inline uint32_t scenario_code(enum scenario s)
{
    return s == BLANK_READ || s == FIRST_READ ? NV_BLANK : NV_DONE;
}

#endif
