// The calls of nightvelvet.h over a struct: a module is one argument and an answer one value. Optional, and no part of the
// library: each form makes its one call and keeps nothing.
//
//     nv_module m = nv_module_of(1, keys, control, array, cache);
//     nv_answer a = nv_module_recover(&m, UINT64_MAX);
//     if (a.code != NV_DONE)
//         report(a.code, nv_word(a.code), a.first, a.second);
#ifndef NIGHTVELVET_MODULE_H
#define NIGHTVELVET_MODULE_H

#include "nightvelvet.h"

#ifdef __cplusplus
extern "C" {
#endif

// A module: the caller's buffers, with the lengths of its depth. A later request has calls be told a serial number: that will
// be a member too, and the forms below keep their arguments.
typedef struct nv_module {
    uint64_t depth;
    const uint8_t *keys; // NV_KEYS_LENGTH bytes
    uint8_t *control;    // NV_CONTROL_LENGTH bytes
    uint8_t *array;      // array_len bytes
    uint8_t *cache;      // cache_len bytes
    uint64_t array_len, cache_len;
} nv_module;

typedef struct nv_answer {
    uint32_t code;          // as the call returned it; in words: nv_word
    uint64_t stores;        // the stores made
    uint64_t sum;           // of a done recovery: by how much counters were brought forward; else 0
    uint64_t first, second; // of a refusal: the numbers of its place; else 0
} nv_answer;

// A module over these buffers. For a depth that is not 1, 2 or 3 the lengths are 0, so that every call is refused.
static inline nv_module nv_module_of(uint64_t depth, const uint8_t *keys, uint8_t *control, uint8_t *array, uint8_t *cache)
{
    nv_module m;
    m.depth = depth;
    m.keys = keys;
    m.control = control;
    m.array = array;
    m.cache = cache;
    m.array_len = depth == 1 ? NV_ARRAY_LENGTH_1 : depth == 2 ? NV_ARRAY_LENGTH_2 : depth == 3 ? NV_ARRAY_LENGTH_3 : 0;
    m.cache_len = depth == 1 ? NV_CACHE_LENGTH_1 : depth == 2 ? NV_CACHE_LENGTH_2 : depth == 3 ? NV_CACHE_LENGTH_3 : 0;
    return m;
}

// How many lines the module has; 0 for a depth that is not 1, 2 or 3.
static inline uint64_t nv_module_lines(const nv_module *m)
{
    return m->depth == 1 ? NV_LINES_1 : m->depth == 2 ? NV_LINES_2 : m->depth == 3 ? NV_LINES_3 : 0;
}

static inline uint64_t nv_module_pages(const nv_module *m)
{
    return nv_module_lines(m) / NV_PAGE_LINES;
}

// Whether a page is open, its turn to be finished: 1 or 0. To be asked after a recovery that is done.
static inline int nv_module_is_open(const nv_module *m)
{
    return m->control[NV_TURN_AT] != 0;
}

// Which page is open, if one is.
static inline uint64_t nv_module_open_page(const nv_module *m)
{
    return nv_number(m->control, NV_TURN_PAGE_AT);
}

// What a code and its numbers tell.
static inline nv_answer nv_answer_of(uint32_t code, const uint8_t *numbers, int of_recovery)
{
    nv_answer a;
    a.code = code;
    a.stores = nv_number(numbers, NV_STORES_AT);
    a.sum = of_recovery && code == NV_DONE ? nv_number(numbers, NV_SUM_AT) : 0;
    a.first = code > NV_REFUSED ? nv_number(numbers, NV_FIRST_AT) : 0;
    a.second = code > NV_REFUSED ? nv_number(numbers, NV_SECOND_AT) : 0;
    return a;
}

// The family is NV_FAMILY_PHASE or NV_FAMILY_TAG; the other forms find it in the control record.
static inline nv_answer nv_module_format(const nv_module *m, uint64_t family)
{
    uint8_t numbers[NV_NUMBERS_LENGTH];
    uint32_t code = nv_format(m->depth, family, m->keys, NV_KEYS_LENGTH, m->control, NV_CONTROL_LENGTH, m->array,
                              m->array_len, m->cache, m->cache_len, numbers, sizeof numbers);
    return nv_answer_of(code, numbers, 0);
}

// Reads a line's text into the NV_TEXT_LENGTH bytes of `out`.
static inline nv_answer nv_module_read(const nv_module *m, uint64_t line, uint8_t *out, uint64_t allowance)
{
    uint8_t numbers[NV_NUMBERS_LENGTH];
    uint32_t code = nv_read(m->keys, NV_KEYS_LENGTH, m->control, NV_CONTROL_LENGTH, m->array, m->array_len, m->cache,
                            m->cache_len, line, out, NV_TEXT_LENGTH, allowance, numbers, sizeof numbers);
    return nv_answer_of(code, numbers, 0);
}

// Writes the NV_TEXT_LENGTH bytes of `text` to a line.
static inline nv_answer nv_module_write(const nv_module *m, uint64_t line, const uint8_t *text, uint64_t allowance)
{
    uint8_t numbers[NV_NUMBERS_LENGTH];
    uint32_t code = nv_write(m->keys, NV_KEYS_LENGTH, m->control, NV_CONTROL_LENGTH, m->array, m->array_len, m->cache,
                             m->cache_len, line, text, NV_TEXT_LENGTH, allowance, numbers, sizeof numbers);
    return nv_answer_of(code, numbers, 0);
}

static inline nv_answer nv_module_turn(const nv_module *m, uint64_t page, uint64_t allowance)
{
    uint8_t numbers[NV_NUMBERS_LENGTH];
    uint32_t code = nv_turn(m->keys, NV_KEYS_LENGTH, m->control, NV_CONTROL_LENGTH, m->array, m->array_len, m->cache,
                            m->cache_len, page, allowance, numbers, sizeof numbers);
    return nv_answer_of(code, numbers, 0);
}

static inline nv_answer nv_module_recover(const nv_module *m, uint64_t allowance)
{
    uint8_t numbers[NV_NUMBERS_LENGTH];
    uint32_t code = nv_recover(m->keys, NV_KEYS_LENGTH, m->control, NV_CONTROL_LENGTH, m->array, m->array_len, m->cache,
                               m->cache_len, allowance, numbers, sizeof numbers);
    return nv_answer_of(code, numbers, 1);
}

// Lists the dirty pages in the NV_LIST_LENGTH bytes of `list`.
static inline nv_answer nv_module_dirty_pages(const nv_module *m, uint8_t *list)
{
    uint8_t numbers[NV_NUMBERS_LENGTH];
    uint32_t code = nv_dirty_pages(m->control, NV_CONTROL_LENGTH, m->cache, m->cache_len, list, NV_LIST_LENGTH, numbers,
                                   sizeof numbers);
    return nv_answer_of(code, numbers, 0);
}

#ifdef __cplusplus
}
#endif

#endif
