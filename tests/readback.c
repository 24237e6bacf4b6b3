// The loop of book.py over all lines of a module, which a test goes through after each of its recoveries.
#include "../include/nightvelvet.h"
#include <string.h>

enum { QUEUE_AT = 24, PLACE = 80, PLACES = 8, CELL = 72, TAIL = NV_ARRAY_LENGTH_3 - CELL * NV_LINES_3 };

typedef struct {
    uint8_t code, text[NV_TEXT_LENGTH];
} wanted;

typedef struct {
    uint8_t *control, *array, *cache;
    size_t array_len, cache_len;
    uint64_t lines;
} module;

static uint8_t control[NV_CONTROL_LENGTH], tail[TAIL], cache[NV_CACHE_LENGTH_3];

// Puts back what a read of so many stores has changed. The cells that it stored are in the queue; a data cell is left for
// the caller to find.
static void put_back(const module *m, uint64_t stores)
{
    for (uint64_t j = 0; j < PLACES && 2 * j + 3 < stores; j++) {
        uint64_t cell = nv_number(m->control, QUEUE_AT + PLACE * j);
        if (cell >= m->lines && cell < m->array_len / CELL)
            memcpy(m->array + CELL * cell, tail + CELL * (cell - m->lines), CELL);
    }
    memcpy(m->control, control, sizeof control);
    memcpy(m->cache, cache, m->cache_len);
}

// Whether a read as the next call, under an allowance, gives what is wanted; tells its stores.
static int gives(__typeof__(nv_read) *read, const uint8_t *keys, const module *m, uint64_t line, uint64_t allowance,
                 const wanted *want, uint64_t *stores)
{
    uint8_t out[NV_TEXT_LENGTH], numbers[NV_NUMBERS_LENGTH];
    memset(out, 0xa5, sizeof out);
    uint32_t code = read(keys, NV_KEYS_LENGTH, m->control, NV_CONTROL_LENGTH, m->array, m->array_len, m->cache, m->cache_len,
                         line, out, sizeof out, allowance, numbers, sizeof numbers);
    *stores = nv_number(numbers, NV_STORES_AT);
    if (*stores)
        put_back(m, *stores);
    int placed = nv_number(numbers, NV_FIRST_AT) || nv_number(numbers, NV_SECOND_AT);
    return code == want->code && memcmp(out, want->text, sizeof out) == 0 && (code > NV_REFUSED || !placed);
}

// The first line whose read as the next call does not give what is wanted, or the number of lines. Lines at odd places are
// read under an allowance of just their stores, which are those of the line before, where that is not refused. The module
// stays, but for what no read may change.
uint64_t first_misread(__typeof__(nv_read) *read, const uint8_t *keys, uint8_t *the_control, uint8_t *array, size_t array_len,
                       uint8_t *the_cache, size_t cache_len, uint64_t lines, const wanted *want)
{
    module m = { the_control, array, the_cache, array_len, cache_len, lines };
    uint64_t line, stores = 0;
    memcpy(control, m.control, sizeof control);
    memcpy(tail, m.array + CELL * lines, array_len - CELL * lines);
    memcpy(cache, m.cache, cache_len);
    for (line = 0; line < lines; line++) {
        uint64_t allowance = line % 2 && want[line - 1].code < NV_REFUSED ? stores : UINT64_MAX;
        if (!gives(read, keys, &m, line, allowance, want + line, &stores))
            break;
    }
    return line;
}
