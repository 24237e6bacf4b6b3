// Where each line of each depth and family is: every line is written, then read in another sequence, and slots, counters and
// nodes are looked at after each call. Page, place, path and slots are counted up here from line to line; nothing is divided.
// Then lines and pages past the map, up to the last 64-bit number.
#include "module.h"

enum { SLOT = 73, CELL = 72, LEVELS = 4, MOST_LINES = NV_LINES_3, MOST_NODES = 512 };

// A line: the node of each level on its path (of level 0 its page), that node's slot, its place among its eight siblings.
typedef struct {
    uint64_t place, node[LEVELS];
    unsigned slot[LEVELS], sibling[LEVELS];
} spot;

static const calls ours = CALLS_OF(nv_);
static spot spots[MOST_LINES];
static uint8_t content[LEVELS][MOST_NODES][64];
static long passed, failed;

static void check(int holds, const char *what, unsigned depth, uint64_t number)
{
    if (holds) {
        passed++;
        return;
    }
    if (failed++ < 20)
        printf("places: %s, depth %u, %llu\n", what, depth, (unsigned long long)number);
}

// The next node of a level, and of those above it where it is the last of eight.
static void step(spot *s, unsigned level)
{
    unsigned first = level == 0 ? 0 : 2 + 2 * level, last = level == 0 ? 3 : first + 1;
    s->node[level]++;
    s->slot[level] = s->slot[level] == last ? first : s->slot[level] + 1;
    if (++s->sibling[level] == 8) {
        s->sibling[level] = 0;
        if (level + 1 < LEVELS)
            step(s, level + 1);
    }
}

static void count_spots(uint64_t lines)
{
    spot s = { .slot = { 0, 4, 6, 8 } };
    for (uint64_t line = 0; line < lines; line++) {
        spots[line] = s;
        if (++s.place == 64) {
            s.place = 0;
            step(&s, 0);
        }
    }
}

static void text_of(uint64_t line, uint8_t *text)
{
    for (int i = 0; i < NV_TEXT_LENGTH; i++)
        text[i] = (uint8_t)(line >> 8 * (i & 1)) ^ (uint8_t)i;
}

// Whether each node of a line's path is in its slot.
static int in_slots(const module *m, const spot *s)
{
    int all = 1;
    for (unsigned l = 0; l <= m->depth; l++)
        all &= nv_number(m->cache, SLOT * s->slot[l]) == s->node[l] + 1;
    return all;
}

// Whether a write has set the minor of its place to 1 and, in each node above, the word of its child, and nothing else there.
static int renewed(const module *m, const spot *s)
{
    uint8_t *block = content[0][s->node[0]];
    uint64_t bit = 7 * s->place;
    block[8 + (bit >> 3)] |= (uint8_t)(1 << (bit & 7));
    int right = memcmp(m->cache + SLOT * s->slot[0] + 9, block, 64) == 0;
    for (unsigned l = 1; l <= m->depth; l++) {
        uint8_t *old = content[l][s->node[l]], *word = old + 8 * s->sibling[l - 1];
        const uint8_t *new = m->cache + SLOT * s->slot[l] + 9;
        right &= memcmp(word, new + 8 * s->sibling[l - 1], 8) != 0;
        memcpy(word, new + 8 * s->sibling[l - 1], 8);
        right &= memcmp(old, new, 64) == 0;
    }
    return right;
}

// The blocks and nodes that format left, in the sequence of their cells.
static void note_nodes(const module *m)
{
    const uint8_t *cell = m->array + CELL * m->lines;
    for (unsigned l = 0; l <= m->depth; l++)
        for (uint64_t i = 0; i <= spots[m->lines - 1].node[l]; i++, cell += CELL)
            memcpy(content[l][i], cell, 64);
}

static void write_all(const module *m)
{
    static const uint8_t empty[CELL];
    for (uint64_t line = 0; line < m->lines; line++) {
        const uint8_t *cell = m->array + CELL * line;
        int fresh = memcmp(cell, empty, CELL) == 0;
        text_of(line, m->text);
        int done = call_write(m, line, UNLIMITED) == NV_DONE;
        int stored = m->family == NV_FAMILY_PHASE ? cell[64] == 1 : nv_number(cell, 64) != 0;
        check(fresh && done && stored, "data cell of a write", m->depth, line);
        check(in_slots(m, &spots[line]), "slots of a write", m->depth, line);
        check(renewed(m, &spots[line]), "counter and path of a write", m->depth, line);
    }
}

// In steps of an odd number of lines, so that each line comes once and the next is far.
static void read_all(const module *m)
{
    for (uint64_t i = 0; i < m->lines; i++) {
        uint64_t line = (64 * 13 + 1) * i & (m->lines - 1);
        text_of(line, m->text);
        int done = call_read(m, line, UNLIMITED) == NV_DONE;
        check(done && memcmp(m->out, m->text, NV_TEXT_LENGTH) == 0, "text of a read", m->depth, line);
        check(in_slots(m, &spots[line]), "slots of a read", m->depth, line);
    }
}

static void refuse(const module *m, const module *before, uint64_t number, uint64_t pages)
{
    static const char *const what[] = { "a read past the map", "a write past the map", "a turn past the map" };
    for (int k = 0; k < 3; k++) {
        if (number < (k == 2 ? pages : m->lines))
            continue;
        uint32_t code = (k == 0 ? call_read : k == 1 ? call_write : call_turn)(m, number, UNLIMITED);
        int kept = memcmp(m->control, before->control, NV_CONTROL_LENGTH) == 0 && memcmp(m->cache, before->cache, m->cache_len) == 0;
        check(code == NV_REFUSED + NV_BAD_LINE && number_at(m, NV_STORES_AT) == 0 && kept, what[k], m->depth, number);
    }
}

// Numbers at each power of two and around it, alone and above a line of the map, whose low bits are then that line's.
static void past_map(const module *m)
{
    module before = make_module(&ours, m->depth, m->family, malloc);
    copy_module(&before, m);
    for (int k = 0; k <= 64; k++) {
        uint64_t power = k < 64 ? (uint64_t)1 << k : 0;
        for (uint64_t low = 0; low < m->lines; low = 2 * low + 63)
            for (int by = -1; by <= 1; by++)
                refuse(m, &before, power + low + (uint64_t)by, spots[m->lines - 1].node[0] + 1);
    }
    check(memcmp(m->array, before.array, m->array_len) == 0, "the array after refusals", m->depth, 0);
    free_module(&before);
}

int main(void)
{
    for (unsigned k = 0; k < 3 * FAMILIES; k++) {
        unsigned depth = 1 + k % 3;
        module m = make_module(&ours, depth, k / 3, malloc);
        count_spots(m.lines);
        need(call_format(&m) == NV_DONE);
        note_nodes(&m);
        write_all(&m);
        read_all(&m);
        past_map(&m);
        check(call_recover(&m, UNLIMITED) == NV_DONE, "recovery", depth, m.lines);
        read_all(&m);
        free_module(&m);
    }
    printf("places: %ld passed, %ld failed\n", passed, failed);
    return failed != 0;
}
