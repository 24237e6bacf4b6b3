// The whole layer in plain C11, as firmware would have it without proofs: what the benchmark compares with, and what the
// host tests can be tried on. Works in place: the path is found without touching the cache, the batch is staged in the
// queue of the control record, and the cache is written after the stores.
// -DPREFIX=.. sets the prefix of the functions (nv_ if none), -DSODIUM takes the primitives from libsodium. -DTAG_BITS=.. cuts
// the data tags of modules without a phase byte to so many of their lowest bits: a test can find two that agree.
#include "memory.h"
#include <stdatomic.h>
#include <string.h>

#ifndef PREFIX
#define PREFIX nv_
#endif
#define JOINED(a, b) a##b
#define JOIN(a, b) JOINED(a, b)
#define NAME(call) JOIN(PREFIX, call)

#ifndef TAG_BITS
#define TAG_BITS 64
#endif

#ifdef SODIUM
#include <sodium.h>
#else
#include "plain.h"
#endif

enum { CELL = 72, CONTENT = 64, SLOT = 73, PLACE = 80, LEVELS = 4, SLOTS = 10, QUEUE = 8 };
enum { DEPTH_AT = 5, ROOT_AT = 7, COUNT_AT = 15, NEW_ROOT_AT = 16, QUEUE_AT = 24 }; // control record
enum { TURN_AT = 664, TURN_PAGE_AT = 665, TURN_MASK_AT = 673 };                   // its section of a turn
enum { DIRTY_AT = 8, CONTENT_AT = 9 };                                            // slot of the cache
enum { MINOR_MAX = 127, STOP_LOSS = 4, DATA_MESSAGE = 88 };

typedef struct {
    uint32_t node[LEVELS]; // the first cell of each level
    uint32_t shadow, cells, slots;
} map;

static const map maps[LEVELS] = {
    [1] = { { 512, 520 }, 521, 527, 6 },
    [2] = { { 4096, 4160, 4168 }, 4169, 4177, 8 },
    [3] = { { 32768, 33280, 33344, 33352 }, 33353, 33363, 10 },
};

typedef struct {
    const uint8_t *keys;
    uint8_t *control, *array, *cache;
    const map *map;
    unsigned depth, family;
} module;

// Where the nodes of a page's path are: in the cache or, if loaded has the bit of the level, still in the array.
typedef struct {
    const uint8_t *content[LEVELS];
    uint8_t *slot[LEVELS];
    unsigned loaded;
} path;

// Numbers are little-endian, as this machine has them.
static uint64_t get64(const uint8_t *s)
{
    uint64_t x;
    memcpy(&x, s, 8);
    return x;
}

static void put64(uint8_t *s, uint64_t x)
{
    memcpy(s, &x, 8);
}

// The stores of a batch reach memory one after the other.
static void ordered(void)
{
    atomic_signal_fence(memory_order_seq_cst);
}

// ---- Primitives ----

// out = in XOR the pad of a line.
static void cipher(const module *m, uint64_t line, const uint8_t *block, uint32_t minor, const uint8_t *in, uint8_t *out)
{
    uint8_t nonce[12];
    memcpy(nonce, &minor, 4);
    memcpy(nonce + 4, block, 8);
#ifdef SODIUM
    crypto_stream_chacha20_ietf_xor_ic(out, in, CONTENT, nonce, (uint32_t)line, m->keys);
#else
    uint8_t pad[CONTENT];
    plain_chacha20_block(m->keys, (uint32_t)line, nonce, pad);
    for (int i = 0; i < CONTENT; i += 8)
        put64(out + i, get64(in + i) ^ get64(pad + i));
#endif
}

static uint64_t hash(const module *m, const uint8_t *message, size_t n)
{
    uint8_t out[8];
#ifdef SODIUM
    crypto_shorthash_siphash24(out, message, n, m->keys + 32);
#else
    plain_siphash24(m->keys + 32, message, n, out);
#endif
    return get64(out);
}

// The tag of the node whose content already stands in the message.
static uint64_t tag_in(const module *m, uint8_t message[80], unsigned level, uint64_t index)
{
    put64(message + 64, level);
    put64(message + 72, index);
    return hash(m, message, 80);
}

static uint64_t node_tag(const module *m, const uint8_t *content, unsigned level, uint64_t index)
{
    uint8_t message[80];
    memcpy(message, content, CONTENT);
    return tag_in(m, message, level, index);
}

static uint64_t kept_tag(uint64_t tag)
{
    return tag & UINT64_MAX >> (64 - TAG_BITS);
}

static void data_message(uint8_t message[DATA_MESSAGE], const uint8_t *content, uint64_t line, const uint8_t *block, uint32_t minor)
{
    memcpy(message, content, CONTENT);
    put64(message + 64, line);
    memcpy(message + 72, block, 8);
    put64(message + 80, minor);
}

// A written data cell's side bytes: phase, then seven bytes of tag; or without a phase byte the tag.
static uint64_t data_side(const module *m, const uint8_t *content, uint64_t line, const uint8_t *block, uint32_t minor)
{
    uint8_t message[DATA_MESSAGE];
    data_message(message, content, line, block, minor);
    uint64_t tag = hash(m, message, DATA_MESSAGE);
    return m->family == NV_FAMILY_TAG ? kept_tag(tag) : tag << 8 | minor % 4;
}

// Which of so many minors from the first on, as bits, a data cell without a phase byte has the tag of.
static unsigned tags_fit(const module *m, const uint8_t *cell, uint64_t line, const uint8_t *block, uint32_t first, unsigned count)
{
    uint64_t side = get64(cell + CONTENT);
    unsigned fit = 0;
#ifdef SODIUM
    uint8_t message[DATA_MESSAGE];
    data_message(message, cell, line, block, first);
    for (unsigned i = 0; i < count; i++) {
        put64(message + 80, first + i);
        fit |= (unsigned)(kept_tag(hash(m, message, DATA_MESSAGE)) == side) << i;
    }
#else
    plain_sip alike = plain_sip_start(m->keys + 32); // content, line and major are hashed once
    for (int i = 0; i < CONTENT; i += 8)
        plain_sip_word(&alike, get64(cell + i));
    plain_sip_word(&alike, line);
    plain_sip_word(&alike, get64(block));
    for (unsigned i = 0; i < count; i++) {
        plain_sip s = alike;
        plain_sip_word(&s, first + i);
        fit |= (unsigned)(kept_tag(plain_sip_end(s, 0, DATA_MESSAGE)) == side) << i;
    }
#endif
    return fit;
}

// ---- Counter blocks: the eight bytes that end with a group's seven hold each of its eight minors whole ----

static uint32_t minor_of(const uint8_t *block, unsigned line)
{
    return get64(block + 7 + 7 * (line / 8)) >> (8 + 7 * (line % 8)) & 127;
}

static void set_minor(uint8_t *block, unsigned line, uint64_t minor)
{
    uint8_t *group = block + 7 + 7 * (line / 8);
    unsigned shift = 8 + 7 * (line % 8);
    put64(group, (get64(group) & ~((uint64_t)127 << shift)) | minor << shift);
}

// The block of a turned page: the next major, and minor 1 of each written line; the mask of these lines.
static uint64_t turn_block(const uint8_t *block, uint8_t *turned)
{
    uint64_t mask = 0;
    put64(turned, get64(block) + 1);
    for (unsigned group = 0; group < 8; group++) {
        uint64_t minors = get64(block + 7 + 7 * group) >> 8, ones = 0;
        for (unsigned i = 0; i < 8; i++) {
            uint64_t written = (minors >> 7 * i & 127) != 0;
            ones |= written << 7 * i;
            mask |= written << (8 * group + i);
        }
        memcpy(turned + 8 + 7 * group, &ones, 7);
    }
    return mask;
}

// ---- Map, slots and validity ----

static uint64_t page_of(uint64_t line)
{
    return line >> 6;
}

static unsigned place_of(uint64_t line)
{
    return line & 63;
}

static unsigned level_of(unsigned slot)
{
    return slot < 4 ? 0 : (slot >> 1) - 1;
}

static unsigned slot_of(unsigned level, uint64_t index)
{
    return level == 0 ? index & 3 : 2 + 2 * level + (index & 1);
}

static uint8_t *node_cell(const module *m, unsigned level, uint64_t index)
{
    return m->array + CELL * (m->map->node[level] + index);
}

static int owner_fits(const module *m, unsigned slot, uint64_t owner)
{
    unsigned level = level_of(slot);
    return owner == 0 || (owner - 1 < (uint64_t)1 << 3 * (m->depth - level) && slot_of(level, owner - 1) == slot);
}

static int cache_formed(const module *m, const uint8_t *cache)
{
    uint64_t any = 0;
    for (unsigned i = 0; i < m->map->slots; i++) {
        uint64_t owner = get64(cache + SLOT * i);
        if (cache[SLOT * i + DIRTY_AT] > (owner != 0) || !owner_fits(m, i, owner))
            return 0;
        any |= owner;
    }
    return any == 0 || get64(cache + SLOT * slot_of(m->depth, 0)) != 0;
}

static int is_open(const uint8_t *control, uint64_t page)
{
    return control[TURN_AT] != 0 && get64(control + TURN_PAGE_AT) == page;
}

static int turn_valid(const uint8_t *control)
{
    if (control[TURN_AT] == 0)
        return 1;
    return control[TURN_AT] == 1 && get64(control + TURN_PAGE_AT) < (uint64_t)1 << 3 * control[DEPTH_AT]
        && get64(control + TURN_MASK_AT) != 0;
}

static const char marks[2][5] = { [NV_FAMILY_PHASE] = "PIGK", [NV_FAMILY_TAG] = "PIGN" };

static int has_mark(const uint8_t *control, unsigned family)
{
    return memcmp(control, marks[family], 4) == 0;
}

static int control_valid(const uint8_t *control)
{
    if (!has_mark(control, NV_FAMILY_PHASE) && !has_mark(control, NV_FAMILY_TAG))
        return 0;
    if (control[4] != 1 || control[6] != 1)
        return 0;
    if (control[DEPTH_AT] < 1 || control[DEPTH_AT] > 3 || control[COUNT_AT] > QUEUE)
        return 0;
    for (unsigned j = 0; j < control[COUNT_AT]; j++)
        if (get64(control + QUEUE_AT + PLACE * j) >= maps[control[DEPTH_AT]].cells)
            return 0;
    return turn_valid(control);
}

// ---- Answers ----

static uint32_t answer(uint8_t *numbers, uint32_t code, uint64_t stores, uint64_t first, uint64_t second)
{
    put64(numbers + NV_STORES_AT, stores);
    put64(numbers + NV_FIRST_AT, first);
    put64(numbers + NV_SECOND_AT, second);
    return code;
}

static uint32_t refuse(uint8_t *numbers, uint32_t refusal)
{
    return answer(numbers, NV_REFUSED + refusal, 0, 0, 0);
}

// The checks with which read, write and recovery start: a refusal or 0.
static uint32_t open_module(module *m, uint64_t keys_len, uint64_t control_len, uint64_t array_len, uint64_t cache_len)
{
    if (keys_len != NV_KEYS_LENGTH)
        return NV_BAD_KEYS_LENGTH;
    if (control_len != NV_CONTROL_LENGTH)
        return NV_BAD_CONTROL_LENGTH;
    if (!control_valid(m->control))
        return NV_BAD_CONTROL;
    m->depth = m->control[DEPTH_AT];
    m->family = has_mark(m->control, NV_FAMILY_TAG);
    m->map = &maps[m->depth];
    if (array_len != CELL * (size_t)m->map->cells)
        return NV_BAD_ARRAY_LENGTH;
    return cache_len != SLOT * (size_t)m->map->slots ? NV_BAD_CACHE_LENGTH : 0;
}

static uint32_t at_rest(const module *m)
{
    if (m->control[COUNT_AT] != 0)
        return NV_PENDING;
    return cache_formed(m, m->cache) ? 0 : NV_BAD_CACHE;
}

// The further checks of read and write before the path.
static uint32_t open_line(const module *m, uint64_t line, uint64_t buffer_len)
{
    if (buffer_len != NV_TEXT_LENGTH)
        return NV_BAD_BUFFER_LENGTH;
    if (line >= m->map->node[0])
        return NV_BAD_LINE;
    uint32_t refusal = at_rest(m);
    return refusal == 0 && is_open(m->control, page_of(line)) ? NV_OPEN_PAGE : refusal;
}

// The further checks of a turn before the path.
static uint32_t open_turn(const module *m, uint64_t page)
{
    if (page >= page_of(m->map->node[0]))
        return NV_BAD_LINE;
    uint32_t refusal = at_rest(m);
    return refusal == 0 && m->control[TURN_AT] != 0 && !is_open(m->control, page) ? NV_OPEN_PAGE : refusal;
}

// ---- Path ----

// Finds the path of a page, top first; the level of a missing node with a wrong tag, or -1.
static int find_path(const module *m, uint64_t page, path *p)
{
    const uint8_t *tag = m->control + ROOT_AT;
    p->loaded = 0;
    for (int l = (int)m->depth; l >= 0; l--) {
        uint64_t index = page >> 3 * l;
        uint8_t *slot = m->cache + SLOT * slot_of((unsigned)l, index);
        p->slot[l] = slot;
        if (get64(slot) == index + 1) {
            p->content[l] = slot + CONTENT_AT;
        } else {
            p->content[l] = node_cell(m, (unsigned)l, index);
            if (node_tag(m, p->content[l], (unsigned)l, index) != get64(tag))
                return l;
            p->loaded |= 1u << l;
        }
        if (l > 0)
            tag = p->content[l] + 8 * (page >> 3 * (l - 1) & 7);
    }
    return -1;
}

static uint8_t *queue_place(const module *m, unsigned j)
{
    return m->control + QUEUE_AT + PLACE * j;
}

// Stages the cells that loading takes, as far as the allowance lets; how many they are.
static unsigned stage_path(const module *m, uint64_t page, const path *p, uint64_t allowance)
{
    unsigned j = 0;
    for (int l = (int)m->depth; l >= 0; l--) {
        if (!(p->loaded >> l & 1))
            continue;
        uint64_t index = page >> 3 * l;
        uint8_t *at = queue_place(m, j);
        if (p->slot[l][DIRTY_AT]) {
            if (j < allowance) {
                put64(at, m->map->node[l] + get64(p->slot[l]) - 1);
                memcpy(at + 8, p->slot[l] + CONTENT_AT, CONTENT);
                memset(at + 8 + CONTENT, 0, 8);
                ordered();
            }
            at = queue_place(m, ++j);
        }
        if (j < allowance) {
            put64(at, m->map->shadow + slot_of((unsigned)l, index));
            put64(at + 8, index + 1);
            memset(at + 16, 0, CELL - 8);
            ordered();
        }
        j++;
    }
    return j;
}

// Loaded nodes become clean slots.
static void load_slots(uint64_t page, const path *p, unsigned depth)
{
    for (unsigned l = 0; l <= depth; l++)
        if (p->loaded >> l & 1) {
            put64(p->slot[l], (page >> 3 * l) + 1);
            p->slot[l][DIRTY_AT] = 0;
            memcpy(p->slot[l] + CONTENT_AT, p->content[l], CONTENT);
        }
}

// ---- Stores ----

// The last m + 2 stores of a batch, from its queue, as far as the allowance lets; how many were made.
static uint64_t finish(const module *m, unsigned count, uint64_t allowance)
{
    for (unsigned j = 0; j < count; j++) {
        if (allowance == j)
            return j;
        memcpy(m->array + CELL * get64(queue_place(m, j)), queue_place(m, j) + 8, CELL);
        ordered();
    }
    if (allowance == count)
        return count;
    memcpy(m->control + ROOT_AT, m->control + NEW_ROOT_AT, 8);
    ordered();
    if (allowance == count + 1)
        return count + 1;
    m->control[COUNT_AT] = 0;
    ordered();
    return count + 2;
}

// The stores of a batch that is staged as far as the allowance lets.
static uint64_t run_batch(const module *m, unsigned count, uint64_t root, uint64_t allowance)
{
    if (count == 0 || allowance <= count)
        return count == 0 ? 0 : allowance;
    put64(m->control + NEW_ROOT_AT, root);
    ordered();
    m->control[COUNT_AT] = (uint8_t)count;
    ordered();
    return count + 1 + finish(m, count, allowance - count - 1);
}

// The same for a batch of a turn: the commit also sets the section for the lines that are left, to zeros if none is.
static uint64_t run_turn_batch(const module *m, unsigned count, uint64_t root, uint64_t page, uint64_t left, uint64_t allowance)
{
    if (allowance > count) {
        put64(m->control + TURN_PAGE_AT, left != 0 ? page : 0);
        put64(m->control + TURN_MASK_AT, left);
        m->control[TURN_AT] = left != 0;
    }
    return run_batch(m, count, root, allowance);
}

static uint64_t stores_needed(unsigned count)
{
    return count == 0 ? 0 : 2 * (uint64_t)count + 3;
}

// ---- The calls ----

uint32_t NAME(format)(uint64_t depth, uint64_t family, const uint8_t *keys, uint64_t keys_len, uint8_t *control,
                      uint64_t control_len, uint8_t *array, uint64_t array_len, uint8_t *cache, uint64_t cache_len,
                      uint8_t *numbers, uint64_t numbers_len)
{
    if (numbers_len != NV_NUMBERS_LENGTH)
        return NV_REFUSED + NV_BAD_BUFFER_LENGTH;
    if (depth < 1 || depth > 3 || family > NV_FAMILY_TAG)
        return refuse(numbers, NV_BAD_DEPTH);
    if (keys_len != NV_KEYS_LENGTH)
        return refuse(numbers, NV_BAD_KEYS_LENGTH);
    if (control_len != NV_CONTROL_LENGTH)
        return refuse(numbers, NV_BAD_CONTROL_LENGTH);
    module m = { keys, control, array, cache, &maps[depth], (unsigned)depth, (unsigned)family };
    if (array_len != CELL * (size_t)m.map->cells)
        return refuse(numbers, NV_BAD_ARRAY_LENGTH);
    if (cache_len != SLOT * (size_t)m.map->slots)
        return refuse(numbers, NV_BAD_CACHE_LENGTH);
    memset(array, 0, array_len);
    memset(cache, 0, cache_len);
    memset(control, 0, control_len);
    for (unsigned l = 0; l < depth; l++)
        for (uint64_t i = 0; i < (uint64_t)1 << 3 * (depth - l); i++)
            put64(node_cell(&m, l + 1, i >> 3) + 8 * (i & 7), node_tag(&m, node_cell(&m, l, i), l, i));
    memcpy(control, marks[family], 4);
    control[DEPTH_AT - 1] = 1;
    control[DEPTH_AT] = (uint8_t)depth;
    control[DEPTH_AT + 1] = 1;
    put64(control + ROOT_AT, node_tag(&m, node_cell(&m, m.depth, 0), m.depth, 0));
    return answer(numbers, NV_DONE, 0, 0, 0);
}

uint32_t NAME(read)(const uint8_t *keys, uint64_t keys_len, uint8_t *control, uint64_t control_len, uint8_t *array,
                    uint64_t array_len, uint8_t *cache, uint64_t cache_len, uint64_t line, uint8_t *out, uint64_t out_len,
                    uint64_t allowance, uint8_t *numbers, uint64_t numbers_len)
{
    if (numbers_len != NV_NUMBERS_LENGTH)
        return NV_REFUSED + NV_BAD_BUFFER_LENGTH;
    module m = { keys, control, array, cache, 0, 0, 0 };
    uint32_t refusal = open_module(&m, keys_len, control_len, array_len, cache_len);
    if (!refusal)
        refusal = open_line(&m, line, out_len);
    if (refusal)
        return refuse(numbers, refusal);
    path p;
    uint64_t page = page_of(line);
    int bad = find_path(&m, page, &p);
    if (bad >= 0)
        return answer(numbers, NV_REFUSED + NV_BAD_NODE, 0, (uint64_t)bad, page >> 3 * bad);
    uint32_t minor = minor_of(p.content[0], place_of(line));
    const uint8_t *cell = array + CELL * line;
    if (minor && data_side(&m, cell, line, p.content[0], minor) != get64(cell + CONTENT))
        return answer(numbers, NV_REFUSED + NV_BAD_DATA, 0, line, 0);
    unsigned count = stage_path(&m, page, &p, allowance);
    uint64_t stores = run_batch(&m, count, get64(control + ROOT_AT), allowance);
    if (stores < stores_needed(count))
        return answer(numbers, NV_CUT, stores, 0, 0);
    load_slots(page, &p, m.depth);
    if (minor)
        cipher(&m, line, p.content[0], minor, cell, out);
    else
        memset(out, NV_BLANK_BYTE, CONTENT);
    return answer(numbers, minor ? NV_DONE : NV_BLANK, stores, 0, 0);
}

// The tags of the page's path over a renewed counter block, level by level; the last is the new root.
static void renew(const module *m, uint64_t page, const path *p, uint8_t block[80], uint64_t tags[LEVELS])
{
    uint8_t message[80];
    tags[0] = tag_in(m, block, 0, page);
    for (unsigned l = 1; l <= m->depth; l++) {
        memcpy(message, p->content[l], CONTENT);
        put64(message + 8 * (page >> 3 * (l - 1) & 7), tags[l - 1]);
        tags[l] = tag_in(m, message, l, page >> 3 * l);
    }
}

// The slots of the path with the renewed counter block and its tags; the nodes are dirty.
static void renew_slots(uint64_t page, const path *p, unsigned depth, const uint8_t *block, int dirty, const uint64_t *tags)
{
    memcpy(p->slot[0] + CONTENT_AT, block, CONTENT);
    p->slot[0][DIRTY_AT] = (uint8_t)dirty;
    for (unsigned l = 1; l <= depth; l++) {
        put64(p->slot[l] + CONTENT_AT + 8 * (page >> 3 * (l - 1) & 7), tags[l - 1]);
        p->slot[l][DIRTY_AT] = 1;
    }
}

static unsigned stage_block(const module *m, uint64_t page, const uint8_t *block, unsigned j, uint64_t allowance)
{
    uint8_t *at = queue_place(m, j);
    if (j < allowance) {
        put64(at, m->map->node[0] + page);
        memcpy(at + 8, block, CONTENT);
        memset(at + 8 + CONTENT, 0, 8);
        ordered();
    }
    return j + 1;
}

static unsigned stage_data(const module *m, uint64_t line, const uint8_t *block, uint32_t minor, const uint8_t *text,
                           unsigned j, uint64_t allowance)
{
    uint8_t *at = queue_place(m, j);
    if (j < allowance) {
        put64(at, line);
        cipher(m, line, block, minor, text, at + 8);
        put64(at + 8 + CONTENT, data_side(m, at + 8, line, block, minor));
        ordered();
    }
    return j + 1;
}

uint32_t NAME(write)(const uint8_t *keys, uint64_t keys_len, uint8_t *control, uint64_t control_len, uint8_t *array,
                     uint64_t array_len, uint8_t *cache, uint64_t cache_len, uint64_t line, const uint8_t *text,
                     uint64_t text_len, uint64_t allowance, uint8_t *numbers, uint64_t numbers_len)
{
    if (numbers_len != NV_NUMBERS_LENGTH)
        return NV_REFUSED + NV_BAD_BUFFER_LENGTH;
    module m = { keys, control, array, cache, 0, 0, 0 };
    uint32_t refusal = open_module(&m, keys_len, control_len, array_len, cache_len);
    if (!refusal)
        refusal = open_line(&m, line, text_len);
    if (refusal)
        return refuse(numbers, refusal);
    path p;
    uint64_t page = page_of(line), tags[LEVELS];
    int bad = find_path(&m, page, &p);
    if (bad >= 0)
        return answer(numbers, NV_REFUSED + NV_BAD_NODE, 0, (uint64_t)bad, page >> 3 * bad);
    uint32_t minor = minor_of(p.content[0], place_of(line)) + 1;
    if (minor > MINOR_MAX)
        return refuse(numbers, NV_WORN);
    uint8_t block[80]; // the renewed counter block, with room for its tag's level and index
    memcpy(block, p.content[0], CONTENT);
    set_minor(block, place_of(line), minor);
    renew(&m, page, &p, block, tags);
    unsigned count = stage_path(&m, page, &p, allowance);
    if (minor % STOP_LOSS == 0)
        count = stage_block(&m, page, block, count, allowance);
    count = stage_data(&m, line, block, minor, text, count, allowance);
    uint64_t stores = run_batch(&m, count, tags[m.depth], allowance);
    if (stores < stores_needed(count))
        return answer(numbers, NV_CUT, stores, 0, 0);
    load_slots(page, &p, m.depth);
    renew_slots(page, &p, m.depth, block, minor % STOP_LOSS != 0, tags);
    return answer(numbers, NV_DONE, stores, 0, 0);
}

// ---- Turn ----

// The first of the lines of a mask whose data cell is not what its minor says, or UINT64_MAX.
static uint64_t bad_line(const module *m, uint64_t page, const uint8_t *block, uint64_t mask)
{
    for (; mask; mask &= mask - 1) {
        unsigned place = (unsigned)__builtin_ctzll(mask);
        uint64_t line = 64 * page + place;
        const uint8_t *cell = m->array + CELL * line;
        uint32_t minor = minor_of(block, place);
        if (minor == 0 || data_side(m, cell, line, block, minor) != get64(cell + CONTENT))
            return line;
    }
    return UINT64_MAX;
}

// A line encrypted afresh under the turned block.
static unsigned stage_turned(const module *m, uint64_t line, const uint8_t *block, const uint8_t *turned, unsigned j,
                             uint64_t allowance)
{
    uint8_t text[CONTENT];
    cipher(m, line, block, minor_of(block, place_of(line)), m->array + CELL * line, text);
    return stage_data(m, line, turned, 1, text, j, allowance);
}

// The batches of a turn, as far as the allowance lets: one for each line of the mask, or one without a line.
// Whether all stores were made.
static int turn_lines(const module *m, uint64_t page, const path *p, const uint8_t *turned, uint64_t mask, uint64_t new_root,
                      uint64_t allowance, uint64_t *stores)
{
    const uint8_t *block = p->content[0];
    unsigned count = stage_path(m, page, p, allowance);
    if (m->control[TURN_AT] == 0 && (mask & (mask - 1)) != 0)
        count = stage_block(m, page, block, count, allowance);
    for (;; count = 0) {
        uint64_t left = mask & (mask - 1), room = allowance - *stores;
        if (left == 0)
            count = stage_block(m, page, turned, count, room);
        if (mask != 0)
            count = stage_turned(m, 64 * page + (unsigned)__builtin_ctzll(mask), block, turned, count, room);
        *stores += run_turn_batch(m, count, left != 0 ? get64(m->control + ROOT_AT) : new_root, page, left, room);
        if (room < stores_needed(count) || left == 0)
            return room >= stores_needed(count);
        mask = left;
    }
}

uint32_t NAME(turn)(const uint8_t *keys, uint64_t keys_len, uint8_t *control, uint64_t control_len, uint8_t *array,
                    uint64_t array_len, uint8_t *cache, uint64_t cache_len, uint64_t page, uint64_t allowance, uint8_t *numbers,
                    uint64_t numbers_len)
{
    if (numbers_len != NV_NUMBERS_LENGTH)
        return NV_REFUSED + NV_BAD_BUFFER_LENGTH;
    module m = { keys, control, array, cache, 0, 0, 0 };
    uint32_t refusal = open_module(&m, keys_len, control_len, array_len, cache_len);
    if (!refusal)
        refusal = open_turn(&m, page);
    if (refusal)
        return refuse(numbers, refusal);
    path p;
    uint64_t tags[LEVELS], stores = 0;
    int bad = find_path(&m, page, &p);
    if (bad >= 0)
        return answer(numbers, NV_REFUSED + NV_BAD_NODE, 0, (uint64_t)bad, page >> 3 * bad);
    if (get64(p.content[0]) == UINT64_MAX)
        return refuse(numbers, NV_WORN_PAGE);
    uint8_t turned[80]; // the turned counter block, with room for its tag's level and index
    uint64_t mask = turn_block(p.content[0], turned);
    if (control[TURN_AT] != 0)
        mask = get64(control + TURN_MASK_AT);
    uint64_t line = bad_line(&m, page, p.content[0], mask);
    if (line != UINT64_MAX)
        return answer(numbers, NV_REFUSED + NV_BAD_DATA, 0, line, 0);
    renew(&m, page, &p, turned, tags);
    if (!turn_lines(&m, page, &p, turned, mask, tags[m.depth], allowance, &stores))
        return answer(numbers, NV_CUT, stores, 0, 0);
    load_slots(page, &p, m.depth);
    renew_slots(page, &p, m.depth, turned, 0, tags);
    return answer(numbers, NV_DONE, stores, 0, 0);
}

// ---- Recovery ----

// Eight minors are brought forward at once, in lanes of 7 bits.
#define LANES(x) ((uint64_t)(x) * 0x2040810204081)

static uint64_t lanes_sum(uint64_t lanes)
{
    return lanes * LANES(1) >> 49 & 127;
}

// The first line of a group that fails, and how.
static uint32_t bad_minor(const module *m, uint64_t first, uint64_t minors, uint64_t *line)
{
    for (*line = first;; ++*line, minors >>= 7) {
        uint64_t phase = m->array[CELL * *line + CONTENT], minor = minors & 127;
        if (phase > 3)
            return NV_BAD_PHASE;
        if (minor + ((phase - minor) & 3) > MINOR_MAX)
            return NV_BAD_COUNTER;
    }
}

// Eight minors brought forward by the phases of their lines, from the first on; a refusal with its line, or 0.
static uint32_t forward_by_phases(const module *m, uint64_t first, uint64_t *minors, uint64_t *sum, uint64_t *line)
{
    const uint8_t *at = m->array + CELL * first + CONTENT;
    uint64_t phases = 0, any = 0;
    for (unsigned i = 0; i < 8; i++) {
        any |= at[CELL * i];
        phases |= (uint64_t)at[CELL * i] << 7 * i;
    }
    uint64_t ahead = ((phases | LANES(4)) - (*minors & LANES(3))) & LANES(3), raised = (*minors & LANES(63)) + ahead;
    if (any > 3 || (raised & *minors & LANES(64)) != 0)
        return bad_minor(m, first, *minors, line);
    *sum += lanes_sum(ahead);
    *minors = raised | (*minors & LANES(64));
    return 0;
}

static int is_zero(const uint8_t *cell)
{
    uint64_t any = 0;
    for (int i = 0; i < CELL; i += 8)
        any |= get64(cell + i);
    return any == 0;
}

// The same by their tags: each is the one that fits of the stored minor and the next three, none past 127, where 0 is that of a
// zero cell.
static uint32_t forward_by_tags(const module *m, const uint8_t *block, uint64_t first, uint64_t *minors, uint64_t *sum, uint64_t *line)
{
    uint64_t ahead = 0;
    for (unsigned i = 0; i < 8; i++) {
        const uint8_t *cell = m->array + CELL * (first + i);
        uint32_t minor = *minors >> 7 * i & 127, tagged = minor + (minor == 0);
        uint32_t last = minor + 3 > MINOR_MAX ? MINOR_MAX : minor + 3;
        unsigned fit = tags_fit(m, cell, first + i, block, tagged, last - tagged + 1) << (tagged - minor);
        if (minor == 0)
            fit |= (unsigned)is_zero(cell);
        if (fit == 0 || (fit & (fit - 1)) != 0) {
            *line = first + i;
            return fit == 0 ? NV_NO_COUNTER : NV_SEVERAL_COUNTERS;
        }
        ahead |= (uint64_t)__builtin_ctz(fit) << 7 * i;
    }
    *sum += lanes_sum(ahead);
    *minors += ahead;
    return 0;
}

// A page's counter block with its minors brought forward by its data cells; a refusal with its line, or 0.
static uint32_t rebuild_block(const module *m, uint64_t page, uint8_t *block, uint64_t *sum, uint64_t *line)
{
    memcpy(block, node_cell(m, 0, page), CONTENT);
    for (unsigned group = 0; group < 8; group++) {
        uint8_t *at = block + 7 + 7 * group;
        uint64_t first = 64 * page + 8 * group, word = get64(at), minors = word >> 8;
        uint32_t refusal = m->family == NV_FAMILY_TAG ? forward_by_tags(m, block, first, &minors, sum, line)
                                                      : forward_by_phases(m, first, &minors, sum, line);
        if (refusal)
            return refusal;
        put64(at, minors << 8 | (word & 255));
    }
    return 0;
}

// A node's content: its slot's in the cache that is built, else the array's.
static const uint8_t *node_of(const module *m, const uint8_t *built, unsigned level, uint64_t index)
{
    const uint8_t *slot = built + SLOT * slot_of(level, index);
    return get64(slot) == index + 1 ? slot + CONTENT_AT : node_cell(m, level, index);
}

// Builds the cache that the shadow lists, an open page's block as the array has it; a refusal or 0.
static uint32_t rebuild(const module *m, uint8_t *built, uint64_t *sum, uint64_t *place)
{
    const uint8_t *shadow = m->array + CELL * m->map->shadow;
    uint64_t any = 0;
    for (unsigned i = 0; i < m->map->slots; i++) {
        uint64_t owner = get64(shadow + CELL * i);
        *place = i;
        if (!owner_fits(m, i, owner))
            return NV_BAD_SHADOW;
        any |= owner;
        put64(built + SLOT * i, owner);
        built[SLOT * i + DIRTY_AT] = owner != 0;
        if (owner == 0)
            memset(built + SLOT * i + CONTENT_AT, 0, CONTENT);
    }
    *place = slot_of(m->depth, 0);
    if (any && get64(built + SLOT * *place) == 0)
        return NV_BAD_SHADOW;
    *place = 0;
    for (unsigned i = 0; i < m->map->slots; i++) {
        uint64_t owner = get64(built + SLOT * i), index = owner - 1;
        uint8_t *content = built + SLOT * i + CONTENT_AT;
        unsigned level = level_of(i);
        if (owner == 0)
            continue;
        uint32_t refusal = 0;
        if (level == 0 && is_open(m->control, index))
            memcpy(content, node_cell(m, 0, index), CONTENT);
        else if (level == 0)
            refusal = rebuild_block(m, index, content, sum, place);
        if (refusal)
            return refusal;
        for (unsigned c = 0; level > 0 && c < 8; c++)
            put64(content + 8 * c, node_tag(m, node_of(m, built, level - 1, 8 * index + c), level - 1, 8 * index + c));
    }
    uint64_t root = node_tag(m, node_of(m, built, m->depth, 0), m->depth, 0);
    return root == get64(m->control + ROOT_AT) ? 0 : NV_BAD_ROOT;
}

uint32_t NAME(recover)(const uint8_t *keys, uint64_t keys_len, uint8_t *control, uint64_t control_len, uint8_t *array,
                       uint64_t array_len, uint8_t *cache, uint64_t cache_len, uint64_t allowance, uint8_t *numbers,
                       uint64_t numbers_len)
{
    if (numbers_len != NV_NUMBERS_LENGTH)
        return NV_REFUSED + NV_BAD_BUFFER_LENGTH;
    module m = { keys, control, array, cache, 0, 0, 0 };
    uint32_t refusal = open_module(&m, keys_len, control_len, array_len, cache_len);
    if (refusal)
        return refuse(numbers, refusal);
    uint64_t stores = 0, sum = 0, place;
    if (control[COUNT_AT] != 0) {
        unsigned count = control[COUNT_AT];
        stores = finish(&m, count, allowance);
        if (stores < count + 2)
            return answer(numbers, NV_CUT, stores, 0, 0);
    }
    uint8_t built[SLOT * SLOTS];
    refusal = rebuild(&m, built, &sum, &place);
    if (refusal)
        return answer(numbers, NV_REFUSED + refusal, stores, place, 0);
    memcpy(cache, built, cache_len);
    return answer(numbers, NV_DONE, stores, sum, 0);
}

// ---- List of dirty pages ----

static void exchange(uint64_t *a, uint64_t *b)
{
    uint64_t low = *a < *b ? *a : *b, high = *a < *b ? *b : *a;
    *a = low;
    *b = high;
}

uint32_t NAME(dirty_pages)(const uint8_t *control, uint64_t control_len, const uint8_t *cache, uint64_t cache_len,
                           uint8_t *list, uint64_t list_len, uint8_t *numbers, uint64_t numbers_len)
{
    if (numbers_len != NV_NUMBERS_LENGTH)
        return NV_REFUSED + NV_BAD_BUFFER_LENGTH;
    if (control_len != NV_CONTROL_LENGTH)
        return refuse(numbers, NV_BAD_CONTROL_LENGTH);
    if (!control_valid(control))
        return refuse(numbers, NV_BAD_CONTROL);
    module m = { 0, 0, 0, 0, &maps[control[DEPTH_AT]], control[DEPTH_AT], 0 };
    if (cache_len != SLOT * (size_t)m.map->slots)
        return refuse(numbers, NV_BAD_CACHE_LENGTH);
    if (list_len != NV_LIST_LENGTH)
        return refuse(numbers, NV_BAD_BUFFER_LENGTH);
    if (!cache_formed(&m, cache))
        return refuse(numbers, NV_BAD_CACHE);
    uint64_t page[4];
    for (unsigned i = 0; i < 4; i++)
        page[i] = cache[SLOT * i + DIRTY_AT] ? get64(cache + SLOT * i) - 1 : UINT64_MAX;
    exchange(&page[0], &page[1]);
    exchange(&page[2], &page[3]);
    exchange(&page[0], &page[2]);
    exchange(&page[1], &page[3]);
    exchange(&page[1], &page[2]);
    for (unsigned i = 0; i < 4; i++)
        put64(list + 8 * i, page[i]);
    return answer(numbers, NV_DONE, 0, 0, 0);
}
