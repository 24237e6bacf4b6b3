// Random calls on slices of exactly their length: on the heap under the address and undefined behaviour sanitizers, and
// against a page that nobody may touch, before or after, which also stops the library's own code, compiled without them.
// Each call is made by the library and by the plain C version (bench/memory.c, compiled with the sanitizers), and the
// two must agree in code and every byte. An argument is another seed.
#include "../bench/memory.h"
#include "module.h"
#include <sys/mman.h>
#include <unistd.h>

CALLS(plain_)

enum { KEYS, CONTROL, ARRAY, CACHE, BUFFER, NUMBERS, PARTS };
enum { HEAP, BEFORE_WALL, AFTER_WALL, PLACES };

typedef struct {
    uint8_t *at, *base;
    size_t n;
} slice;

typedef struct {
    int call, place;
    uint64_t depth, family, line, allowance;
    size_t n[PARTS];
} job;

static const calls both[2] = { CALLS_OF(nv_), CALLS_OF(plain_) };
static const int rounds[4] = { 0, 40000, 7000, 700 }; // of each family
static uint64_t state;
static long codes[140];
static size_t page;

static uint64_t draw(uint64_t below) // splitmix64
{
    uint64_t z = state += 0x9e3779b97f4a7c15u;
    z = (z ^ (z >> 30)) * 0xbf58476d1ce4e5b9u;
    z = (z ^ (z >> 27)) * 0x94d049bb133111ebu;
    return (z ^ (z >> 31)) % below;
}

// ---- Slices ----

static uint8_t *walls[2][PARTS]; // of each side and part, between two pages that nobody may touch
static size_t room;              // between the two

static void build_walls(size_t most)
{
    page = (size_t)sysconf(_SC_PAGESIZE);
    room = (most + page - 1) / page * page;
    for (int side = 0; side < 2; side++)
        for (int part = 0; part < PARTS; part++) {
            uint8_t *p = mmap(NULL, room + 2 * page, PROT_NONE, MAP_PRIVATE | MAP_ANONYMOUS, -1, 0);
            need(p != MAP_FAILED && mprotect(p + page, room, PROT_READ | PROT_WRITE) == 0);
            walls[side][part] = p + page;
        }
}

static slice lay(int side, int part, int place, const uint8_t *content, size_t known, size_t n)
{
    slice s = { NULL, NULL, n };
    if (place == HEAP)
        s.at = s.base = n == 0 && draw(2) ? NULL : malloc(n);
    else
        s.at = walls[side][part] + (place == BEFORE_WALL ? room - n : 0);
    for (size_t i = known; i < n; i++)
        s.at[i] = 0x77;
    if (n)
        memcpy(s.at, content, n < known ? n : known);
    return s;
}

static uint32_t make(const calls *by, const job *j, const slice *s)
{
#define SLICE(part) s[part].at, s[part].n
    switch (j->call) {
    case READ:
        return by->read(SLICE(KEYS), SLICE(CONTROL), SLICE(ARRAY), SLICE(CACHE), j->line, SLICE(BUFFER), j->allowance, SLICE(NUMBERS));
    case WRITE:
        return by->write(SLICE(KEYS), SLICE(CONTROL), SLICE(ARRAY), SLICE(CACHE), j->line, SLICE(BUFFER), j->allowance, SLICE(NUMBERS));
    case TURN:
        return by->turn(SLICE(KEYS), SLICE(CONTROL), SLICE(ARRAY), SLICE(CACHE), j->line / 64, j->allowance, SLICE(NUMBERS));
    case RECOVER:
        return by->recover(SLICE(KEYS), SLICE(CONTROL), SLICE(ARRAY), SLICE(CACHE), j->allowance, SLICE(NUMBERS));
    case LIST:
        return by->dirty_pages(SLICE(CONTROL), SLICE(CACHE), SLICE(BUFFER), SLICE(NUMBERS));
    default:
        return by->format(j->depth, j->family, SLICE(KEYS), SLICE(CONTROL), SLICE(ARRAY), SLICE(CACHE), SLICE(NUMBERS));
    }
}

// ---- Calls ----

static job draw_job(const module *m)
{
    static const size_t lists[] = { [READ] = NV_TEXT_LENGTH, [WRITE] = NV_TEXT_LENGTH, [TURN] = NV_TEXT_LENGTH,
                                    [RECOVER] = NV_TEXT_LENGTH, [LIST] = NV_LIST_LENGTH, [FORMATS] = NV_TEXT_LENGTH };
    static const int kinds[] = { READ, READ, READ, WRITE, WRITE, WRITE, WRITE, TURN, TURN, RECOVER, RECOVER, LIST };
    job j = { .call = kinds[draw(12)], .place = (int)draw(PLACES), .depth = draw(4) ? m->depth : draw(6),
              .family = draw(4) ? m->family : draw(4), .line = draw(m->lines) };
    if (draw(m->depth == 3 ? 300 : 100) == 0)
        j.call = FORMATS;
    if (draw(2))
        j.line = 64 * draw(12) + draw(2);
    if (draw(50) == 0)
        j.line = draw(2) ? m->lines : UINT64_MAX;
    if (j.call == TURN && m->control[NV_TURN_AT] && draw(4))
        j.line = 64 * m->control[NV_TURN_PAGE_AT];
    j.allowance = draw(2) ? UNLIMITED : draw(j.call == TURN ? 80 : 20);
    const size_t right[PARTS] = { sizeof keys, NV_CONTROL_LENGTH, m->array_len, m->cache_len, lists[j.call], NV_NUMBERS_LENGTH };
    memcpy(j.n, right, sizeof right);
    if (draw(8) == 0) {
        int part = (int)draw(PARTS);
        j.n[part] = draw(3) == 0 ? 0 : draw(2) ? j.n[part] - 1 : j.n[part] + 1;
    }
    return j;
}

static void damage(const module *m)
{
    uint8_t bit = (uint8_t)(1 << draw(8));
    uint64_t line = 64 * draw(8) + draw(64);
    switch (draw(10)) {
    case 0:
        m->control[draw(2) ? draw(24) : draw(NV_CONTROL_LENGTH)] ^= bit;
        break;
    case 1:
        m->cache[draw(m->cache_len)] ^= bit;
        break;
    case 2:
        for (size_t i = 0; i < m->cache_len; i++)
            m->cache[i] = (uint8_t)draw(256);
        break;
    case 3: // a phase, or a byte of a tag
        m->array[72 * line + 64] = (uint8_t)draw(6);
        break;
    case 4: // minors that cannot be raised
        memset(m->cache + 73 * draw(4) + 9 + 8, 0xff, 56);
        break;
    case 5: // an open page, with any mask
        memset(m->control + NV_TURN_AT, 0, 17);
        m->control[NV_TURN_AT] = draw(20) ? 1 : 2;
        m->control[NV_TURN_PAGE_AT] = (uint8_t)draw(12);
        m->control[NV_TURN_PAGE_AT + 8 + draw(8)] = bit;
        break;
    case 6: // stored minors of 127, which most phases bring past it and no tag fits, and a phase beside them
        memset(m->array + 72 * (m->lines + line / 64) + 8 + 7 * draw(8), 0xff, 7);
        m->array[72 * line + 64] = (uint8_t)draw(6);
        break;
    case 7: // a major that cannot be raised
        memset(m->cache + 73 * draw(4) + 9, 0xff, 8);
        break;
    case 8: // the mark of the other family
        m->control[3] ^= 'K' ^ 'N';
        break;
    default:
        m->array[draw(2) ? draw(m->array_len) : 72 * m->lines + draw(m->array_len - 72 * m->lines)] ^= bit;
    }
}

// One call by both; whether they agree. The module takes the outcome on if `keep`.
static int agree(const module *m, const job *j, int keep)
{
    uint8_t given[NV_TEXT_LENGTH];
    for (int i = 0; i < NV_TEXT_LENGTH; i++)
        given[i] = (uint8_t)draw(256);
    const uint8_t *content[PARTS] = { keys, m->control, m->array, m->cache, given, given };
    const size_t known[PARTS] = { sizeof keys, NV_CONTROL_LENGTH, m->array_len, m->cache_len, NV_TEXT_LENGTH, NV_NUMBERS_LENGTH };
    slice s[2][PARTS];
    uint32_t code[2];
    for (int side = 0; side < 2; side++) {
        for (int part = 0; part < PARTS; part++)
            s[side][part] = lay(side, part, j->place, content[part], known[part], j->n[part]);
        code[side] = make(&both[side], j, s[side]);
    }
    int same = code[0] == code[1];
    for (int part = 0; part < PARTS; part++)
        same = same && (j->n[part] == 0 || memcmp(s[0][part].at, s[1][part].at, j->n[part]) == 0);
    for (int part = CONTROL; part <= CACHE && keep; part++)
        if (j->n[part] == known[part])
            memcpy((uint8_t *)content[part], s[0][part].at, known[part]);
    for (int i = 0; i < 2 * PARTS; i++)
        free(s[i / PARTS][i % PARTS].base);
    codes[code[0] < 140 ? code[0] : 139]++;
    return same;
}

static int walk(unsigned depth, unsigned family)
{
    module m = make_module(&both[0], depth, family, malloc), hurt = make_module(&both[0], depth, family, malloc);
    int wrong = 0;
    need(call_format(&m) == NV_DONE);
    for (int i = 0; i < rounds[depth]; i++) {
        job j = draw_job(&m);
        int hurts = draw(3) == 0;
        if (hurts) {
            copy_module(&hurt, &m);
            damage(&hurt);
        }
        wrong += !agree(hurts ? &hurt : &m, &j, !hurts);
        if (m.control[15] != 0 && draw(2) && call_recover(&m, UNLIMITED) != NV_DONE)
            need(call_format(&m) == NV_DONE);
    }
    free_module(&m);
    free_module(&hurt);
    return wrong;
}

int main(int count, char **args)
{
    static const int wanted[] = { 0, 1, 2, 101, 102, 103, 104, 105, 106, 107, 121, 122, 123, 124, 125, 126, 127, 128, 129, 130,
                                  131, 132, 133 };
    int passed = 0, failed = 0;
    state = count > 1 ? strtoull(args[1], NULL, 0) : 20261115;
    build_walls(NV_ARRAY_LENGTH_3 + 1);
    for (unsigned k = 0; k < 3 * FAMILIES; k++) {
        unsigned depth = 1 + k % 3, family = k / 3;
        int wrong = walk(depth, family);
        printf("sanitized: depth %u, family %u: %d calls, %d in which the library and plain C differ\n", depth, family,
               rounds[depth], wrong);
        wrong ? failed++ : passed++;
    }
    for (size_t i = 0; i < sizeof wanted / sizeof *wanted; i++)
        codes[wanted[i]] ? passed++ : (failed++, printf("sanitized: code %d not reached\n", wanted[i]));
    printf("sanitized: %d passed, %d failed\n", passed, failed);
    return failed != 0;
}
