// Times each call at each depth, in family 1 those that it changes: ours, plain C at -O3 (memory.c over plain.c), and plain C over
// libsodium's primitives.
// The three take turns on the same state, a row's turns are spread over the whole run, and the median turn counts: what
// else the machine does for a while touches a few turns of every row and not all turns of a few. A call that changes the
// module is followed by putting back what it changed; the time of that, measured in the same turns, is taken off.
#include "../tests/module.h"
#include "memory.h"
#include <sodium.h>
#include <time.h>

CALLS(plain_)
CALLS(sodium_)

enum { OURS, PLAIN, SODIUM, WHO, BACK = WHO, TIMED, DEPTHS = 3, TURNS = 101, CELL = 72, CHANGED = 80 };

// The rows of a depth: each scenario of the benchmark, then in family 1 these.
static const enum scenario by_tag[] = { CACHED_READ, CACHED_WRITE, IDLE_RECOVERY, SMALL_RECOVERY };
enum { BY_TAG = sizeof by_tag / sizeof *by_tag, ROWS = BENCH_ROWS + BY_TAG };

static const calls all[WHO] = { CALLS_OF(nv_), CALLS_OF(plain_), CALLS_OF(sodium_) };
static const double turn_ns = 400e3;

static double now(void)
{
    struct timespec t;
    clock_gettime(CLOCK_MONOTONIC, &t);
    return (double)t.tv_sec * 1e9 + (double)t.tv_nsec;
}

// What a call changes of a state, and how it was.
typedef struct {
    module before;
    size_t cell[CHANGED];
    int cells, any;
} undo;

static void find_changes(undo *u, const module *m)
{
    u->cells = 0;
    u->any = memcmp(m->control, u->before.control, NV_CONTROL_LENGTH) || memcmp(m->cache, u->before.cache, m->cache_len);
    for (size_t at = 0; at < m->array_len; at += CELL)
        if (memcmp(m->array + at, u->before.array + at, CELL)) {
            need(u->cells < CHANGED);
            u->cell[u->cells++] = at;
            u->any = 1;
        }
}

static void put_back(const undo *u, const module *m)
{
    memcpy(m->control, u->before.control, NV_CONTROL_LENGTH);
    memcpy(m->cache, u->before.cache, m->cache_len);
    for (int i = 0; i < u->cells; i++)
        memcpy(m->array + u->cell[i], u->before.array + u->cell[i], CELL);
}

static double turn(const undo *u, module *m, enum scenario s, int who, long times)
{
    double began = now();
    for (long i = 0; i < times; i++) {
        if (who != BACK)
            run_scenario(m, s, UNLIMITED);
        if (u->any)
            put_back(u, m);
    }
    return (now() - began) / (double)times;
}

static int by_size(const void *a, const void *b)
{
    double x = *(const double *)a, y = *(const double *)b;
    return (x > y) - (x < y);
}

static double median(double *times)
{
    qsort(times, TURNS, sizeof *times, by_size);
    return times[TURNS / 2];
}

// Whether the three leave the same.
static int agree(module *m, undo *u, enum scenario s)
{
    module first = make_module(&all[OURS], m->depth, m->family, malloc);
    int same = 1;
    for (int who = 0; who < WHO; who++) {
        copy_module(m, &u->before);
        m->by = &all[who];
        need(run_scenario(m, s, UNLIMITED) == scenario_code(s));
        if (who == OURS)
            copy_module(&first, m);
        same = same && memcmp(first.array, m->array, m->array_len) == 0 && memcmp(first.cache, m->cache, m->cache_len) == 0
            && memcmp(first.control, m->control, NV_CONTROL_LENGTH) == 0;
    }
    find_changes(u, m);
    if (s == FORMAT)
        u->any = 0;
    free_module(&first);
    return same;
}

// A scenario at a depth: its state, how many calls make a turn, and the turns' times.
typedef struct {
    module m;
    undo u;
    enum scenario s;
    long calls;
    double times[TIMED][TURNS];
} row;

static int make_row(row *r, unsigned depth, unsigned family, enum scenario s)
{
    r->m = make_module(&all[PLAIN], depth, family, malloc);
    r->u.before = make_module(&all[PLAIN], depth, family, malloc);
    r->s = s;
    prepare(&r->m, s);
    copy_module(&r->u.before, &r->m);
    int same = agree(&r->m, &r->u, s);
    copy_module(&r->m, &r->u.before);
    r->m.by = &all[PLAIN];
    r->calls = (long)(turn_ns / turn(&r->u, &r->m, s, PLAIN, 20)) + 1;
    return same;
}

static void take_turns(row *r, int i)
{
    for (int who = 0; who < TIMED; who++) {
        r->m.by = &all[who % WHO];
        turn(&r->u, &r->m, r->s, who, r->calls / 8 + 1); // not timed: its memory and code come back to the processor's caches
        r->times[who][i] = turn(&r->u, &r->m, r->s, who, r->calls);
    }
}

static void print_row(row *r, int same)
{
    double ns[TIMED];
    for (int who = 0; who < TIMED; who++)
        ns[who] = median(r->times[who]);
    for (int who = 0; who < WHO && r->u.any; who++)
        ns[who] -= ns[BACK];
    double fastest = ns[PLAIN] < ns[SODIUM] ? ns[PLAIN] : ns[SODIUM];
    printf("%u  %-24s%-10s %10.0f %10.0f %10.0f %10.2f%s\n", r->m.depth, scenario_names[r->s], r->m.family ? "family 1" : "",
           ns[OURS], ns[PLAIN], ns[SODIUM], ns[OURS] / fastest, same ? "" : "  the three do not agree");
}

int main(void)
{
    static row rows[DEPTHS * ROWS];
    int same[DEPTHS * ROWS], wrong = 0;
    if (sodium_init() < 0)
        return 1;
    for (int k = 0; k < DEPTHS * ROWS; k++) {
        int n = k % ROWS, family = n >= BENCH_ROWS;
        same[k] = make_row(&rows[k], 1 + k / ROWS, family, family ? by_tag[n - BENCH_ROWS] : (enum scenario)n);
    }
    for (int i = 0; i < TURNS; i++)
        for (int k = 0; k < DEPTHS * ROWS; k++)
            take_turns(&rows[k], i);
    printf("%-37s %10s %10s %10s %10s\n", "depth, ns for one call", "ours", "plain C", "libsodium", "ours/fastest");
    for (int k = 0; k < DEPTHS * ROWS; k++) {
        print_row(&rows[k], same[k]);
        wrong |= !same[k];
    }
    return wrong;
}
