// How much stack each call uses: the call runs on a painted stack of its own, and what it changed is the high-water mark.
// Counted from the caller's frame, so the arguments and the return address are in it. The same at every depth, at most 1.5 KiB.
#include "module.h"
#include <ucontext.h>

enum { ROOM = 1 << 16, LEAST = 16, MOST = 1536 };

static const calls ours = CALLS_OF(nv_);
static _Alignas(64) uint8_t room[ROOM];
static ucontext_t here, there;
static module m;
static enum scenario now;
static uint8_t *frame;
static uint32_t code;

static void enter(void)
{
    frame = __builtin_frame_address(0);
    code = run_scenario(&m, now, UNLIMITED);
}

static size_t run_on(uint8_t paint)
{
    memset(room, paint, ROOM);
    getcontext(&there);
    there.uc_stack.ss_sp = room;
    there.uc_stack.ss_size = ROOM;
    there.uc_link = &here;
    makecontext(&there, enter, 0);
    swapcontext(&here, &there);
    uint8_t *low = room;
    while (*low == paint)
        low++;
    return (size_t)(frame - low);
}

// Two paints, so that a byte that the call leaves as it was painted does not hide. The first call binds symbols.
static size_t high_water(unsigned depth, unsigned family, enum scenario s)
{
    static const uint8_t paints[] = { 0xa5, 0xa5, 0x3c };
    size_t most = 0;
    m = make_module(&ours, depth, family, malloc);
    now = s;
    for (int i = 0; i < 3; i++) {
        prepare(&m, s);
        size_t used = run_on(paints[i]);
        need(code == scenario_code(s));
        if (i > 0 && used > most)
            most = used;
    }
    free_module(&m);
    return most;
}

int main(void)
{
    int passed = 0, failed = 0;
    size_t most[CALL_KINDS] = { 0 };
    for (int k = 0; k < SCENARIOS * FAMILIES; k++) {
        enum scenario s = k / FAMILIES;
        unsigned family = k % FAMILIES;
        size_t used[4], *of_call = &most[scenario_calls[s]];
        for (unsigned depth = 1; depth <= 3; depth++)
            used[depth] = high_water(depth, family, s);
        printf("stack: %-24s family %u: %5zu %5zu %5zu bytes at depths 1, 2, 3\n", scenario_names[s], family, used[1], used[2],
               used[3]);
        if (used[1] < LEAST || used[1] > MOST || used[2] != used[1] || used[3] != used[1])
            failed++;
        else
            passed++;
        if (used[1] > *of_call)
            *of_call = used[1];
    }
    for (int call = 0; call < CALL_KINDS; call++)
        printf("stack: %s: at most %zu bytes\n", call_names[call], most[call]);
    printf("stack: %d passed, %d failed\n", passed, failed);
    return failed != 0;
}
