// Where memcpy and memset store to, the two functions that the library takes from the firmware: this test is linked with
// --wrap for both. In reads, writes, turns and recoveries nothing in array or control record, which are stored to by the
// library's own instructions alone, in their sequence (tests/instructions.c); format, which nothing is promised of if power
// fails in it, uses them there too.
#include "module.h"

void *__real_memcpy(void *to, const void *from, size_t n);
void *__real_memset(void *to, int byte, size_t n);
void *__wrap_memcpy(void *to, const void *from, size_t n);
void *__wrap_memset(void *to, int byte, size_t n);

static const calls ours = CALLS_OF(nv_);
static module m;
static int running;
static struct {
    long made, to_memory, to_cache;
} now, all[CALL_KINDS];

static int within(const uint8_t *to, size_t n, const uint8_t *part, size_t length)
{
    return to < part + length && part < to + n;
}

static void note(const void *to, size_t n)
{
    if (!running)
        return;
    now.made++;
    now.to_memory += within(to, n, m.control, NV_CONTROL_LENGTH) || within(to, n, m.array, m.array_len);
    now.to_cache += within(to, n, m.cache, m.cache_len);
}

void *__wrap_memcpy(void *to, const void *from, size_t n)
{
    note(to, n);
    return __real_memcpy(to, from, n);
}

void *__wrap_memset(void *to, int byte, size_t n)
{
    note(to, n);
    return __real_memset(to, byte, n);
}

static uint32_t watch(enum scenario s, uint64_t allowance)
{
    prepare(&m, s);
    __real_memset(&now, 0, sizeof now);
    running = 1;
    uint32_t code = run_scenario(&m, s, allowance);
    running = 0;
    all[scenario_calls[s]].made += now.made;
    all[scenario_calls[s]].to_memory += now.to_memory;
    all[scenario_calls[s]].to_cache += now.to_cache;
    return code;
}

// A scenario's call, cut after every number of stores and whole.
static void watch_cuts(enum scenario s)
{
    uint64_t allowance = 0;
    while (watch(s, allowance) == NV_CUT)
        allowance++;
    need(watch(s, UNLIMITED) == scenario_code(s));
}

static int as_wanted(enum call call)
{
    if (call == FORMATS)
        return all[call].to_memory > 0;
    if (call == RECOVER)
        return all[call].to_cache > 0 && all[call].to_memory == 0;
    return all[call].made == 0;
}

int main(void)
{
    int passed = 0, failed = 0;
    for (unsigned k = 0; k < 3 * FAMILIES; k++) {
        m = make_module(&ours, 1 + k % 3, k / 3, malloc);
        for (int s = 0; s < SCENARIOS; s++)
            watch_cuts(s);
        free_module(&m);
    }
    for (int call = 0; call < CALL_KINDS; call++) {
        printf("copies: %s: memcpy and memset called %ld times, %ld times to array or control record%s\n", call_names[call],
               all[call].made, all[call].to_memory, as_wanted(call) ? "" : ": FAILED");
        as_wanted(call) ? passed++ : failed++;
    }
    printf("copies: %d passed, %d failed\n", passed, failed);
    return failed != 0;
}
