// What the machine code of the library does to array and control record, one instruction at a time.
//
// A child makes the call on memory that both share, and is stepped through it by ptrace. After each instruction: bytes
// change only from what they are before the next store of the call to what they are after it, so the stores come in their
// sequence, none before the one before it is whole, none left out, and nothing else changes. In the commit the count is
// the last byte to change. And from the raw memory after each instruction that changed it, torn stores and all, a recovery
// with another cache must be done and give every line's count and text as the book has them; of an open page when its turn
// has been finished. A turn's commit sets bytes in two places and is taken as one store: nothing is promised of a recovery
// that starts inside it. How many instructions and bytes it takes is told, and what becomes of the module then.
#include "module.h"
#include <signal.h>
#include <sys/mman.h>
#include <sys/ptrace.h>
#include <sys/wait.h>
#include <unistd.h>

enum { STORES = 31, LINES_READ = 800, LONG = 1000000 };
enum { ROOT_AT = 7, COUNT_AT = 15, NEW_ROOT_AT = 16, QUEUE_AT = 24, PLACE = 80, CELL = 72, SLOT = 73 };
enum { COMMIT = 1 + 8 + 17 }; // bytes of a turn's commit: count, new root, section

static const calls ours = CALLS_OF(nv_);

// Control record and array lie one after the other, so that one comparison sees both.
typedef struct {
    uint8_t *whole[STORES + 1];  // both after each number of stores
    uint8_t commit[STORES + 1];  // whether a store is the commit of a batch
    unsigned stores, batches;    // how many the call makes
    uint64_t line, page;         // the line it reads or writes; the page it turns, or that is open
    int writes, turns, open;     // whether its commits commit a write or a turn; whether a page is open before it
} listed;

typedef struct {
    uint8_t *text;  // of each line
    uint8_t *count; // of each line
} book;

typedef struct {
    long instructions, changes, recoveries;
    long commit, longest; // the instruction at which the commit of a turn began, or 0; the instructions of the longest
    const char *fault;
} seen;

typedef void visit(const listed *, unsigned made, seen *); // of a raw state, after so many whole stores

static module live, trial, spare;
static size_t length;
static uint8_t *last;
static volatile uint32_t *answered;

static void *shared(size_t n)
{
    void *p = mmap(NULL, n, PROT_READ | PROT_WRITE, MAP_SHARED | MAP_ANONYMOUS, -1, 0);
    need(p != MAP_FAILED);
    return p;
}

static void *owned(size_t n)
{
    void *p = malloc(n);
    need(p != NULL);
    return p;
}

static module joined(unsigned depth, unsigned family, void *(*get)(size_t))
{
    module m = make_module(&ours, depth, family, get);
    m.control = get(NV_CONTROL_LENGTH + m.array_len);
    m.array = m.control + NV_CONTROL_LENGTH;
    return m;
}

// ---- What is expected ----

static int same_but(const uint8_t *before, const uint8_t *after, size_t at, size_t n)
{
    return memcmp(before, after, at) == 0 && memcmp(before + at + n, after + at + n, length - at - n) == 0;
}

// The commit: count and new root, of a turn also the section.
static int commit_fits(const listed *l, const uint8_t *before, const uint8_t *after, unsigned cells)
{
    static uint8_t expected[NV_CONTROL_LENGTH];
    memcpy(expected, before, NV_CONTROL_LENGTH);
    memcpy(expected + COUNT_AT, after + COUNT_AT, 9);
    if (l->turns)
        memcpy(expected + NV_TURN_AT, after + NV_TURN_AT, NV_CONTROL_LENGTH - NV_TURN_AT);
    return after[COUNT_AT] == cells && memcmp(expected, after, NV_CONTROL_LENGTH) == 0
        && same_but(before, after, 0, NV_CONTROL_LENGTH);
}

// Whether each store of a batch is the paper's: the queue's places, the commit, the cells of the queue, the root, count 0.
// A recovery starts after the commit.
static int in_sequence(const listed *l, unsigned start, unsigned cells, unsigned first)
{
    for (unsigned t = first; t < 2 * cells + 3; t++) {
        const uint8_t *before = l->whole[start + t - first], *after = l->whole[start + t - first + 1], *from = after;
        size_t at = COUNT_AT, n = 1;
        if (t == cells) {
            if (!commit_fits(l, before, after, cells))
                return 0;
            continue;
        }
        if (t < cells) {
            at = QUEUE_AT + PLACE * t, n = PLACE, from = after + at;
        } else if (t <= 2 * cells) {
            const uint8_t *place = before + QUEUE_AT + PLACE * (t - cells - 1);
            uint64_t cell;
            memcpy(&cell, place, 8);
            at = NV_CONTROL_LENGTH + CELL * cell, n = CELL, from = place + 8;
        } else if (t == 2 * cells + 1) {
            at = ROOT_AT, n = 8, from = before + NEW_ROOT_AT;
        }
        int content = t == 2 * cells + 2 ? after[at] == 0 : memcmp(after + at, from, n) == 0;
        if (!content || !same_but(before, after, at, n))
            return 0;
    }
    return 1;
}

// Whether the stores are those of batches, one after the other; notes their commits.
static int in_batches(listed *l)
{
    for (unsigned start = 0; start < l->stores; l->batches++) {
        unsigned cells = 0;
        while (start + cells < l->stores && l->whole[start + cells + 1][COUNT_AT] == 0)
            cells++;
        if (start + 2 * cells + 3 > l->stores || !in_sequence(l, start, cells, 0))
            return 0;
        l->commit[start + cells] = 1;
        start += 2 * cells + 3;
    }
    return 1;
}

static int of_recovery(const listed *l, unsigned cells)
{
    return l->stores == (cells ? cells + 2 : 0) && (cells == 0 || in_sequence(l, 0, cells, cells + 1));
}

// The memory after each store, by the same call under each allowance.
static void list_stores(listed *l, const module *start, enum scenario s)
{
    memset(l->commit, 0, sizeof l->commit);
    l->batches = 0;
    l->writes = scenario_calls[s] == WRITE;
    l->turns = scenario_calls[s] == TURN;
    l->line = scenario_line(s, start->depth);
    l->page = scenario_page(s, start->depth);
    l->open = start->control[NV_TURN_AT];
    for (l->stores = 0;; l->stores++) {
        need(l->stores <= STORES);
        copy_module(&trial, start);
        memcpy(trial.text, start->text, NV_TEXT_LENGTH);
        uint32_t code = run_scenario(&trial, s, l->stores);
        memcpy(l->whole[l->stores], trial.control, length);
        if (code != NV_CUT)
            break;
    }
    need(scenario_calls[s] == RECOVER ? of_recovery(l, start->control[COUNT_AT]) : in_batches(l));
}

static unsigned minor_of(const module *m, uint64_t line)
{
    uint64_t page = line / 64, owner;
    const uint8_t *slot = m->cache + SLOT * (page % 4);
    memcpy(&owner, slot, 8);
    const uint8_t *block = owner == page + 1 ? slot + 9 : m->array + CELL * (m->lines + page);
    unsigned bit = 7 * (line % 64);
    return (block[8 + bit / 8] | (bit / 8 < 55 ? block[9 + bit / 8] : 0) << 8) >> bit % 8 & 127;
}

// If a page is open, the book is that of the turn finished.
static void keep_book(const book *b, const module *from)
{
    copy_module(&trial, from);
    need(call_recover(&trial, UNLIMITED) == NV_DONE);
    uint64_t page;
    memcpy(&page, trial.control + NV_TURN_PAGE_AT, 8);
    if (trial.control[NV_TURN_AT])
        need(call_turn(&trial, page, UNLIMITED) == NV_DONE);
    for (uint64_t line = 0; line < trial.lines; line++)
        b->count[line] = (uint8_t)minor_of(&trial, line);
    for (uint64_t line = 0; line < trial.lines; line++) {
        need(call_read(&trial, line, UNLIMITED) == (b->count[line] ? NV_DONE : NV_BLANK));
        uint8_t *text = b->text + NV_TEXT_LENGTH * line;
        if (b->count[line])
            memcpy(text, trial.out, NV_TEXT_LENGTH);
        else
            memset(text, NV_BLANK_BYTE, NV_TEXT_LENGTH);
    }
}

// ---- Recovery from raw memory ----

static const char *line_fault(const book *b, const listed *l, unsigned committed, int turned, uint64_t line)
{
    int changed = committed && l->writes && line == l->line;
    const uint8_t *text = changed ? live.text : b->text + NV_TEXT_LENGTH * line;
    unsigned count = turned && line / 64 == l->page ? b->count[line] != 0 : b->count[line] + (unsigned)changed;
    if (minor_of(&trial, line) != count)
        return "after recovery a counter is not the book's";
    if (call_read(&trial, line, UNLIMITED) != (count ? NV_DONE : NV_BLANK) || memcmp(trial.out, text, NV_TEXT_LENGTH) != 0)
        return "after recovery a text is not the book's";
    return NULL;
}

// Finishes the turn of a page that is open, as it must be after so many commits.
static const char *turn_fault(const listed *l, int open)
{
    if (trial.control[NV_TURN_AT] != open)
        return "after recovery another page is open";
    if (open && call_read(&trial, 64 * l->page + 1, UNLIMITED) != NV_REFUSED + NV_OPEN_PAGE)
        return "an open page is read";
    if (open && call_turn(&trial, l->page, UNLIMITED) != NV_DONE)
        return "an open page is not turned";
    return NULL;
}

static const char *recovery_fault(const book *b, const listed *l, unsigned committed, long turn)
{
    int finished = l->turns && committed == l->batches, open = !finished && (l->open || (l->turns && committed > 0));
    memcpy(trial.control, live.control, length);
    for (size_t i = 0; i < trial.cache_len; i++)
        trial.cache[i] = turn % 3 == 0 ? 0 : turn % 3 == 1 ? 0xff : (uint8_t)(i * i + (size_t)turn);
    if (call_recover(&trial, UNLIMITED) != NV_DONE)
        return "recovery from raw memory is not done";
    uint64_t step = trial.lines / LINES_READ + 1;
    const char *fault = turn_fault(l, open);
    for (uint64_t place = 0; place < 64 && !fault && l->turns; place++)
        fault = line_fault(b, l, committed, finished || open, 64 * l->page + place);
    if (!fault)
        fault = line_fault(b, l, committed, finished || open, l->line);
    for (uint64_t line = (uint64_t)turn % step; line < trial.lines && !fault; line += step)
        fault = line_fault(b, l, committed, finished || open, line);
    return fault;
}

// ---- One instruction after the other ----

// Holds what an instruction changed to the next store; how many stores are whole after it.
static unsigned check_change(const listed *l, unsigned made, seen *see)
{
    const uint8_t *now = live.control;
    if (made == l->stores) {
        see->fault = "a change after the last store";
        return made;
    }
    const uint8_t *before = l->whole[made], *after = l->whole[made + 1];
    for (size_t i = 0; i < length; i++)
        if (now[i] != last[i] && (last[i] != before[i] || now[i] != after[i])) {
            see->fault = "a change that is not the next store's";
            return made;
        }
    int whole = memcmp(now, after, length) == 0;
    if (l->commit[made] && !l->turns && now[COUNT_AT] != last[COUNT_AT] && !whole)
        see->fault = "the count is not the last byte of the commit to change";
    if (l->commit[made] && l->turns) {
        if (see->commit == 0)
            see->commit = see->instructions;
        if (see->instructions - see->commit + 1 > see->longest)
            see->longest = see->instructions - see->commit + 1;
        if (whole)
            see->commit = 0;
    }
    while (made < l->stores && memcmp(now, l->whole[made + 1], length) == 0)
        made++;
    return made;
}

// Whether memory has changed since `last`. A long array's data cells, but for the line's or page's own, are looked at now
// and then.
static int differs(const listed *l, long turn)
{
    int page = l->turns || l->open;
    size_t data = CELL * live.lines, own = CELL * (page ? 64 * l->page : l->line), cells = page ? 64 : 1;
    if (length < LONG || turn % 256 == 0)
        return memcmp(live.control, last, length) != 0;
    const uint8_t *array = last + NV_CONTROL_LENGTH;
    return memcmp(live.control, last, NV_CONTROL_LENGTH) != 0 || memcmp(live.array + own, array + own, cells * CELL) != 0
        || memcmp(live.array + data, array + data, live.array_len - data) != 0;
}

static pid_t start_child(enum scenario s)
{
    pid_t child = fork();
    need(child >= 0);
    if (child == 0) {
        if (ptrace(PTRACE_TRACEME, 0, NULL, NULL) != 0)
            _exit(1);
        raise(SIGSTOP);
        *answered = run_scenario(&live, s, UNLIMITED);
        _exit(0);
    }
    int status;
    need(waitpid(child, &status, 0) == child && WIFSTOPPED(status));
    need(ptrace(PTRACE_SETOPTIONS, child, NULL, PTRACE_O_EXITKILL) == 0);
    return child;
}

// Steps a child through the call. `live` has its start, `l` its stores; `each` is told of every raw state, but for those inside
// the commit of a turn, which `torn` is told of.
static void step_through(enum scenario s, const listed *l, seen *see, visit *each, visit *torn)
{
    unsigned made = 0;
    int status;
    while (made < l->stores && memcmp(live.control, l->whole[made + 1], length) == 0)
        made++;
    memcpy(last, live.control, length);
    *answered = UINT32_MAX;
    pid_t child = start_child(s);
    for (;;) {
        need(ptrace(PTRACE_SINGLESTEP, child, NULL, NULL) == 0);
        need(waitpid(child, &status, 0) == child);
        if (!WIFSTOPPED(status))
            break;
        see->instructions++;
        if (see->fault || !differs(l, see->instructions))
            continue;
        see->changes++;
        made = check_change(l, made, see);
        memcpy(last, live.control, length);
        if (!see->fault)
            (see->commit ? torn : each)(l, made, see);
    }
    if (!see->fault && memcmp(live.control, last, length) != 0)
        see->fault = "a change beside the stores";
    if (!see->fault && (made != l->stores || *answered != scenario_code(s)))
        see->fault = "stores were left out, or another answer";
}

static book kept;

// How many batches are committed by so many stores.
static unsigned committed(const listed *l, unsigned made)
{
    unsigned count = 0;
    for (unsigned k = 0; k < made; k++)
        count += l->commit[k];
    return count;
}

static void pass_by(const listed *l, unsigned made, seen *see)
{
    (void)l, (void)made, (void)see;
}

static void recover_each(const listed *l, unsigned made, seen *see)
{
    see->recoveries++;
    see->fault = recovery_fault(&kept, l, committed(l, made), see->changes);
}

// ---- Recovery, itself stepped through, from every raw state of a call ----

static struct {
    uint8_t *memory;
    int committed;
} *raw;
static unsigned raws;

static void keep_each(const listed *l, unsigned made, seen *see)
{
    (void)see;
    raw = realloc(raw, (raws + 1) * sizeof *raw);
    need(raw != NULL);
    raw[raws].memory = owned(length);
    memcpy(raw[raws].memory, live.control, length);
    raw[raws++].committed = committed(l, made) == l->batches;
}

static void say_module(void)
{
    printf("instructions: depth %u%s: ", live.depth, live.family == NV_FAMILY_TAG ? ", family 1" : "");
}

static int tell(const char *what, const listed *l, const seen *see)
{
    say_module();
    printf("%-24s %3u stores, %6ld instructions, %4ld raw states", what, l->stores, see->instructions, see->changes);
    if (see->longest)
        printf(", a commit in %ld instructions", see->longest);
    printf("%s%s\n", see->fault ? ": FAILED: " : "", see->fault ? see->fault : "");
    return see->fault != NULL;
}

static void make_listed(listed *l)
{
    for (int k = 0; k <= STORES; k++)
        l->whole[k] = owned(length);
}

static void free_listed(listed *l)
{
    for (int k = 0; k <= STORES; k++)
        free(l->whole[k]);
}

static void set_up(unsigned depth, unsigned family)
{
    live = joined(depth, family, shared);
    trial = joined(depth, family, owned);
    spare = joined(depth, family, owned);
    length = NV_CONTROL_LENGTH + live.array_len;
    last = owned(length);
    kept = (book){ owned(NV_TEXT_LENGTH * live.lines), owned(live.lines) };
}

// What lies in the queue before, and behind a turn's count of 0, must not look like what is staged there.
static void start(enum scenario s)
{
    prepare(&live, s);
    int end = live.control[NV_TURN_AT] ? NV_TURN_AT : NV_CONTROL_LENGTH;
    for (int i = NEW_ROOT_AT; i < end && live.control[COUNT_AT] == 0; i++)
        if (i != NV_TURN_AT)
            live.control[i] = (uint8_t)(0x80 | i * 3);
}

static struct {
    long instructions, bytes;
} longest_commit;

// The longest commit of a turn: the instructions from its first change to its last, and the bytes that it changes.
static void note_commits(const listed *l, long instructions)
{
    if (instructions > longest_commit.instructions)
        longest_commit.instructions = instructions;
    for (unsigned k = 0; k < l->stores; k++) {
        long bytes = 0;
        for (size_t i = 0; i < NV_CONTROL_LENGTH && l->turns && l->commit[k]; i++)
            bytes += l->whole[k][i] != l->whole[k + 1][i];
        if (bytes > longest_commit.bytes)
            longest_commit.bytes = bytes;
    }
}

static int one(enum scenario s)
{
    listed l;
    seen see = { 0 };
    make_listed(&l);
    start(s);
    keep_book(&kept, &live);
    list_stores(&l, &live, s);
    need(s != FULL_WRITE || l.commit[2 * live.depth + 2]);
    need(s != EVICTING_TURN || (l.commit[2 * live.depth + 2] && l.batches == 3));
    step_through(s, &l, &see, recover_each, pass_by);
    note_commits(&l, see.longest);
    free_listed(&l);
    return tell(scenario_names[s], &l, &see);
}

// From each of its raw states, or every so many.
static int again(enum scenario s, unsigned each)
{
    listed l, repair;
    seen see = { 0 }, all = { 0 };
    book before = kept, after = { owned(NV_TEXT_LENGTH * live.lines), owned(live.lines) };
    make_listed(&l);
    make_listed(&repair);
    start(s);
    keep_book(&before, &live);
    list_stores(&l, &live, s);
    raws = 0;
    step_through(s, &l, &see, keep_each, pass_by);
    keep_book(&after, &live);
    all.fault = see.fault;
    for (unsigned i = 0; i < raws && !all.fault; i += each) {
        memcpy(live.control, raw[i].memory, length);
        memset(live.cache, 0x6b, live.cache_len);
        kept = raw[i].committed ? after : before;
        list_stores(&repair, &live, IDLE_RECOVERY);
        step_through(IDLE_RECOVERY, &repair, &see, recover_each, pass_by);
        all.instructions += see.instructions;
        all.changes += see.changes;
        all.fault = see.fault;
        see = (seen){ 0 };
    }
    for (unsigned i = 0; i < raws; i++)
        free(raw[i].memory);
    free_listed(&l);
    free_listed(&repair);
    kept = before;
    return tell(each == 1 ? "recovery from each" : "recovery from some", &l, &all);
}

// ---- Inside the commit of a turn ----

// Which batch of the turn, and what becomes of the module: all is well; recovery is refused, as 121, 129, 132 or 133; recovery
// is done, an open page turned to its end, and the batch's own line is lost, where the next recovery is done or refused as 129
// or 133; the lines that batches before it turned are lost; or anything else. A lost line is refused as 125.
enum { ONLY, FIRST, MIDDLE, LAST, BATCHES };
enum { WELL, BAD_CONTROL, BAD_ROOT, BAD_COUNTER, NO_COUNTER, OWN_LINE, OWN_LINE_BAD_ROOT, OWN_LINE_NO_COUNTER, LINES_BEFORE, OTHERWISE,
       OUTCOMES };

static const char *const batch_names[BATCHES] = { "only", "first", "middle", "last" };
static const char *const outcome_names[OUTCOMES] = {
    "all well", "recovery refused as 121", "recovery refused as 129", "recovery refused as 132", "recovery refused as 133",
    "its line lost", "its line lost and the next recovery refused as 129", "its line lost and the next recovery refused as 133",
    "lines of earlier batches lost", "otherwise",
};
static unsigned outcomes[BATCHES][OUTCOMES];

// Reads every line after recovery, and finds the places of the page whose lines are refused as 125; whether all others are the
// book's.
static int find_lost(uint64_t page, uint64_t *lost)
{
    *lost = 0;
    for (uint64_t line = 0; line < trial.lines; line++) {
        uint32_t code = call_read(&trial, line, UNLIMITED);
        if (line / 64 == page && code == NV_REFUSED + NV_BAD_DATA)
            *lost |= (uint64_t)1 << line % 64;
        else if (code > NV_BLANK || memcmp(trial.out, kept.text + NV_TEXT_LENGTH * line, NV_TEXT_LENGTH) != 0)
            return 0;
    }
    return 1;
}

// The places of the page's first written lines, so many.
static uint64_t first_places(uint64_t page, unsigned lines)
{
    uint64_t places = 0;
    for (uint64_t place = 0; place < 64 && lines > 0; place++)
        if (kept.count[64 * page + place]) {
            places |= (uint64_t)1 << place;
            lines--;
        }
    return places;
}

static uint32_t recover_spare(const module *from)
{
    copy_module(&spare, from);
    memset(spare.cache, 0x6b, spare.cache_len);
    return call_recover(&spare, UNLIMITED);
}

static int outcome_of(const listed *l, unsigned batch)
{
    unsigned before = batch + (l->open != 0); // lines turned before
    uint64_t lost, turned = first_places(l->page, before), own = first_places(l->page, before + 1) ^ turned;
    uint32_t code = recover_spare(&live);
    if (code == NV_REFUSED + NV_BAD_CONTROL)
        return BAD_CONTROL;
    if (code == NV_REFUSED + NV_BAD_ROOT)
        return BAD_ROOT;
    if (code == NV_REFUSED + NV_BAD_COUNTER)
        return BAD_COUNTER;
    if (code != NV_DONE)
        return code == NV_REFUSED + NV_NO_COUNTER ? NO_COUNTER : OTHERWISE;
    copy_module(&trial, &spare);
    if (trial.control[NV_TURN_AT] && call_turn(&trial, l->page, UNLIMITED) != NV_DONE)
        return OTHERWISE;
    code = recover_spare(&trial);
    if (!find_lost(l->page, &lost))
        return OTHERWISE;
    if (lost == own && code == NV_REFUSED + NV_BAD_ROOT)
        return OWN_LINE_BAD_ROOT;
    if (lost == own && code == NV_REFUSED + NV_NO_COUNTER)
        return OWN_LINE_NO_COUNTER;
    if (code != NV_DONE)
        return OTHERWISE;
    return lost == 0 ? WELL : lost == own ? OWN_LINE : lost == turned ? LINES_BEFORE : OTHERWISE;
}

static void tear(const listed *l, unsigned made, seen *see)
{
    unsigned batch = committed(l, made);
    int last = batch + 1 == l->batches, first = batch == 0 && !l->open;
    (void)see;
    outcomes[last && first ? ONLY : last ? LAST : first ? FIRST : MIDDLE][outcome_of(l, batch)]++;
}

// Memory as a history leaves it, so without what start() puts there.
static void tear_commits(enum scenario s)
{
    listed l;
    seen see = { 0 };
    make_listed(&l);
    prepare(&live, s);
    keep_book(&kept, &live);
    list_stores(&l, &live, s);
    step_through(s, &l, &see, pass_by, tear);
    need(!see.fault);
    free_listed(&l);
}

// Says what comes of it, and holds it to what the documents say.
static int torn_commits(void)
{
    static const uint8_t expected[FAMILIES][BATCHES][OUTCOMES] = {
        [NV_FAMILY_PHASE] = {
            [ONLY] = { [WELL] = 1 },
            [FIRST] = { [WELL] = 1, [BAD_ROOT] = 1, [OWN_LINE] = 1 },
            [MIDDLE] = { [OWN_LINE_BAD_ROOT] = 1 },
            [LAST] = { [BAD_CONTROL] = 1, [BAD_ROOT] = 1, [BAD_COUNTER] = 1, [LINES_BEFORE] = 1 },
        },
        [NV_FAMILY_TAG] = {
            [ONLY] = { [WELL] = 1 },
            [FIRST] = { [WELL] = 1, [BAD_ROOT] = 1, [OWN_LINE_NO_COUNTER] = 1 },
            [MIDDLE] = { [OWN_LINE_NO_COUNTER] = 1 },
            [LAST] = { [BAD_CONTROL] = 1, [NO_COUNTER] = 1 },
        },
    };
    int failed = 0;
    memset(outcomes, 0, sizeof outcomes);
    tear_commits(SINGLE_TURN);
    tear_commits(SMALL_TURN);
    tear_commits(EVICTING_TURN);
    tear_commits(RESUMED_TURN);
    say_module();
    printf("raw states inside the commit of a turn");
    for (int batch = 0; batch < BATCHES; batch++) {
        const char *mark = ":";
        printf("%s %s batch", batch ? ";" : ":", batch_names[batch]);
        for (int i = 0; i < OUTCOMES; i++) {
            if (outcomes[batch][i]) {
                printf("%s %u %s", mark, outcomes[batch][i], outcome_names[i]);
                mark = ",";
            }
            failed |= (outcomes[batch][i] != 0) != expected[live.family][batch][i];
        }
    }
    printf("%s\n", failed ? " FAILED" : "");
    return failed;
}

// Of a family and depth: family 1 has the same stores, so at depths 2 and 3 only the calls with long batches are stepped through,
// and its recoveries, which take many more instructions, from fewer raw states.
static void step_all(int *passed, int *failed)
{
    static const enum scenario tried[] = { FIRST_READ, EVICTING_READ, CACHED_WRITE, STOP_LOSS_WRITE, EVICTING_WRITE,
                                           FULL_WRITE, SMALL_TURN, EVICTING_TURN, RESUMED_TURN, SINGLE_TURN, IDLE_RECOVERY,
                                           SMALL_RECOVERY, FULL_RECOVERY, TURN_RECOVERY };
    static const enum scenario few[] = { EVICTING_READ, FULL_WRITE, EVICTING_TURN, RESUMED_TURN, FULL_RECOVERY, TURN_RECOVERY };
    int phases = live.family == NV_FAMILY_PHASE, all = phases || live.depth == 1;
    size_t count = all ? sizeof tried / sizeof *tried : sizeof few / sizeof *few;
    for (size_t i = 0; i < count; i++)
        one(all ? tried[i] : few[i]) ? ++*failed : ++*passed;
    if (live.depth == 1) {
        again(EVICTING_WRITE, phases ? 1 : 16) ? ++*failed : ++*passed;
        again(SMALL_TURN, phases ? 3 : 20) ? ++*failed : ++*passed;
    }
    torn_commits() ? ++*failed : ++*passed;
}

int main(void)
{
    int passed = 0, failed = 0;
    answered = shared(4);
    for (unsigned k = 0; k < 3 * FAMILIES; k++) {
        set_up(1 + k % 3, k / 3);
        step_all(&passed, &failed);
    }
    printf("instructions: the commit of a turn: %ld instructions, %ld bytes\n", longest_commit.instructions, longest_commit.bytes);
    longest_commit.bytes == COMMIT ? passed++ : failed++;
    printf("instructions: %d passed, %d failed\n", passed, failed);
    return failed != 0;
}
