// A recorder on a host, to copy from: numbered records in a module that a file keeps, and the boot that goes on with them.
//
//     recorder format FILE [FAMILY]          makes a module in FILE, which must not exist, with fresh keys
//     recorder run FILE [RECORDS [WITNESS]]  boots, then records until it is killed or has made RECORDS
//     recorder check FILE [WITNESS]          boots, and so checks every row, without a store to FILE
//     recorder try FILE SEED [FAMILY]        formats FILE as above, then loses power hundreds of times, at any store
//
// FAMILY is 0 for a module with a phase byte beside each line, and 1 for one of the older modules without; 0 if there is none.
// FILE stands for the memory that outlasts a power failure. It is mapped, so each byte that the library stores is in it at
// once, and a SIGKILL leaves what was stored so far: a power failure between two instructions. (When the host itself loses
// power that is not so: the system writes the file's pages in a sequence of its own.) WITNESS is for a test: 8 bytes, in
// which `run` notes the last record that was answered as done, and `check` the last one that it found.
//
// Ends with 0 if all is well, 1 at a fault, 2 at a wrong command line, and 3 at a fault in a boot after power failed in a
// turn: the commit of a turn must be stored whole (docs/FIRMWARE.md), and a kill that tears it is outside the promise.
//
// Firmware needs `boot`, `recorded` and what they call; the files, the commands and the supply that fails are the host's.
//
//     cc -std=c99 -I dist examples/recorder.c dist/libnightvelvet.a -o recorder
#define _POSIX_C_SOURCE 200809L
#include "nightvelvet_module.h"

#include <errno.h>
#include <fcntl.h>
#include <inttypes.h>
#include <stdarg.h>
#include <stdio.h>
#include <stdlib.h>
#include <string.h>
#include <sys/mman.h>
#include <sys/stat.h>
#include <unistd.h>

enum { FAULT = 1, USAGE = 2, TORN = 3 }; // exit status

enum {
    DEPTH = 1,
    ROWS = NV_LINES_1,
    CHECK_ROW = 0,                 // alone on page 0, which so is never turned
    DATA_ROWS = NV_PAGE_LINES - 1, // of each other page; its first row is the index row
    ALL_DATA_ROWS = (ROWS / NV_PAGE_LINES - 1) * DATA_ROWS,
    PASS = 2 * ALL_DATA_ROWS       // records until a data row is written again
};

// What outlasts a power failure: FILE.
typedef struct {
    uint8_t keys[NV_KEYS_LENGTH]; // a real recorder has them in a safe place
    volatile uint8_t turning;     // 1 while a turn runs, and after a power failure in it until all rows are found right
    uint8_t control[NV_CONTROL_LENGTH];
    uint8_t array[NV_ARRAY_LENGTH_1];
} memory;

// What does not. Each boot makes it anew.
typedef struct {
    memory *kept;
    nv_module module;
    uint64_t last; // the number of the last record
    int torn;      // whether power failed in a turn, perhaps inside a commit
    uint8_t cache[NV_CACHE_LENGTH_1];
} recorder;

// ---- Rows: the number of a record alone says its row and its text ----

// Records go in pairs: a data row, one after the other in a ring, then the index row of its page.
static uint64_t row_of(uint64_t record)
{
    uint64_t at = (record - 1) / 2 % ALL_DATA_ROWS;
    uint64_t index_row = (1 + at / DATA_ROWS) * NV_PAGE_LINES;
    return record % 2 == 0 ? index_row : index_row + 1 + at % DATA_ROWS;
}

static void make_text(uint64_t record, uint8_t text[NV_TEXT_LENGTH])
{
    uint64_t at = (record - 1) / 2;
    char *words = (char *)text + 8;
    memset(text, 0, NV_TEXT_LENGTH);
    for (int i = 0; i < 8; i++)
        text[i] = (uint8_t)(record >> 8 * i);
    if (record % 2 == 1)
        snprintf(words, NV_TEXT_LENGTH - 8, "wall %" PRIu64 " um at %" PRIu64 " mm", 7000 + at * at % 1000, 250 * at);
    else
        snprintf(words, NV_TEXT_LENGTH - 8, "index: the last row is %" PRIu64, row_of(record - 1));
}

static const uint8_t check_text[NV_TEXT_LENGTH] = "check row: the pads of this module are made with these keys";

// The newest record of each row, up to the last one; 0 where there is none.
static void list_newest(uint64_t last, uint64_t newest[ROWS])
{
    memset(newest, 0, ROWS * sizeof *newest);
    for (uint64_t record = last > PASS ? last - PASS + 1 : 1; record <= last; record++)
        newest[row_of(record)] = record;
}

// ---- Faults and answers ----

// Tells a fault in a line and ends the recorder: neither another try nor a repair is possible.
static void stop(const recorder *r, const char *what, ...)
{
    va_list more;
    va_start(more, what);
    fputs("recorder: ", stderr);
    vfprintf(stderr, what, more);
    fputs("\n", stderr);
    va_end(more);
    if (r == NULL || !r->torn)
        exit(FAULT);
    fputs("recorder: power had failed in a turn, perhaps inside a commit, which must be stored whole\n", stderr);
    exit(TORN);
}

static void refused(const recorder *r, const char *call, nv_answer answer)
{
    stop(r, "%s gave %" PRIu32 " (%s), place %" PRIu64 ", %" PRIu64, call, answer.code, nv_word(answer.code), answer.first,
         answer.second);
}

enum { RECOVERY, READ, WRITE, TURN, RESUMED_TURN, CALLS };

static const char *const call_names[CALLS] = { "recovery", "read", "write", "turn", "resumed turn" };

// The stores that power lasts for. Firmware gives UINT64_MAX to every call, and power fails by itself; `try` gives fewer.
static uint64_t supply = UINT64_MAX;

static struct {
    unsigned done[CALLS], cut[CALLS], committed, lost;
    uint64_t sum;
} seen; // in `try`

// Whether power lasted for a call. An answer that is neither done nor blank ends the recorder.
static int lasted(const recorder *r, int call, nv_answer answer)
{
    if (supply != UINT64_MAX) {
        supply -= answer.stores;
        seen.sum += answer.sum;
        (answer.code == NV_CUT ? seen.cut : seen.done)[call]++;
        if (answer.code == NV_CUT)
            return 0;
    }
    if (answer.code != NV_DONE && answer.code != NV_BLANK)
        refused(r, call_names[call], answer);
    return 1;
}

// ---- The boot ----

// No call refuses wrong pad keys: texts would be junk, and a turn, a resumed one too, would destroy its page.
static int keys_fit(recorder *r)
{
    uint8_t text[NV_TEXT_LENGTH];
    nv_answer answer = nv_module_read(&r->module, CHECK_ROW, text, supply);
    if (!lasted(r, READ, answer))
        return 0;
    if (answer.code == NV_BLANK)
        stop(r, "the check row is blank: the format was not finished");
    if (memcmp(text, check_text, sizeof text) != 0)
        stop(r, "the check row has not its text: the pad keys are not this module's");
    return 1;
}

// Sets the mark before the turn. Whoever calls this clears it.
static int turned(recorder *r, int call, uint64_t page)
{
    r->kept->turning = 1;
    return lasted(r, call, nv_module_turn(&r->module, page, supply));
}

static int turn_finished(recorder *r)
{
    return !nv_module_is_open(&r->module) || turned(r, RESUMED_TURN, nv_module_open_page(&r->module));
}

// Gives the number of the record in a row, 0 if the row is blank.
static int number_read(recorder *r, uint64_t row, uint64_t *number)
{
    uint8_t text[NV_TEXT_LENGTH], wanted[NV_TEXT_LENGTH];
    nv_answer answer = nv_module_read(&r->module, row, text, supply);
    if (!lasted(r, READ, answer))
        return 0;
    *number = answer.code == NV_BLANK ? 0 : nv_number(text, 0);
    if (answer.code == NV_BLANK)
        memset(wanted, NV_BLANK_BYTE, sizeof wanted);
    else
        make_text(*number, wanted);
    if (memcmp(text, wanted, sizeof text) != 0)
        stop(r, "row %" PRIu64 " reads as %s, with a wrong text", row, nv_word(answer.code));
    return 1;
}

// The rows tell where the recorder was: the last record is the highest number, and each row must have the newest record
// that it can have then. A write that power failed in is there or not; in either case the next record is the one after.
static int rows_found(recorder *r)
{
    uint64_t found[ROWS] = { 0 }, newest[ROWS];
    r->last = 0;
    for (uint64_t row = 0; row < ROWS; row++) {
        if (row != CHECK_ROW && !number_read(r, row, &found[row]))
            return 0;
        if (found[row] > r->last)
            r->last = found[row];
    }
    list_newest(r->last, newest);
    for (uint64_t row = 0; row < ROWS; row++)
        if (found[row] != newest[row])
            stop(r, "row %" PRIu64 " has record %" PRIu64 " and not %" PRIu64 ", though the last is %" PRIu64, row, found[row],
                 newest[row], r->last);
    return 1;
}

// What each power-up begins with, in this sequence; whether power lasted for it, as it does unless `try` says otherwise.
// Before it `r` may hold anything.
static int boot(recorder *r, memory *kept)
{
    r->kept = kept;
    r->module = nv_module_of(DEPTH, kept->keys, kept->control, kept->array, r->cache);
    r->torn = kept->turning;
    if (!lasted(r, RECOVERY, nv_module_recover(&r->module, supply)) // before any other call
        || !keys_fit(r)                                             // before the first turn and the first write
        || !turn_finished(r)                                        // before the rows of an open page are read
        || !rows_found(r))
        return 0;
    kept->turning = 0;
    r->torn = 0;
    return 1;
}

// ---- Recording ----

// Makes the next record; whether power lasted for it. The page of a worn row is turned first.
static int recorded(recorder *r)
{
    uint8_t text[NV_TEXT_LENGTH];
    uint64_t row = row_of(r->last + 1);
    make_text(r->last + 1, text);
    nv_answer answer = nv_module_write(&r->module, row, text, supply);
    if (answer.code == NV_REFUSED + NV_WORN) {
        if (!turned(r, TURN, row / NV_PAGE_LINES))
            return 0;
        r->kept->turning = 0;
        answer = nv_module_write(&r->module, row, text, supply);
    }
    if (!lasted(r, WRITE, answer))
        return 0;
    r->last++;
    return 1;
}

// ---- Files ----

static void stop_at(const char *path)
{
    stop(NULL, "%s: %s", path, strerror(errno));
}

// Maps a file, privately if it is opened for reading alone. It stays open, and so locked, until the recorder ends: a module
// is one task's at a time.
static void *map_file(const char *path, int flags, size_t length)
{
    int shared = (flags & O_ACCMODE) == O_RDWR;
    struct flock lock = { .l_type = shared ? F_WRLCK : F_RDLCK, .l_whence = SEEK_SET };
    struct stat file;
    int fd = open(path, flags, 0600);
    if (fd < 0 && errno == EEXIST)
        stop(NULL, "%s exists, and format would destroy what it holds", path);
    if (fd < 0 || fstat(fd, &file) != 0)
        stop_at(path);
    if (fcntl(fd, F_SETLK, &lock) != 0)
        stop(NULL, "%s: another recorder has it, or it cannot be locked", path);
    if ((flags & O_CREAT) != 0 && file.st_size == 0) {
        errno = posix_fallocate(fd, 0, (off_t)length);
        if (errno != 0)
            stop_at(path);
    } else if (file.st_size != (off_t)length) {
        stop(NULL, "%s: not of this recorder", path);
    }
    void *at = mmap(NULL, length, PROT_READ | PROT_WRITE, shared ? MAP_SHARED : MAP_PRIVATE, fd, 0);
    if (at == MAP_FAILED)
        stop_at(path);
    return at;
}

static volatile uint64_t *map_witness(const char *path, int flags)
{
    static volatile uint64_t nobody;
    return path == NULL ? &nobody : map_file(path, flags, sizeof nobody);
}

static void make_keys(uint8_t keys[NV_KEYS_LENGTH])
{
    const char *source = "/dev/urandom";
    int fd = open(source, O_RDONLY);
    if (fd < 0 || read(fd, keys, NV_KEYS_LENGTH) != NV_KEYS_LENGTH)
        stop_at(source);
    close(fd);
}

// ---- Commands ----

// Once in a module's life, on a supply that does not fail, and never over another module: format destroys.
static memory *format(const char *path, uint64_t family)
{
    uint8_t keys[NV_KEYS_LENGTH], cache[NV_CACHE_LENGTH_1];
    make_keys(keys);
    memory *kept = map_file(path, O_RDWR | O_CREAT | O_EXCL, sizeof *kept);
    memcpy(kept->keys, keys, sizeof keys);
    nv_module module = nv_module_of(DEPTH, kept->keys, kept->control, kept->array, cache);
    nv_answer answer = nv_module_format(&module, family);
    if (answer.code == NV_DONE)
        answer = nv_module_write(&module, CHECK_ROW, check_text, UINT64_MAX);
    if (answer.code != NV_DONE)
        refused(NULL, "format", answer);
    return kept;
}

static void tell_dirty_pages(const recorder *r)
{
    uint8_t list[NV_LIST_LENGTH];
    nv_answer answer = nv_module_dirty_pages(&r->module, list);
    if (answer.code != NV_DONE)
        refused(r, "list of dirty pages", answer);
    for (uint64_t at = 0; at < NV_LIST_LENGTH && nv_number(list, at) != UINT64_MAX; at += 8)
        printf(" %" PRIu64, nv_number(list, at));
}

static void run(const char *path, uint64_t records, const char *witness_path)
{
    static recorder r;
    memory *kept = map_file(path, O_RDWR, sizeof *kept);
    volatile uint64_t *witness = map_witness(witness_path, O_RDWR | O_CREAT);
    boot(&r, kept);
    printf("recorder: goes on after record %" PRIu64 "\n", r.last);
    for (; records > 0 && recorded(&r); records--)
        *witness = r.last;
    printf("recorder: ends after record %" PRIu64 ", dirty in the cache are the counter blocks of pages", r.last);
    tell_dirty_pages(&r);
    printf("\n");
}

// Every record that was answered as done must be there, and so many more may be.
static void compare(const recorder *r, uint64_t answered, uint64_t more)
{
    if (r->last < answered || r->last - answered > more)
        stop(r, "the last record is %" PRIu64 ", but %" PRIu64 " was the last to be answered as done", r->last, answered);
}

static void check(const char *path, const char *witness_path)
{
    static recorder r;
    memory *kept = map_file(path, O_RDONLY, sizeof *kept);
    volatile uint64_t *witness = map_witness(witness_path, O_RDWR);
    boot(&r, kept);
    if (witness_path != NULL)
        compare(&r, *witness, 1);
    *witness = r.last;
    printf("recorder: every row is right, the last record is %" PRIu64 "\n", r.last);
}

// ---- A supply that fails ----

enum { FAILURES = 400 };

static uint64_t state;

static uint64_t below(uint64_t n)
{
    state ^= state << 13;
    state ^= state >> 7;
    state ^= state << 17;
    return (state >> 20) % n;
}

// When power comes back anything may be in the cache, and no variable has outlived it.
static void forget(recorder *r)
{
    uint8_t *bytes = (uint8_t *)r;
    for (size_t i = 0; i < sizeof *r; i++)
        bytes[i] = (uint8_t)below(256);
}

// Boots on a copy, with power that lasts, and so checks every row.
static void audit(const memory *kept, uint64_t *answered, unsigned writes_cut)
{
    static recorder r;
    static memory copy;
    copy = *kept;
    forget(&r);
    boot(&r, &copy);
    compare(&r, *answered, writes_cut);
    if (writes_cut > 0)
        r.last > *answered ? seen.committed++ : seen.lost++;
    *answered = r.last;
}

// Boots and records until power fails. It fails between two stores, so nothing excuses a fault, and the mark is cleared.
static void lose_power(memory *kept, uint64_t *answered)
{
    static recorder r;
    unsigned writes_cut = seen.cut[WRITE];
    forget(&r);
    supply = below(4) == 0 ? below(8) : below(below(2) == 0 ? 120 : 700);
    if (boot(&r, kept)) {
        compare(&r, *answered, 0);
        while (recorded(&r))
            *answered = r.last;
    }
    supply = UINT64_MAX;
    kept->turning = 0;
    audit(kept, answered, seen.cut[WRITE] - writes_cut);
}

// Index rows are near to worn after two passes.
static void try_supply(const char *path, uint64_t seed, uint64_t family)
{
    static recorder r;
    memory *kept = format(path, family);
    state = (seed + 1) * UINT64_C(0x9e3779b97f4a7c15) | 1;
    for (boot(&r, kept); r.last < 2 * PASS;)
        recorded(&r);
    uint64_t answered = r.last;
    for (int i = 0; i < FAILURES; i++)
        lose_power(kept, &answered);
    printf("recorder: %u writes done, %u more committed before the power failed in them, %u made again\n", seen.done[WRITE],
           seen.committed, seen.lost);
    printf("recorder: %u turns of a worn row's page begun, %u times resumed\n", seen.done[TURN] + seen.cut[TURN],
           seen.done[RESUMED_TURN] + seen.cut[RESUMED_TURN]);
    printf("recorder: power failed %u times in writes, %u in reads, %u in turns, %u in recoveries\n", seen.cut[WRITE],
           seen.cut[READ], seen.cut[TURN] + seen.cut[RESUMED_TURN], seen.cut[RECOVERY]);
    printf("recorder: %u recoveries brought counters forward by %" PRIu64 " in all\n", seen.done[RECOVERY], seen.sum);
    printf("recorder: every row was right after each of %d power failures, the last record is %" PRIu64 "\n", FAILURES, answered);
}

// ---- The command line ----

static int is_number(const char *word, uint64_t *number)
{
    char *end;
    errno = 0;
    *number = strtoull(word, &end, 10);
    return word[0] >= '0' && word[0] <= '9' && *end == '\0' && errno == 0;
}

// The family in a further word, or if there is none the one with a phase byte.
static int is_family(int count, char **words, int at, uint64_t *family)
{
    *family = NV_FAMILY_PHASE;
    return count == at || (count == at + 1 && is_number(words[at], family) && *family <= NV_FAMILY_TAG);
}

int main(int count, char **words)
{
    const char *command = count > 2 ? words[1] : "";
    uint64_t number = UINT64_MAX, family;
    if (strcmp(command, "format") == 0 && is_family(count, words, 3, &family))
        format(words[2], family);
    else if (strcmp(command, "run") == 0 && count <= 5 && (count == 3 || is_number(words[3], &number)))
        run(words[2], number, count > 4 ? words[4] : NULL);
    else if (strcmp(command, "check") == 0 && count <= 4)
        check(words[2], count > 3 ? words[3] : NULL);
    else if (strcmp(command, "try") == 0 && count > 3 && is_number(words[3], &number) && is_family(count, words, 4, &family))
        try_supply(words[2], number, family);
    else {
        fputs("usage: recorder format FILE [FAMILY] | run FILE [RECORDS [WITNESS]] | check FILE [WITNESS] | try FILE SEED [FAMILY]\n",
              stderr);
        return USAGE;
    }
    return 0;
}
