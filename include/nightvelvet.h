// Nightvelvet: an encrypted memory layer that comes back to the right state after a power failure.
//
// A module is an array of encrypted cells and a control record, which outlast a power failure, and a cache, which need
// not. Firmware lends all three to each call as slices, a pointer and a length. The library keeps nothing between calls,
// allocates nothing and asks for memcpy and memset alone. docs/FIRMWARE.md says how to use it; nightvelvet_module.h has
// the same calls over a struct.
//
// The worst that can happen:
//   - WRONG PAD KEYS ARE NOT REFUSED. Of the keys only bytes 32 to 47, for the tags, are checked (24, 25, 29, 33). With wrong
//     bytes 0 to 31, for the pads, recovery is done, and a read is done and gives 64 bytes of junk. A write or a turn is
//     done too, and then the right keys read junk: the texts of a page that was turned so are gone. So write a known text
//     to a row on a page that is never turned, and after power-up read it before the first write or turn.
//   - THE COMMIT OF A TURN MUST BE STORED WHOLE: 26 bytes in two places of the control record. If power fails inside it,
//     lines of the page may be lost, or the next recovery or the one after it is refused as 21, 29, 32 or 33, and with it
//     the whole module. No other store needs this.
//   - NOTHING MAY BE READ, WRITTEN OR TURNED BEFORE A RECOVERY IS DONE, after power-up, a reset or NV_CUT. Not every such
//     call is refused; a write can then cost the module, or put two texts under one pad.
//   - WHERE THE RECOVERY AFTER A POWER FAILURE IS REFUSED as 21, 27 to 29 or 32 to 34, no text can be read through the
//     library any more. Damage, wrong tag keys or a recovery left out lead there; power failures do not, but for one inside
//     the commit of a turn, and for a 34 by chance: without a phase byte (NV_FAMILY_TAG) the tag of a line may happen to be
//     right for another counter that recovery tries too, about 3 times in 2^64 for each line that it goes through. Keep
//     array and control record as they are, and report.
//
// What the caller must ensure, since no check can see it:
//   - each pointer is good for its length: for reading where it is const, else for reading and writing;
//   - no two slices of a call overlap, and nothing else changes them while the call runs.
// Every other input has a stated answer. A slice of length 0 has a wrong length in every call, so it is refused with
// nothing read or written through its pointer, which may then be null. Lines, pages, depths, families and allowances may
// be any number. Lengths have 64 bits on every target.
#ifndef NIGHTVELVET_H
#define NIGHTVELVET_H

#include <stdint.h>

// The library has the change requests 1/14 to NV_VERSION/14:
// 1 dirty pages are listed in rising number; 2 a page can be turned; 3 blank lines read as FF hex; 4 nothing is divided;
// 5 a bad phase (28) and a bad counter (32) are refused apart; 6 modules without a phase byte (NV_FAMILY_TAG).
#define NV_VERSION 6

#ifdef __cplusplus
extern "C" {
#endif

// Lengths and places in bytes, and how many lines there are. The depth of a module is 1, 2 or 3; a depth h has 8^h pages.
enum {
    NV_KEYS_LENGTH = 48,         // keys: 32 bytes for the pads, then 16 for the tags
    NV_CONTROL_LENGTH = 681,     // the control record
    NV_TEXT_LENGTH = 64,         // the text of a line, as read or written
    NV_LIST_LENGTH = 32,         // the list of dirty pages
    NV_NUMBERS_LENGTH = 24,      // the numbers of an answer

    NV_ARRAY_LENGTH_1 = 37944,   // the array at depth 1,
    NV_ARRAY_LENGTH_2 = 300744,  // at depth 2
    NV_ARRAY_LENGTH_3 = 2402136, // and at depth 3

    NV_CACHE_LENGTH_1 = 438,     // the cache at depth 1,
    NV_CACHE_LENGTH_2 = 584,     // at depth 2
    NV_CACHE_LENGTH_3 = 730,     // and at depth 3

    NV_LINES_1 = 512,            // lines at depth 1,
    NV_LINES_2 = 4096,           // at depth 2
    NV_LINES_3 = 32768,          // and at depth 3
    NV_PAGE_LINES = 64,          // lines of a page: line n is on page n / NV_PAGE_LINES

    // Families of modules, for format. Later calls find the family in the control record.
    NV_FAMILY_PHASE = 0,         // beside each line a phase byte and 7 bytes of tag
    NV_FAMILY_TAG = 1,           // beside each line 8 bytes of tag: the older modules

    // Each byte that a read of a line gives that was never written. A text may have these bytes too: go by the code.
    NV_BLANK_BYTE = 255,         // FF hex, in all NV_TEXT_LENGTH bytes

    // In the control record. The turn's two are to be read after a recovery that is done.
    NV_DEPTH_AT = 5,             // the depth
    NV_TURN_AT = 664,            // 1 if a page is open, else 0
    NV_TURN_PAGE_AT = 665,       // the open page, 8 bytes, little-endian

    // In the numbers of an answer: three of 8 bytes, little-endian, written whenever `numbers` is of NV_NUMBERS_LENGTH.
    // Another length of it is refused (7) before all else, with nothing written.
    NV_STORES_AT = 0,            // the stores made: 0 with a refusal, but with 27 to 29 and 32 to 34 those of the pending part
    NV_SUM_AT = 8,               // of a done recovery: by how much counters were brought forward
    NV_FIRST_AT = 8,             // of a refusal: the first number of its place, or 0
    NV_SECOND_AT = 16            // of a refusal: the second number of its place, or 0
};

// What a call returns: one of the first three, or NV_REFUSED plus the number of the refusal.
enum {
    NV_DONE = 0,                // the call has done what it says
    NV_BLANK = 1,               // a read of a line that was never written; each byte of the output is NV_BLANK_BYTE
    NV_CUT = 2,                 // the allowance was smaller than the stores needed; it was used up, cache and output stay
    NV_REFUSED = 100,           // nothing was done, but that 27 to 29 and 32 to 34 come after the pending stores of a recovery

    // Numbers of refusals.
    NV_BAD_DEPTH = 1,           // format: the depth is not 1, 2 or 3, or the family not 0 or 1
    NV_BAD_KEYS_LENGTH = 2,     // the keys are not of NV_KEYS_LENGTH
    NV_BAD_CONTROL_LENGTH = 3,  // the control record is not of NV_CONTROL_LENGTH
    NV_BAD_ARRAY_LENGTH = 4,    // the array has not the length of the depth
    NV_BAD_CACHE_LENGTH = 5,    // the cache has not the length of the depth
    NV_BAD_LINE = 6,            // the module has no such line; of a turn: no such page
    NV_BAD_BUFFER_LENGTH = 7,   // text, output, list or numbers have a wrong length

    NV_BAD_CONTROL = 21,        // the control record's mark, depth, a count, a pending cell, the open page or its mask is wrong
    NV_PENDING = 22,            // a batch is pending: recover first
    NV_BAD_CACHE = 23,          // the cache is not one that a call leaves: recover first
    NV_BAD_NODE = 24,           // a counter block or tree node has not its tag; place: level, index
    NV_BAD_DATA = 25,           // a data cell has not its phase or tag, or no text where a turn is to go on; place: line
    NV_WORN = 26,               // the line's counter is at 127: turn its page, then write
    NV_BAD_SHADOW = 27,         // recovery: the shadow lists what no cache holds; place: slot
    NV_BAD_PHASE = 28,          // recovery, with a phase byte: a line's phase is over 3; place: line
    NV_BAD_ROOT = 29,           // recovery: the rebuilt tree has not the module's root
    NV_OPEN_PAGE = 30,          // the line's page is open: finish its turn first; of a turn: another page is open
    NV_WORN_PAGE = 31,          // turn: the page was turned 2^64 - 1 times
    NV_BAD_COUNTER = 32,        // recovery, with a phase byte: it would bring a line's stored counter past 127; place: line
    NV_NO_COUNTER = 33,         // recovery, without a phase byte: a line's data cell fits no counter; place: line
    NV_SEVERAL_COUNTERS = 34    // recovery, without a phase byte: a line's data cell fits several; place: line
};

// Makes the module empty, at a depth from 1 to 3 and of a family, and destroys what it held. Makes no counted store; a power
// failure in it is not covered.
uint32_t nv_format(uint64_t depth, uint64_t family, const uint8_t *keys, uint64_t keys_len, uint8_t *control,
                   uint64_t control_len, uint8_t *array, uint64_t array_len, uint8_t *cache, uint64_t cache_len,
                   uint8_t *numbers, uint64_t numbers_len);

// Reads a line's text into `out`, with at most `allowance` stores. In the field every allowance is UINT64_MAX.
uint32_t nv_read(const uint8_t *keys, uint64_t keys_len, uint8_t *control, uint64_t control_len, uint8_t *array,
                 uint64_t array_len, uint8_t *cache, uint64_t cache_len, uint64_t line, uint8_t *out, uint64_t out_len,
                 uint64_t allowance, uint8_t *numbers, uint64_t numbers_len);

// Writes a line's text, with at most `allowance` stores.
uint32_t nv_write(const uint8_t *keys, uint64_t keys_len, uint8_t *control, uint64_t control_len, uint8_t *array,
                  uint64_t array_len, uint8_t *cache, uint64_t cache_len, uint64_t line, const uint8_t *text,
                  uint64_t text_len, uint64_t allowance, uint8_t *numbers, uint64_t numbers_len);

// Turns a page, with at most `allowance` stores: encrypts its written lines afresh, each with its counter at 1. Texts stay.
// To be called for the page of a line whose write is refused as NV_WORN; the line can then be written 126 times more. Makes
// at most 336 stores. A cut or a power failure in it may leave the page open: recover, then turn the same page again, which
// goes on with the lines that are left. Until then its lines are neither read nor written, and no other page is turned.
uint32_t nv_turn(const uint8_t *keys, uint64_t keys_len, uint8_t *control, uint64_t control_len, uint8_t *array,
                 uint64_t array_len, uint8_t *cache, uint64_t cache_len, uint64_t page, uint64_t allowance,
                 uint8_t *numbers, uint64_t numbers_len);

// Brings the module back after a power failure, whatever the cache then holds, with at most `allowance` stores.
uint32_t nv_recover(const uint8_t *keys, uint64_t keys_len, uint8_t *control, uint64_t control_len, uint8_t *array,
                    uint64_t array_len, uint8_t *cache, uint64_t cache_len, uint64_t allowance, uint8_t *numbers,
                    uint64_t numbers_len);

// Lists the pages whose counter block is dirty in the cache, in rising page number: four numbers of 8 bytes, little-endian,
// spare places after them and all FF hex.
uint32_t nv_dirty_pages(const uint8_t *control, uint64_t control_len, const uint8_t *cache, uint64_t cache_len,
                        uint8_t *list, uint64_t list_len, uint8_t *numbers, uint64_t numbers_len);

// The number in the 8 bytes from `at`, little-endian: nv_number(numbers, NV_STORES_AT), nv_number(control, NV_TURN_PAGE_AT).
static inline uint64_t nv_number(const uint8_t *bytes, uint64_t at)
{
    uint64_t number = 0;
    for (uint64_t i = 8; i > 0; i--)
        number = number << 8 | bytes[at + i - 1];
    return number;
}

// A code in words.
static inline const char *nv_word(uint32_t code)
{
    switch (code) {
    case NV_DONE:
        return "done";
    case NV_BLANK:
        return "blank";
    case NV_CUT:
        return "cut";
    case NV_REFUSED + NV_BAD_DEPTH:
        return "the depth is not 1, 2 or 3, or the family is none";
    case NV_REFUSED + NV_BAD_KEYS_LENGTH:
        return "the keys have a wrong length";
    case NV_REFUSED + NV_BAD_CONTROL_LENGTH:
        return "the control record has a wrong length";
    case NV_REFUSED + NV_BAD_ARRAY_LENGTH:
        return "the array has a wrong length";
    case NV_REFUSED + NV_BAD_CACHE_LENGTH:
        return "the cache has a wrong length";
    case NV_REFUSED + NV_BAD_LINE:
        return "the module has no such line or page";
    case NV_REFUSED + NV_BAD_BUFFER_LENGTH:
        return "text, output, list or numbers have a wrong length";
    case NV_REFUSED + NV_BAD_CONTROL:
        return "the control record is not one";
    case NV_REFUSED + NV_PENDING:
        return "a batch is pending";
    case NV_REFUSED + NV_BAD_CACHE:
        return "the cache is not one that a call leaves";
    case NV_REFUSED + NV_BAD_NODE:
        return "a counter block or tree node has not its tag";
    case NV_REFUSED + NV_BAD_DATA:
        return "the line's data cell has not its phase or tag";
    case NV_REFUSED + NV_WORN:
        return "the line is worn";
    case NV_REFUSED + NV_BAD_SHADOW:
        return "the shadow lists what no cache holds";
    case NV_REFUSED + NV_BAD_PHASE:
        return "the line's phase is over 3";
    case NV_REFUSED + NV_BAD_ROOT:
        return "the rebuilt tree has not the module's root";
    case NV_REFUSED + NV_OPEN_PAGE:
        return "a page is open";
    case NV_REFUSED + NV_WORN_PAGE:
        return "the page was turned 2^64 - 1 times";
    case NV_REFUSED + NV_BAD_COUNTER:
        return "the line's phase would bring its counter past 127";
    case NV_REFUSED + NV_NO_COUNTER:
        return "the line's data cell fits no counter";
    case NV_REFUSED + NV_SEVERAL_COUNTERS:
        return "the line's data cell fits several counters";
    default:
        return "no code of this library";
    }
}

#ifdef __cplusplus
}
#endif

#endif
