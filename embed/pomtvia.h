/* Pomtvia: a data flow tracker for the system calls of a small box, for programs in C.
 *
 * Link it with libhook.a, which `tools/archive` writes to target/staticlib/. The functions are proved; their contracts are in
 * crates/hook/src/. What each promises is said here in words. Nothing is allocated and nothing is kept between calls: all state lies in
 * a `struct pomtvia_monitor` that the caller owns.
 *
 * Answers and states are those of document 01, with Papers 1 to 5 of document 02, for every monitor in which no loaded rule is broken;
 * pomtvia_new makes such a one, and every function leaves it so. Any other bytes are safe too: every function ends and stays within its
 * memory, refusals are right, and a refused or inhibited call leaves every byte of every field as it was.
 *
 * What the caller sees to, since nothing checks it:
 *   - a monitor is made by pomtvia_new before any other function gets it.
 *   - a pointer that is passed points to as many elements as the function is told, which nothing else reads or writes during the call,
 *     and the monitor, the log and what is written to do not overlap. An empty log may be NULL.
 *   - two calls on one monitor do not run at the same time.
 */
#ifndef POMTVIA_H
#define POMTVIA_H

#include <stddef.h>
#include <stdint.h>

#ifdef __cplusplus
extern "C" {
#define POMTVIA_STATIC_ASSERT static_assert
#else
#define POMTVIA_STATIC_ASSERT _Static_assert
#endif

/* ---- numbers (document 01, The box) */

#define POMTVIA_CONTAINERS 64     /* container numbers are 0 to 63 */
#define POMTVIA_DEVICES 8         /* 0 to 7 */
#define POMTVIA_FIRST_PROCESS 8   /* process p is container 8 + p */
#define POMTVIA_PROCESSES 16      /* 0 to 15 */
#define POMTVIA_FIRST_FILE 24     /* files and pipes are 24 to 63 */
#define POMTVIA_ITEMS 64          /* item numbers are 0 to 63 */
#define POMTVIA_NAMES 128         /* file names are 0 to 127 */
#define POMTVIA_DESCRIPTORS 32    /* 0 to 31 in each process */
#define POMTVIA_RULES 32          /* rule numbers are 0 to 31 */
#define POMTVIA_MAPPINGS 255      /* the most mappings of each sort that a process has of a container */

#define POMTVIA_NETWORK 0
#define POMTVIA_PANEL 1
#define POMTVIA_RADIO 2
#define POMTVIA_PORT 3

/* ---- records (document 01, The records): a tag byte, a two-byte length, high byte first, and the value */

#define POMTVIA_TAG_CALL 0x10     /* length 5: kind, process, a, b, c */
#define POMTVIA_TAG_FORBID 0x11   /* length 11: item, eight bytes of a set, action, substitute */
#define POMTVIA_TAG_SEPARATE 0x12 /* length 4: two items, action, substitute */
#define POMTVIA_TAG_CONFINE 0x13  /* length 11, as 0x11 */
#define POMTVIA_RECORD_MAX 14     /* bytes of the longest record that is accepted */
#define POMTVIA_LOG_MAX 65536     /* bytes of the longest log that the program takes; the library takes any */

/* the most records that n bytes can hold */
#define POMTVIA_RECORDS_IN(n) (((n) + 2) / 3)

enum pomtvia_kind {
    POMTVIA_START = 1,
    POMTVIA_OPEN = 2,
    POMTVIA_CREATE = 3,
    POMTVIA_PIPE = 4,
    POMTVIA_DEVICE = 5,
    POMTVIA_DUP = 6,
    POMTVIA_CLOSE = 7,
    POMTVIA_READ = 8,
    POMTVIA_WRITE = 9,
    POMTVIA_TRUNCATE = 10,
    POMTVIA_MAP_READ = 11,
    POMTVIA_MAP_BOTH = 12,
    POMTVIA_UNMAP = 13, /* field a: a container; field b: the sort of mapping that loses one, an enum pomtvia_sort */
    POMTVIA_UNLINK = 14,
    POMTVIA_RENAME = 15,
    POMTVIA_LINK = 16,
    POMTVIA_FORK = 17,
    POMTVIA_EXIT = 18,
    POMTVIA_LABEL = 19
};

/* The sorts of mapping (document 02, Paper 4). A process has two counts of mappings with each container: POMTVIA_MAP_READ raises the first,
 * POMTVIA_MAP_BOTH the second alone, and POMTVIA_UNMAP lowers the one that it names. What comes to the container comes to the process while
 * either count is above 0, and what comes to the process comes to the container while the second is. A fork copies the counts, an exit
 * clears them. */
enum pomtvia_sort {
    POMTVIA_MAPPED_READ = 0, /* for reading */
    POMTVIA_MAPPED_BOTH = 1  /* both ways */
};

/* ---- answers (document 01, What a record gets) */

/* An answer is one number. Its lowest byte is the word; the next is the rule's or the refusal's number; the next the substitute; the top
 * one how many containers gained (document 02, Paper 5). An allowed call's answer is 0 only where no container gained: compare its
 * POMTVIA_WORD, not the number itself. */
#define POMTVIA_WORD(answer) ((answer) & 0xFFu)
#define POMTVIA_NUMBER(answer) (((answer) >> 8) & 0xFFu)
#define POMTVIA_SUBSTITUTE(answer) (((answer) >> 16) & 0xFFu)
#define POMTVIA_GAINED(answer) (((answer) >> 24) & 0xFFu)

/* A part that a word's comment does not name is 0. A container gained if it holds after the call an item that it lacked before. Each is
 * counted once, so GAINED is at most POMTVIA_CONTAINERS. */
enum pomtvia_word {
    POMTVIA_ALLOW = 0,   /* the call's change is made; GAINED containers now hold an item that they lacked before */
    POMTVIA_INHIBIT = 1, /* nothing changed; NUMBER is the lowest broken rule. A kernel turns it into EPERM */
    POMTVIA_MODIFY = 2,  /* the write went to SUBSTITUTE instead; NUMBER is the lowest broken rule; GAINED is of the write to SUBSTITUTE */
    POMTVIA_RULE = 3,    /* the rule is loaded; NUMBER is its number */
    POMTVIA_REFUSED = 4  /* nothing changed; NUMBER is the refusal's */
};

/* The tests of a record are tried in the order of this list, and the first that applies is the answer: the earliest place decides, not the
 * lowest number. 14 to 16 stand in 8's place (document 02, Paper 2), and 17 after 10 (Paper 4). POMTVIA_SLICE_SHORT is for queries and
 * pomtvia_run. */
enum pomtvia_refusal {
    POMTVIA_CUT_SHORT = 1,
    POMTVIA_UNKNOWN_TAG = 2,
    POMTVIA_WRONG_LENGTH = 3,
    POMTVIA_UNKNOWN_KIND = 4,
    POMTVIA_OUT_OF_RANGE = 5,
    POMTVIA_DEAD_PROCESS = 6,
    POMTVIA_TAKEN = 7,
    POMTVIA_MISSING = 8,            /* a label's container is not in use */
    POMTVIA_DESCRIPTOR_CLOSED = 14, /* field a of dup, close, read, write, truncate, map read, map both */
    POMTVIA_NAME_UNBOUND = 15,      /* field a of open, unlink, rename, link */
    POMTVIA_NO_LINK = 16,           /* the process has no mapping of the container to unmap, of the sort that field b names */
    POMTVIA_SAME_TWICE = 9,
    POMTVIA_NO_FILE = 10,
    POMTVIA_COUNT_FULL = 17,        /* the count that a map read or map both would raise is at 255 */
    POMTVIA_RULES_FULL = 11,
    POMTVIA_BROKEN_ALREADY = 12,
    POMTVIA_SLICE_SHORT = 13
};

/* ---- the state: which items lie where, mappings, descriptors, names, rules. Its fields are the library's own. The 7
 * bytes behind the last field stand for nothing and may change. */

struct pomtvia_monitor {
    uint64_t words[353];
    uint8_t descriptors[512];
    uint8_t names[128];
    uint64_t sets[32];
    uint8_t fields[129];
};

#define POMTVIA_MONITOR_BYTES 3856
POMTVIA_STATIC_ASSERT(sizeof(struct pomtvia_monitor) == POMTVIA_MONITOR_BYTES, "the library's Monitor has 3,856 bytes");
POMTVIA_STATIC_ASSERT(offsetof(struct pomtvia_monitor, words) == 0, "the words stand first");
POMTVIA_STATIC_ASSERT(offsetof(struct pomtvia_monitor, descriptors) == 2824, "descriptors are behind 353 words");
POMTVIA_STATIC_ASSERT(offsetof(struct pomtvia_monitor, names) == 3336, "names are behind 512 descriptors");
POMTVIA_STATIC_ASSERT(offsetof(struct pomtvia_monitor, sets) == 3464, "the rules' sets are behind the tracker's 3,464 bytes");
POMTVIA_STATIC_ASSERT(offsetof(struct pomtvia_monitor, fields) == 3720, "the rules' fields stand last");

/* ---- functions on a monitor */

/* Makes a fresh monitor: no live process, no rules, no items anywhere, no mappings, every descriptor closed, every name unbound. */
void pomtvia_new(struct pomtvia_monitor *m);

/* What a call gets: its answer, whose POMTVIA_WORD says whether it is made. The monitor holds the state after it, worked out where it lies.
 * A refused or inhibited call leaves every byte of every field as it was. */
uint32_t pomtvia_call(struct pomtvia_monitor *m, uint8_t kind, uint8_t process, uint8_t a, uint8_t b, uint8_t c);

/* The hook of document 01, as pomtvia_call: the monitor is copied, worked on and stored back. */
uint32_t pomtvia_on_call(struct pomtvia_monitor *m, uint8_t kind, uint8_t process, uint8_t a, uint8_t b, uint8_t c);

/* The items of a container: 0, and *set has bit i where the container may hold item i. POMTVIA_OUT_OF_RANGE where the number is above 63;
 * then *set is as it was. */
uint8_t pomtvia_items(const struct pomtvia_monitor *m, uint8_t container, uint64_t *set);

/* The place after the record that begins at a place of a log, whole or cut short; the place itself at the log's end or behind it. */
size_t pomtvia_next(const uint8_t *log, size_t length, size_t at);

/* ---- functions of the archive that the inline functions below call, which take NULL for what is empty; these do not */

uint32_t pomtvia_answer_in(struct pomtvia_monitor *m, const uint8_t *bytes, size_t length);
uint8_t pomtvia_run_in(struct pomtvia_monitor *m, const uint8_t *log, size_t length, uint32_t *codes, size_t room, uint64_t *count);
uint8_t pomtvia_holders_in(const struct pomtvia_monitor *m, uint8_t item, uint16_t *out, size_t room, uint64_t *count);

/* What the record at the front of the bytes gets: a call, or a rule to load. Too few bytes are POMTVIA_CUT_SHORT. Bytes behind the record
 * are not looked at. A refused or inhibited record leaves every byte of every field as it was. */
static inline uint32_t pomtvia_answer(struct pomtvia_monitor *m, const uint8_t *bytes, size_t length)
{
    static const uint8_t none[1] = {0};
    return pomtvia_answer_in(m, bytes ? bytes : none, bytes ? length : 0);
}

/* Answers the records of a log in order, each on the monitor as the one before left it. 0: the answers stand at the front of `answers`,
 * *count is their number, and the elements behind them are as they were. POMTVIA_SLICE_SHORT: there is room for fewer answers than the log
 * has records; the monitor, `answers` and *count are as they were. POMTVIA_RECORDS_IN(length) is always room enough. */
static inline uint8_t pomtvia_run(struct pomtvia_monitor *m, const uint8_t *log, size_t length, uint32_t *answers, size_t room, uint64_t *count)
{
    static const uint8_t none[1] = {0};
    uint32_t nowhere[1] = {0};
    return pomtvia_run_in(m, log ? log : none, log ? length : 0, answers ? answers : nowhere, answers ? room : 0, count);
}

/* The containers that hold an item: 0, *count is how many, and their numbers stand at the front of `out`, each once, in rising order.
 * POMTVIA_OUT_OF_RANGE where the item is above 63, POMTVIA_SLICE_SHORT where there is room for fewer; then `out` and *count are as they
 * were. The elements behind the numbers always are. 64 is always room enough. */
static inline uint8_t pomtvia_holders(const struct pomtvia_monitor *m, uint8_t item, uint16_t *out, size_t room, uint64_t *count)
{
    uint16_t nowhere[1] = {0};
    return pomtvia_holders_in(m, item, out ? out : nowhere, out ? room : 0, count);
}

#ifdef __cplusplus
}
#endif

#endif
