/* Monitors of any bytes, by what pomtvia.h promises of them: every function ends and stays within its memory, the ways of a call refuse the
 * same and with a number that fits the kind, a refused or inhibited call leaves every field as it was, mappings are counted up to 255, the
 * two queries agree, and where no rule is broken a call tells how many containers gained. The argument is how many monitors are tried.
 * Writes how many calls were refused, inhibited and passed, how many got each number of a refusal, and by how many of those that passed no
 * container gained, one, or more; status 1 with a line where a promise is broken. */
#include <stdio.h>
#include <stdlib.h>
#include <string.h>

#include "pomtvia.h"

enum { GUARD = 64, CODES = 24, LOG = 64, FIELDS = offsetof(struct pomtvia_monitor, fields) + 129 };
enum { ITEMS_AT = 1, MAPPED_AT = 65, COUNTS_AT = 97, WORDS = 353 }; /* where the words have items, who maps what, and counts */
enum { COUNTED = 16 }; /* of so many monitors two have their counts gone through */
enum { GIVEN = 12 };   /* calls in a row whose gain is looked at */

/* `modify 0 3 1` (document 02, Paper 5) */
_Static_assert(POMTVIA_WORD(0x01030002u) == POMTVIA_MODIFY && POMTVIA_NUMBER(0x01030002u) == 0, "the two lowest bytes");
_Static_assert(POMTVIA_SUBSTITUTE(0x01030002u) == 3 && POMTVIA_GAINED(0x01030002u) == 1, "the two highest bytes");

/* What a function is lent, with bytes around it that it must leave. */
struct lent {
    uint8_t before[GUARD];
    struct pomtvia_monitor monitor;
    uint8_t between[GUARD];
    uint32_t codes[CODES];
    uint8_t beside[GUARD];
    uint16_t out[POMTVIA_CONTAINERS];
    uint8_t after[GUARD];
};

static uint64_t seed = 88172645463325252u;
static unsigned long refused, inhibited, passed;
static unsigned long numbers[256]; /* calls refused with each number */
static unsigned long gains[3][3];  /* calls by word, and by whether no container gained, one, or more */

static uint64_t any(void)
{
    seed ^= seed << 13;
    seed ^= seed >> 7;
    seed ^= seed << 17;
    return seed;
}

static uint8_t below(unsigned n)
{
    return (uint8_t)(any() % n);
}

static void must(int holds, const char *what)
{
    if (!holds) {
        printf("broken: %s\n", what);
        exit(1);
    }
}

static int guarded(const struct lent *l)
{
    uint8_t kept[GUARD];
    memset(kept, 0xA5, GUARD);
    return !memcmp(l->before, kept, GUARD) && !memcmp(l->between, kept, GUARD) && !memcmp(l->beside, kept, GUARD)
           && !memcmp(l->after, kept, GUARD);
}

/* Any bytes; every second monitor has live processes, few items, counts of 1 and of 255 among others, and descriptors and names that lead
 * somewhere, so that calls are made. */
static void fill(struct pomtvia_monitor *m, int likely)
{
    uint8_t *bytes = (uint8_t *)m;
    for (size_t k = 0; k < sizeof *m; k++)
        bytes[k] = below(256);
    if (!likely)
        return;
    m->words[0] |= any();
    for (size_t k = ITEMS_AT; k < MAPPED_AT; k++)
        m->words[k] &= any() & any() & any();
    for (size_t k = MAPPED_AT; k < COUNTS_AT; k++)
        m->words[k] &= any();
    for (size_t k = COUNTS_AT; k < WORDS; k++)
        m->words[k] = below(3) == 0 ? 0 : below(2) ? 0xFFFFFFFFFFFFFFFFu : m->words[k];
    for (size_t k = 0; k < sizeof m->descriptors; k++)
        m->descriptors[k] = below(4) ? below(POMTVIA_CONTAINERS) : 255;
    for (size_t k = 0; k < sizeof m->names; k++)
        m->names[k] = below(4) ? below(POMTVIA_CONTAINERS) : 255;
    for (size_t k = 0; k < 32; k++)
        m->sets[k] &= any() & any();
    m->fields[128] = below(2) ? below(4) : below(256);
}

static int is_refused(uint32_t answer)
{
    return POMTVIA_WORD(answer) == POMTVIA_REFUSED;
}

static int is_allowed(uint32_t answer)
{
    return POMTVIA_WORD(answer) == POMTVIA_ALLOW;
}

/* Whether the call is made, or a write instead of it. */
static int is_made(uint32_t answer)
{
    return is_allowed(answer) || POMTVIA_WORD(answer) == POMTVIA_MODIFY;
}

/* Whether the count is one of containers, and 0 where no call is made. */
static int counts_containers(uint32_t answer)
{
    return POMTVIA_GAINED(answer) <= (is_made(answer) ? POMTVIA_CONTAINERS : 0);
}

/* Whether a call of a kind can be refused with a number: the number tells what was missing. */
static int can_get(unsigned kind, unsigned number)
{
    switch (number) {
    case POMTVIA_MISSING:
        return kind == POMTVIA_LABEL;
    case POMTVIA_DESCRIPTOR_CLOSED:
        return kind >= POMTVIA_DUP && kind <= POMTVIA_MAP_BOTH;
    case POMTVIA_NAME_UNBOUND:
        return kind == POMTVIA_OPEN || (kind >= POMTVIA_UNLINK && kind <= POMTVIA_LINK);
    case POMTVIA_NO_LINK:
        return kind == POMTVIA_UNMAP;
    case POMTVIA_COUNT_FULL:
        return kind == POMTVIA_MAP_READ || kind == POMTVIA_MAP_BOTH;
    default:
        return number >= POMTVIA_UNKNOWN_KIND && number <= POMTVIA_NO_FILE;
    }
}

/* One call in each way. */
static void check_call(struct lent *l, const struct pomtvia_monitor *was)
{
    uint8_t r[8] = {POMTVIA_TAG_CALL, 0, 5, below(21), below(17), below(33), 0, 0};
    uint32_t answers[3];
    /* most kinds take fields that are 0 */
    if (below(3) == 0)
        r[6] = below(33);
    if (below(4) == 0)
        r[7] = below(65);
    if (r[3] == POMTVIA_LABEL && below(2))
        r[4] = 0;
    if (below(8) == 0) {
        r[3] = (uint8_t)(POMTVIA_MAP_READ + below(3));
        r[6] = r[7] = 0;
    }
    if (r[3] == POMTVIA_UNMAP)
        r[6] = below(3);
    for (int way = 0; way < 3; way++) {
        struct pomtvia_monitor *m = &l->monitor;
        memcpy(m, was, sizeof *m);
        answers[way] = way == 0   ? pomtvia_call(m, r[3], r[4], r[5], r[6], r[7])
                       : way == 1 ? pomtvia_on_call(m, r[3], r[4], r[5], r[6], r[7])
                                  : pomtvia_answer(m, r, sizeof r);
        unsigned word = POMTVIA_WORD(answers[way]);
        must(word <= POMTVIA_MODIFY || word == POMTVIA_REFUSED, "a call gets a word of its own");
        if (word == POMTVIA_REFUSED || word == POMTVIA_INHIBIT)
            must(!memcmp(m, was, FIELDS), "a stopped call leaves every field");
        must(!is_refused(answers[0]) || answers[way] == answers[0], "a call is refused alike");
        must(is_refused(answers[0]) == is_refused(answers[way]), "a call is refused in every way");
        must(guarded(l), "a call stays within the monitor");
        must(counts_containers(answers[way]), "a call counts containers, and none where it is stopped");
        unsigned number = POMTVIA_NUMBER(answers[way]);
        must(word != POMTVIA_REFUSED || can_get(r[3], number), "a call is refused with a number that fits its kind");
        numbers[number] += word == POMTVIA_REFUSED;
        refused += word == POMTVIA_REFUSED;
        inhibited += word == POMTVIA_INHIBIT;
        passed += word == POMTVIA_ALLOW || word == POMTVIA_MODIFY;
    }
}

/* A call of process p with field b 0 or a sort, and c 0. */
static uint32_t asked(struct pomtvia_monitor *m, unsigned kind, uint8_t p, uint8_t a, uint8_t b)
{
    return pomtvia_call(m, (uint8_t)kind, p, a, b, 0);
}

static uint32_t refused_with(unsigned number)
{
    return POMTVIA_REFUSED | number << 8;
}

/* Unmaps until no mapping of the sort is left: how many there were. */
static unsigned unmapped(struct pomtvia_monitor *m, uint8_t p, uint8_t c, uint8_t sort)
{
    unsigned n = 0;
    uint32_t answer;
    while (is_allowed(answer = asked(m, POMTVIA_UNMAP, p, c, sort)))
        must(++n <= POMTVIA_MAPPINGS, "no bytes count more than 255");
    must(answer == refused_with(POMTVIA_NO_LINK), "an unmap is refused where no mapping of its sort is left");
    return n;
}

/* The same on a copy: the monitor is as it was. */
static unsigned counted(const struct pomtvia_monitor *m, uint8_t p, uint8_t c, uint8_t sort)
{
    struct pomtvia_monitor copy = *m;
    return unmapped(&copy, p, c, sort);
}

/* A mapping more than the count can have: refused, and every field is as it was. */
static void check_full(struct pomtvia_monitor *m, unsigned kind, uint8_t p, uint8_t d)
{
    struct pomtvia_monitor copy = *m;
    must(asked(m, kind, p, d, 0) == refused_with(POMTVIA_COUNT_FULL), "a mapping is refused where the count is at 255");
    must(!memcmp(m, &copy, FIELDS), "a refused mapping leaves every field");
}

/* The two counts of a process and a container that a descriptor leads to: one goes from none to 255 while the other stays; a fork copies
 * both. No rule is loaded, so that nothing is inhibited. */
static void check_counts(struct lent *l, const struct pomtvia_monitor *was)
{
    struct pomtvia_monitor *m = &l->monitor;
    uint8_t p = below(POMTVIA_PROCESSES), child = (uint8_t)((p + 1 + below(POMTVIA_PROCESSES - 1)) % POMTVIA_PROCESSES);
    uint8_t d = below(POMTVIA_DESCRIPTORS), c = below(POMTVIA_DEVICES), item = below(POMTVIA_ITEMS);
    uint8_t sort = below(2), other = (uint8_t)(1 - sort);
    unsigned kind = sort == POMTVIA_MAPPED_READ ? POMTVIA_MAP_READ : POMTVIA_MAP_BOTH;
    uint64_t set = 0;
    if (below(2))
        c = (uint8_t)(POMTVIA_FIRST_FILE + below(POMTVIA_CONTAINERS - POMTVIA_FIRST_FILE));
    memcpy(m, was, sizeof *m);
    m->fields[128] = 0;
    m->words[0] = (m->words[0] | 1u << p) & ~((uint64_t)1 << child);
    m->descriptors[POMTVIA_DESCRIPTORS * p + d] = c;
    unsigned others = counted(m, p, c, other);
    unmapped(m, p, c, sort);
    for (unsigned n = 0; n < POMTVIA_MAPPINGS; n++)
        must(is_allowed(asked(m, kind, p, d, 0)), "255 mappings of a sort are allowed");
    check_full(m, kind, p, d);
    must(is_allowed(asked(m, POMTVIA_UNMAP, p, c, sort)), "one mapping less");
    must(is_allowed(asked(m, POMTVIA_LABEL, 0, c, item)), "a label");
    must(!pomtvia_items(m, (uint8_t)(POMTVIA_FIRST_PROCESS + p), &set) && set >> item & 1, "the item comes to the process all the same");
    must(is_allowed(asked(m, kind, p, d, 0)), "one mapping more");
    check_full(m, kind, p, d);
    must(is_allowed(asked(m, POMTVIA_FORK, p, child, 0)), "a fork");
    check_full(m, kind, child, d);
    must(counted(m, p, c, other) == others && counted(m, child, c, other) == others, "the other count is as it was");
    must(unmapped(m, child, c, sort) == POMTVIA_MAPPINGS && unmapped(m, p, c, sort) == POMTVIA_MAPPINGS, "each counts its own");
    must(guarded(l), "calls that count stay within the monitor");
}

/* What every container holds. */
static void held(const struct pomtvia_monitor *m, uint64_t *sets)
{
    for (unsigned c = 0; c < POMTVIA_CONTAINERS; c++)
        must(pomtvia_items(m, (uint8_t)c, &sets[c]) == 0, "items of a container");
}

/* How many containers hold an item that they lacked. */
static unsigned gained(const struct pomtvia_monitor *m, const uint64_t *before)
{
    uint64_t after[POMTVIA_CONTAINERS];
    unsigned n = 0;
    held(m, after);
    for (unsigned c = 0; c < POMTVIA_CONTAINERS; c++)
        n += (after[c] & ~before[c]) != 0;
    return n;
}

/* Fewer links and other items, so that calls reach some containers and some of these gain; no rule. */
static void thin(struct pomtvia_monitor *m)
{
    unsigned links = below(6), items = below(4);
    for (size_t k = MAPPED_AT; k < COUNTS_AT; k++)
        for (unsigned n = 0; n < links; n++)
            m->words[k] &= any();
    for (unsigned c = 0; c < POMTVIA_CONTAINERS; c++) {
        uint64_t *set = &m->words[ITEMS_AT + c];
        for (unsigned n = 0; n < items; n++)
            *set &= any();
        if (below(4) == 0)
            *set = below(2) ? 0 : 0xFFFFFFFFFFFFFFFFu;
    }
    m->fields[128] = 0;
}

/* Process p is given an item, and a rule forbids it where descriptor d of the process leads. Most of these rules divert. */
static void forbid(struct pomtvia_monitor *m, uint8_t p, uint8_t d)
{
    uint8_t c = m->descriptors[POMTVIA_DESCRIPTORS * p + d], item = below(POMTVIA_ITEMS), other = below(POMTVIA_DEVICES);
    uint8_t r[POMTVIA_RECORD_MAX] = {POMTVIA_TAG_FORBID, 0, 11, item};
    if (c >= POMTVIA_CONTAINERS)
        return;
    if (below(2))
        other = (uint8_t)(POMTVIA_FIRST_FILE + below(POMTVIA_CONTAINERS - POMTVIA_FIRST_FILE));
    m->words[ITEMS_AT + POMTVIA_FIRST_PROCESS + p] |= (uint64_t)1 << item;
    m->words[ITEMS_AT + c] &= ~((uint64_t)1 << item);
    r[4 + 7 - c / 8] = (uint8_t)(1 << c % 8);
    r[12] = below(4) != 0;
    r[13] = r[12] ? other : 0;
    uint32_t answer = pomtvia_answer(m, r, sizeof r);
    must(POMTVIA_WORD(answer) == POMTVIA_RULE || answer == refused_with(POMTVIA_BROKEN_ALREADY), "a rule is loaded or broken already");
    must(counts_containers(answer), "a rule counts no container");
}

/* A call that may give something, or any. */
static void ask(uint8_t *q, uint8_t p, uint8_t d)
{
    static const uint8_t giving[] = {POMTVIA_READ, POMTVIA_WRITE, POMTVIA_MAP_READ, POMTVIA_MAP_BOTH, POMTVIA_FORK, POMTVIA_LABEL};
    unsigned kind = below(4) ? giving[below(sizeof giving)] : 1u + below(19);
    memset(q, 0, 5);
    q[0] = (uint8_t)kind;
    q[1] = kind == POMTVIA_LABEL ? 0 : p;
    if (kind != POMTVIA_START && kind != POMTVIA_EXIT)
        q[2] = kind == POMTVIA_LABEL ? below(POMTVIA_CONTAINERS) : kind == POMTVIA_FORK ? below(POMTVIA_PROCESSES) : d;
    if (kind == POMTVIA_LABEL || kind == POMTVIA_CREATE || kind == POMTVIA_RENAME)
        q[3] = below(POMTVIA_DESCRIPTORS);
    if (kind == POMTVIA_CREATE)
        q[4] = (uint8_t)(POMTVIA_FIRST_FILE + below(POMTVIA_CONTAINERS - POMTVIA_FIRST_FILE));
}

/* Calls in a row where no rule is broken: in every way they tell how many containers gained, by the items before and after. */
static void check_gains(struct lent *l, const struct pomtvia_monitor *was)
{
    struct pomtvia_monitor *m = &l->monitor, before;
    uint64_t sets[POMTVIA_CONTAINERS];
    uint8_t writer = below(POMTVIA_PROCESSES), d = below(POMTVIA_DESCRIPTORS);
    memcpy(m, was, sizeof *m);
    m->words[0] |= 1u << writer;
    thin(m);
    for (unsigned n = below(4); n > 0; n--)
        forbid(m, writer, d);
    for (int k = 0; k < GIVEN; k++) {
        uint8_t r[8] = {POMTVIA_TAG_CALL, 0, 5};
        ask(r + 3, below(2) ? writer : below(POMTVIA_PROCESSES), below(2) ? d : below(POMTVIA_DESCRIPTORS));
        if (k == 0)
            memcpy(r + 3, (uint8_t[]){POMTVIA_WRITE, writer, d, 0, 0}, 5);
        before = *m;
        held(m, sets);
        for (int way = 0; way < 3; way++) {
            *m = before;
            uint32_t answer = way == 0   ? pomtvia_answer(m, r, sizeof r)
                              : way == 1 ? pomtvia_on_call(m, r[3], r[4], r[5], r[6], r[7])
                                         : pomtvia_call(m, r[3], r[4], r[5], r[6], r[7]);
            unsigned n = POMTVIA_GAINED(answer);
            must(counts_containers(answer), "a call counts containers, and none where it is stopped");
            must(n == gained(m, sets), "a call tells how many containers gained");
            if (is_made(answer))
                gains[POMTVIA_WORD(answer)][n > 1 ? 2 : n]++;
        }
    }
    must(guarded(l), "calls that give stay within the monitor");
}

/* Any log: bytes, or records of the tags. */
static void check_log(struct lent *l, const struct pomtvia_monitor *was)
{
    uint8_t log[LOG];
    size_t records = 0;
    for (size_t k = 0; k < LOG; k++)
        log[k] = below(40);
    int records_too = below(2);
    for (size_t at = 0; records_too && at + POMTVIA_RECORD_MAX <= LOG; at += 8) {
        uint8_t tag = (uint8_t)(POMTVIA_TAG_CALL + below(4));
        log[at] = tag;
        log[at + 1] = 0;
        log[at + 2] = tag == POMTVIA_TAG_CALL ? 5 : tag == POMTVIA_TAG_SEPARATE ? 4 : 11;
    }
    for (size_t at = 0; at < LOG; at = pomtvia_next(log, LOG, at))
        records++;
    for (size_t room = records ? records - 1 : 0; room <= CODES; room++) {
        uint64_t count = 999;
        memcpy(&l->monitor, was, sizeof *was);
        memset(l->codes, 0xEE, sizeof l->codes);
        uint8_t refusal = pomtvia_run(&l->monitor, log, LOG, l->codes, room, &count);
        must(refusal == (room < records ? POMTVIA_SLICE_SHORT : 0), "a log is refused for its room alone");
        must(count == (refusal ? 999 : records), "a log has an answer for each record");
        must(!refusal || !memcmp(&l->monitor, was, FIELDS), "a refused log leaves every field");
        for (size_t k = 0; !refusal && k < records; k++)
            must(counts_containers(l->codes[k]), "a log's answers count containers, and none where nothing is made");
        for (size_t k = refusal ? 0 : records; k < CODES; k++)
            must(l->codes[k] == 0xEEEEEEEEu, "codes behind the answers are as they were");
        must(guarded(l), "a log stays within the monitor and the codes");
    }
}

static void lend(struct lent *l)
{
    for (unsigned k = 0; k < POMTVIA_CONTAINERS; k++)
        l->out[k] = 999;
}

/* The elements of the slice from k on are as they were lent. */
static void check_lent(const struct lent *l, uint64_t k)
{
    for (; k < POMTVIA_CONTAINERS; k++)
        must(l->out[k] == 999, "elements that the query does not write");
}

/* A query for holders that is refused with n leaves all that it was lent. */
static void check_refused(struct lent *l, unsigned i, size_t room, uint8_t n)
{
    uint64_t count = 999;
    lend(l);
    uint8_t refusal = pomtvia_holders(&l->monitor, (uint8_t)i, l->out, room, &count);
    must(refusal == n && count == 999, "a refused query for holders");
    check_lent(l, 0);
}

/* The holders of item i, by the sets of all containers: in rising number; with a slice that is one too short, 13. */
static void check_holders(struct lent *l, const uint64_t *sets, unsigned i)
{
    uint64_t count = 999, listed = 0;
    lend(l);
    uint8_t refusal = pomtvia_holders(&l->monitor, (uint8_t)i, l->out, POMTVIA_CONTAINERS, &count);
    must(refusal == 0 && count <= POMTVIA_CONTAINERS, "holders of an item");
    for (unsigned c = 0; c < POMTVIA_CONTAINERS; c++)
        if (sets[c] >> i & 1)
            must(listed < count && l->out[listed++] == c, "the queries agree, holders in rising number");
    must(listed == count, "no more holders than the sets have");
    check_lent(l, count);
    if (count > 0)
        check_refused(l, i, count - 1, POMTVIA_SLICE_SHORT);
}

/* The queries on the bytes themselves. */
static void check_queries(struct lent *l, const struct pomtvia_monitor *was)
{
    uint64_t sets[POMTVIA_CONTAINERS + 1];
    memcpy(&l->monitor, was, sizeof *was);
    for (unsigned c = 0; c <= POMTVIA_CONTAINERS; c++) {
        uint8_t refusal = pomtvia_items(&l->monitor, (uint8_t)c, &sets[c]);
        must(refusal == (c < POMTVIA_CONTAINERS ? 0 : POMTVIA_OUT_OF_RANGE), "items of a container");
    }
    for (unsigned i = 0; i < POMTVIA_ITEMS; i++) {
        check_holders(l, sets, i);
        check_refused(l, POMTVIA_ITEMS + i, 0, POMTVIA_OUT_OF_RANGE);
        check_refused(l, POMTVIA_ITEMS + i, POMTVIA_CONTAINERS, POMTVIA_OUT_OF_RANGE);
    }
    must(!memcmp(&l->monitor, was, sizeof *was) && guarded(l), "a query changes nothing");
}

int main(int argc, char **argv)
{
    long tries = argc > 1 ? atol(argv[1]) : 1000;
    struct lent *l = malloc(sizeof *l);
    struct pomtvia_monitor *was = malloc(sizeof *was);
    if (!l || !was)
        return 2;
    memset(l, 0xA5, sizeof *l);
    for (long k = 0; k < tries; k++) {
        fill(was, k % 2 == 1);
        for (int call = 0; call < 8; call++)
            check_call(l, was);
        check_log(l, was);
        if (k % COUNTED < 2)
            check_counts(l, was);
        check_gains(l, was);
        check_queries(l, was);
        memcpy(&l->monitor, was, sizeof *was);
        pomtvia_new(&l->monitor);
        must(guarded(l), "a fresh monitor stays within its memory");
        for (size_t f = 0; f < FIELDS; f++) {
            int closed = f >= offsetof(struct pomtvia_monitor, descriptors) && f < offsetof(struct pomtvia_monitor, sets);
            must(((uint8_t *)&l->monitor)[f] == (closed ? 255 : 0), "a fresh monitor has nothing, whatever was there");
        }
    }
    printf("refused %lu inhibited %lu passed %lu\n", refused, inhibited, passed);
    for (unsigned number = 0; number < 256; number++)
        if (numbers[number])
            printf("with %u: %lu\n", number, numbers[number]);
    for (unsigned word = POMTVIA_ALLOW; word <= POMTVIA_MODIFY; word += POMTVIA_MODIFY - POMTVIA_ALLOW)
        printf("%s: gained by none %lu, by one %lu, by more %lu\n", word == POMTVIA_ALLOW ? "allow" : "modify", gains[word][0], gains[word][1], gains[word][2]);
    free(l);
    free(was);
    return 0;
}
