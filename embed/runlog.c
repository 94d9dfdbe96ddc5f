/* Runs a log as the program runlog does, through the library: standard input is the log, a line is written for each record. With the word
 * "hook" calls go through pomtvia_on_call, with "records" one record after the other is answered, with nothing the whole log at once. All
 * three write the same. Then two queries: with "items" or "holders" the answers for every number after the log. */
#include <inttypes.h>
#include <stdio.h>
#include <string.h>

#include "pomtvia.h"

static uint8_t input[POMTVIA_LOG_MAX + 1];
static uint32_t answers[POMTVIA_RECORDS_IN(POMTVIA_LOG_MAX)];
static struct pomtvia_monitor monitor;

static void print_answer(uint32_t answer)
{
    static const char *const words[] = {"allow", "inhibit", "modify", "rule", "refused"};
    unsigned word = POMTVIA_WORD(answer);
    fputs(words[word], stdout);
    if (word != POMTVIA_ALLOW)
        printf(" %u", (unsigned)POMTVIA_NUMBER(answer));
    if (word == POMTVIA_MODIFY)
        printf(" %u", (unsigned)POMTVIA_SUBSTITUTE(answer));
    if (word == POMTVIA_ALLOW || word == POMTVIA_MODIFY)
        printf(" %u", (unsigned)POMTVIA_GAINED(answer));
    putchar('\n');
}

/* The whole log at once. */
static int run_log(size_t length, int print)
{
    uint64_t count = 0;
    uint8_t refusal = pomtvia_run(&monitor, input, length, answers, sizeof answers / sizeof *answers, &count);
    if (refusal != 0) {
        fprintf(stderr, "runlog: pomtvia_run refused with %u\n", (unsigned)refusal);
        return 1;
    }
    for (uint64_t k = 0; print && k < count; k++)
        print_answer(answers[k]);
    return 0;
}

/* A whole call of the tag 10 hex. */
static int is_call(const uint8_t *record, size_t length)
{
    return length == 8 && record[0] == POMTVIA_TAG_CALL && record[1] == 0 && record[2] == 5;
}

/* One record after the other; calls by the hook if asked for. */
static void run_records(size_t length, int by_hook)
{
    for (size_t at = 0; at < length;) {
        size_t end = pomtvia_next(input, length, at);
        const uint8_t *r = input + at;
        if (by_hook && is_call(r, end - at))
            print_answer(pomtvia_on_call(&monitor, r[3], r[4], r[5], r[6], r[7]));
        else
            print_answer(pomtvia_answer(&monitor, r, end - at));
        at = end;
    }
}

static void print_items(void)
{
    for (unsigned c = 0; c <= POMTVIA_CONTAINERS; c++) {
        uint64_t set = 0;
        uint8_t refusal = pomtvia_items(&monitor, (uint8_t)c, &set);
        if (refusal != 0)
            printf("%u refused %u\n", c, (unsigned)refusal);
        else
            printf("%u %016" PRIx64 "\n", c, set);
    }
}

static void print_holders(void)
{
    for (unsigned i = 0; i <= POMTVIA_ITEMS; i++) {
        uint16_t out[POMTVIA_CONTAINERS];
        uint64_t count = 0;
        uint8_t refusal = pomtvia_holders(&monitor, (uint8_t)i, out, POMTVIA_CONTAINERS, &count);
        printf("%u", i);
        if (refusal != 0)
            printf(" refused %u", (unsigned)refusal);
        for (uint64_t k = 0; refusal == 0 && k < count; k++)
            printf(" %u", (unsigned)out[k]);
        putchar('\n');
    }
}

/* The exit status of what was asked for. */
static int run(const char *how)
{
    size_t length = fread(input, 1, sizeof input, stdin);
    if (ferror(stdin)) {
        perror("runlog: standard input was not read whole");
        return 1;
    }
    if (length > POMTVIA_LOG_MAX) {
        puts("log too long");
        return 0;
    }
    memset(&monitor, 0xA5, sizeof monitor);
    pomtvia_new(&monitor);
    if (strcmp(how, "hook") == 0 || strcmp(how, "records") == 0) {
        run_records(length, strcmp(how, "hook") == 0);
    } else if (strcmp(how, "items") == 0 || strcmp(how, "holders") == 0) {
        if (run_log(length, 0))
            return 1;
        if (strcmp(how, "items") == 0)
            print_items();
        else
            print_holders();
    } else if (*how == '\0') {
        return run_log(length, 1);
    } else {
        fprintf(stderr, "usage: runlog [hook | records | items | holders] < LOG\n");
        return 2;
    }
    return 0;
}

int main(int argc, char **argv)
{
    int status = run(argc > 1 ? argv[1] : "");
    if (fflush(stdout) != 0 || ferror(stdout)) {
        perror("runlog: standard output was not written whole");
        return 1;
    }
    return status;
}
