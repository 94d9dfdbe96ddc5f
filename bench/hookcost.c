/* One call through the library, to be counted. Standard input: a byte that says how the last record, a call, is made ('h' by the hook, 'p' in
 * place, 'n' not at all, 'c' not at all, but the monitor is copied once), then a log. Writes the answers' words, the last one's last. */
#include <stdio.h>
#include <string.h>

#include "pomtvia.h"

static uint8_t input[1 + POMTVIA_LOG_MAX];
static struct pomtvia_monitor monitor, copied;

/* Not inlined, so that the four ways differ in the call alone. */
__attribute__((noinline)) static uint32_t make(uint8_t how, const uint8_t *r)
{
    if (how == 'h')
        return pomtvia_on_call(&monitor, r[3], r[4], r[5], r[6], r[7]);
    if (how == 'p')
        return pomtvia_call(&monitor, r[3], r[4], r[5], r[6], r[7]);
    if (how == 'c') {
        memcpy(&copied, &monitor, sizeof monitor);
        __asm__ volatile("" : : "r"(&copied) : "memory"); /* the copy is kept */
    }
    return POMTVIA_ALLOW;
}

int main(void)
{
    size_t length = fread(input, 1, sizeof input, stdin);
    if (length < 1)
        return 2;
    const uint8_t *log = input + 1;
    size_t size = length - 1;
    pomtvia_new(&monitor);
    for (size_t at = 0; at < size;) {
        size_t end = pomtvia_next(log, size, at);
        uint32_t answer = end < size ? pomtvia_answer(&monitor, log + at, end - at) : make(input[0], log + at);
        putchar("aimrr"[POMTVIA_WORD(answer)]);
        putchar('\n');
        at = end;
    }
    return 0;
}
