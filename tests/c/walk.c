/*
 * Checks a sample book, looks up each of its codes and some that are not there, and
 * prints a line for each.  Ends with status 1 where an answer is not the one due.
 *
 * At the repository's top, after `tools/build-library --desk-calls`:
 *
 *   gcc -O2 -Wall -Wextra -Iinclude tests/c/walk.c target/staticlib/libc_calls.a -o target/walk
 *   target/walk
 *
 * tests/c/run does both.
 */
#include <nibdrumlin.h>

#include <stdio.h>
#include <string.h>

/* Four options; the last two codes differ in character 13 only. */
static const uint8_t sample[] = {
    /* head: 4 options, 2 rules, 8 nodes, zero */
    4, 0, 2, 0, 8, 0, 0, 0,
    /* codes */
    'P', 0, 0, 0, 0, 0, 0, 0, 0, 0, 0, 0, 0,
    'Q', 0, 0, 0, 0, 0, 0, 0, 0, 0, 0, 0, 0,
    'a', 'e', 'r', 'i', 'a', 'l', '-', '8', '6', '8', '-', 'x', '1',
    'a', 'e', 'r', 'i', 'a', 'l', '-', '8', '6', '8', '-', 'x', '2',
    /* contents: nodes 0 to 4, nodes 5 to 7 */
    0, 0, 5, 0,
    5, 0, 3, 0,
    /* P or (P and Q) */
    0x02, 0x40, 0x00, 0x10, 0x02, 0x30, 0x00, 0x10, 0x01, 0x10,
    /* not option 2, or not option 3 */
    0x02, 0x40, 0x02, 0x20, 0x03, 0x20
};

static int mismatches = 0;

static void show(const char *what, uint64_t answer, unsigned refusal, uint64_t value)
{
    int right = nd_refusal(answer) == refusal && nd_value(answer) == value;

    if (nd_refusal(answer) == 0)
        printf("%s: %lu", what, (unsigned long)nd_value(answer));
    else
        printf("%s: refused %u", what, nd_refusal(answer));
    if (right) {
        printf("\n");
    } else {
        printf(", but refusal %u and value %lu are due\n", refusal, (unsigned long)value);
        mismatches++;
    }
}

/* Checks the sample with one byte changed. */
static void check_changed(const char *what, size_t place, uint8_t byte, unsigned refusal)
{
    uint8_t book[sizeof sample];

    memcpy(book, sample, sizeof sample);
    book[place] = byte;
    show(what, nd_book_check(book, sizeof book), refusal, 0);
}

static void look_up(const char *what, const char *code, size_t length, unsigned refusal,
                    uint64_t value)
{
    uint64_t answer = nd_code_lookup(sample, sizeof sample, (const uint8_t *)code, length);

    show(what, answer, refusal, value);
}

int main(void)
{
    static const uint8_t zeros[8] = {0};

    show("check the sample", nd_book_check(sample, sizeof sample), 0, 0);
    show("check eight zero bytes", nd_book_check(zeros, 8), 0, 0);
    show("check no bytes", nd_book_check(NULL, 0), 1, 0);
    show("check one byte too few", nd_book_check(sample, sizeof sample - 1), 1, 0);
    check_changed("check a fourth number that is not zero", 6, 1, 2);
    check_changed("check a code equal to an earlier", 21, 'P', 3);
    check_changed("check a body that starts late", 64, 6, 4);
    check_changed("check an option that is not there", 82, 4, 5);

    look_up("look up P", "P", 1, 0, 0);
    look_up("look up Q", "Q", 1, 0, 1);
    look_up("look up aerial-868-x1", "aerial-868-x1", 13, 0, 2);
    look_up("look up aerial-868-x2", "aerial-868-x2", 13, 0, 3);
    look_up("look up aerial-868-x3", "aerial-868-x3", 13, 7, 0);
    look_up("look up P and a zero byte", "P", 2, 7, 0);
    look_up("look up aerial-868-x11", "aerial-868-x11", 14, 7, 0);
    look_up("look up an empty code", NULL, 0, 7, 0);
    show("look up P in no bytes", nd_code_lookup(NULL, 0, (const uint8_t *)"P", 1), 1, 0);

    if (mismatches != 0) {
        printf("%d mismatches\n", mismatches);
        return 1;
    }
    printf("every answer is the one due\n");
    return 0;
}
