/*
 * Measures how much stack each call needs on full-size books, and holds it to the ND_STACK_
 * numbers of the headers.
 *
 * Each call is made in a thread whose stack is a buffer painted with a pattern: the lowest byte
 * that no longer has it is the high-water mark.  A frame can be reserved deeper than it is
 * written, but large frames are touched once a page as they are made, so that the mark is less
 * than a page too high.  Therefore a call must leave at least a page, MARGIN, of its number.
 *
 * tests/library/run builds and runs this.  Ends with status 1 where a number does not hold.
 */
#define _GNU_SOURCE
#include <nibdrumlin_sheets.h>

#include <pthread.h>
#include <stdio.h>
#include <stdlib.h>
#include <string.h>

#define STACK_SIZE (128 * 1024)
#define PATTERN 0xA5
#define MARGIN 4096
#define RULES 17

/* A line is four bytes, as the library lays it out. */
typedef char line_is_four_bytes[sizeof(struct nd_line) == 4 ? 1 : -1];
typedef char negative_is_the_third[offsetof(struct nd_line, negative) == 2 ? 1 : -1];

enum call {
    NOTHING, CHECK, LOOKUP, IMPORT, LOAD, WRITE, INDEX, KEY, WITHDRAW, STEP, RUN, REPORT, COMPLETE,
    CALLS
};

static const struct {
    const char *name;
    size_t most; /* what the header says */
} calls[CALLS] = {
    {"no call", MARGIN},
    {"nd_book_check", ND_STACK_BOOK},
    {"nd_code_lookup", ND_STACK_BOOK},
    {"nd_import", ND_STACK_SHEET},
    {"nd_load", ND_STACK_SHEET},
    {"nd_write", ND_STACK_SHEET},
    {"nd_index", ND_STACK_SHEET},
    {"nd_key", ND_STACK_SHEET},
    {"nd_withdraw", ND_STACK_STEP},
    {"nd_step", ND_STACK_STEP},
    {"nd_run", ND_STACK_RUN},
    {"nd_report", ND_STACK_REPORT},
    {"nd_complete", ND_STACK_REPORT}
};

/* A book in the making: nodes are added in order, and each rule is closed by end_rule. */
static struct {
    size_t options, rules, nodes;
    uint16_t pair[2 * 4096], node[4096];
} making;

static uint8_t book[ND_BOOK_LONGEST], written[ND_BOOK_LONGEST], states[ND_OPTIONS_MOST];
static size_t book_len;
static char text[65536]; /* a clause file */
static size_t text_len;
static uint16_t sheet[ND_SHEET_LENGTH], count, mentions[2 * ND_OPTIONS_MOST];
static struct nd_line lines[ND_LINES_MOST];
static uint64_t step[4], answer;
static enum call current;
static unsigned char stack[STACK_SIZE] __attribute__((aligned(4096)));
static unsigned char *caller_frame;
static size_t needs[CALLS];
static bool steps_seen[RULES + 1];
static int whole_lists; /* lists of 64 lines of which one was taken back */

/* The index that is lent: all of it is needed, since every book has as many options as can be. */
#define MENTIONS mentions, sizeof mentions / sizeof mentions[0]

static void fail(const char *what)
{
    printf("stack: %s\n", what);
    exit(1);
}

/* Makes the current call, in the painted thread. */
static void make_call(void)
{
    switch (current) {
    case CHECK: answer = nd_book_check(book, book_len); break;
    case LOOKUP: answer = nd_code_lookup(book, book_len, (const uint8_t *)"C511", 4); break;
    case IMPORT:
        answer = nd_import((const uint8_t *)text, text_len, written, sizeof written);
        break;
    case LOAD: answer = nd_load(book, book_len, sheet, ND_SHEET_LENGTH); break;
    case WRITE:
        answer = nd_write(sheet, ND_SHEET_LENGTH, book, book_len, written, sizeof written);
        break;
    case INDEX: answer = nd_index(sheet, ND_SHEET_LENGTH, MENTIONS); break;
    case KEY:
        answer = nd_key(sheet, ND_SHEET_LENGTH, lines, ND_LINES_MOST, &count, MENTIONS, 511, true);
        break;
    case WITHDRAW:
        answer = nd_withdraw(sheet, ND_SHEET_LENGTH, book, book_len, lines, ND_LINES_MOST, &count,
                             MENTIONS, 0);
        break;
    case STEP:
        answer = nd_step(sheet, ND_SHEET_LENGTH, MENTIONS, step[0], step[1], step[2], step[3]);
        break;
    case RUN: answer = nd_run(sheet, ND_SHEET_LENGTH, MENTIONS, 20000); break;
    case REPORT: answer = nd_report(sheet, ND_SHEET_LENGTH, states, sizeof states); break;
    case COMPLETE:
        answer = nd_complete(sheet, ND_SHEET_LENGTH, book, book_len, lines, ND_LINES_MOST, count);
        break;
    default: answer = 0; break;
    }
}

static void *in_thread(void *unused)
{
    caller_frame = __builtin_frame_address(0);
    make_call();
    return unused;
}

/* The bytes of stack between the caller of the current call and the lowest byte written. */
static size_t stack_of_call(void)
{
    pthread_attr_t attributes;
    pthread_t thread;
    unsigned char *lowest = stack;

    memset(stack, PATTERN, sizeof stack);
    if (pthread_attr_init(&attributes) != 0
        || pthread_attr_setstack(&attributes, stack, sizeof stack) != 0
        || pthread_create(&thread, &attributes, in_thread, NULL) != 0
        || pthread_join(thread, NULL) != 0)
        fail("no thread on a stack of our own");
    pthread_attr_destroy(&attributes);
    while (*lowest == PATTERN)
        lowest++;
    if (lowest == stack || caller_frame <= lowest)
        fail("the painted stack is too short, or was not used");
    return (size_t)(caller_frame - lowest);
}

/* Makes a call that may be refused `allowed` alone, and keeps the most that it needed.  Where it is
 * lent an index, that is right. */
static void measure(enum call call, unsigned allowed)
{
    size_t need;

    if (call == KEY || call == WITHDRAW || call == STEP || call == RUN)
        measure(INDEX, 0);
    current = call;
    need = stack_of_call();
    if (nd_refusal(answer) != 0 && nd_refusal(answer) != allowed) {
        printf("stack: %s is refused %u\n", calls[call].name, nd_refusal(answer));
        exit(1);
    }
    if (need > needs[call])
        needs[call] = need;
}

static void begin_book(size_t options)
{
    memset(&making, 0, sizeof making);
    making.options = options;
}

static void add(unsigned kind, size_t value)
{
    making.node[making.nodes++] = (uint16_t)(kind * 4096 + value);
}

static void end_rule(size_t first)
{
    making.pair[2 * making.rules] = (uint16_t)first;
    making.pair[2 * making.rules + 1] = (uint16_t)(making.nodes - first);
    making.rules++;
}

static void put(size_t number)
{
    book[book_len++] = (uint8_t)(number & 255u);
    book[book_len++] = (uint8_t)(number >> 8);
}

/* The book's bytes; its codes are C000, C001 and so on. */
static void end_book(void)
{
    char code[32];
    size_t at;

    book_len = 0;
    put(making.options);
    put(making.rules);
    put(making.nodes);
    put(0);
    for (at = 0; at < making.options; at++) {
        memset(code, 0, sizeof code);
        sprintf(code, "C%03u", (unsigned)at);
        memcpy(book + book_len, code, 13);
        book_len += 13;
    }
    for (at = 0; at < 2 * making.rules; at++)
        put(making.pair[at]);
    for (at = 0; at < making.nodes; at++)
        put(making.node[at]);
}

/* 4,095 rules that are true: the longest book of all. */
static void trues(void)
{
    for (size_t at = 0; at < 4095; at++) {
        add(3, 0);
        end_rule(at);
    }
}

/* One any-of with 2,046 marks, each option some four times (rule 9, tables of options). */
static void flat(void)
{
    add(4, 2046);
    for (size_t at = 0; at < 2046; at++)
        add(1 + at % 7 / 6, at % 512);
    end_rule(0);
}

/* One any-of with 818 all-ofs that share a mark (rule 14). */
static void shared(void)
{
    add(4, 818);
    for (size_t at = 0; at < 818; at++) {
        add(3, 2);
        add(1, 1 + at % 511);
        add(1, 0);
    }
    end_rule(0);
}

/* A nest as deep as can be: any-of in all-of in any-of. */
static void nest(void)
{
    for (size_t at = 0; at < 4092; at++)
        add(3 + at % 2, 1);
    add(1, 0);
    end_rule(0);
}

/* An all-of of all-ofs, with marks in each (rules 11, 12 and 13). */
static void lifts(void)
{
    add(3, 680);
    for (size_t at = 0; at < 680; at++) {
        add(3, 2);
        add(3, 1);
        add(1, at % 512);
        add(2, at % 100);
    }
    end_rule(0);
}

/* Option 0, and from each option the next: all 512 are forced, one after another (rule 10). */
static void chain(void)
{
    add(1, 0);
    end_rule(0);
    for (size_t at = 0; at < 511; at++) {
        size_t first = making.nodes;
        add(4, 2);
        add(2, at);
        add(1, at + 1);
        end_rule(first);
    }
}

/* The chain inside one rule, beside trees that are not flat. */
static void chain_inside(void)
{
    add(3, 512);
    add(1, 0);
    for (size_t at = 0; at < 511; at++) {
        add(4, 2);
        add(3, 1);
        add(2, at);
        add(1, at + 1);
    }
    end_rule(0);
}

/* Small rules with a constant for each of rules 1 to 5, over and over. */
static void constants(void)
{
    static const uint16_t bodies[][3] = {
        {3 * 4096 + 2, 4 * 4096, 1 * 4096}, /* all-of(false, option 0) */
        {4 * 4096 + 2, 3 * 4096, 1 * 4096}, /* any-of(true, option 0) */
        {3 * 4096 + 1, 4 * 4096 + 1, 4 * 4096}, /* all-of(any-of(false)) */
        {4 * 4096 + 1, 3 * 4096 + 1, 3 * 4096} /* any-of(all-of(true)) */
    };

    for (size_t at = 0; at < 1000; at++) {
        for (size_t node = 0; node < 3; node++)
            making.node[making.nodes++] = bodies[at % 4][node];
        end_rule(3 * at);
    }
    add(4, 0);
    end_rule(3000);
}

/* As many at-leasts of 63 members as fit: one has a true member, one asks for none and one for one
 * of them, the others for 32 (rules 15, 16 and 17). */
static void at_leasts(void)
{
    for (size_t at = 0; at < 32; at++) {
        static const size_t asked[] = {32, 0, 1};
        size_t first = making.nodes;

        add(6, 63 * 64 + (at < 3 ? asked[at] : 32));
        for (size_t member = 0; member < 63; member++)
            if (at == 0 && member == 0)
                add(3, 0);
            else
                add(1 + member % 2, (63 * at + member) % 512);
        end_rule(first);
    }
}

/* The books, and the steps that are made on each as it was loaded: rule, place, i, j. */
static const struct {
    void (*make)(void);
    uint64_t steps[5][4];
} shapes[] = {
    {trues, {{6, 0, 0, 0}, {6, 0, 4094, 0}}},
    {flat, {{9, 1, 0, 0}}},
    {shared, {{14, 1, 0, 1}}},
    {nest, {{7, 1, 0, 0}, {8, 2, 0, 0}}},
    {lifts, {{11, 1, 0, 1}, {13, 2, 0, 0}}},
    {chain, {{10, 0, 0, 0}}},
    {chain_inside, {{12, 0, 0, 0}}},
    {constants, {{1, 1, 0, 0}, {2, 4, 0, 0}, {5, 8, 0, 0}, {4, 11, 0, 0}, {3, 0, 1000, 0}}},
    {at_leasts, {{15, 1, 0, 0}, {16, 65, 0, 0}, {17, 129, 0, 0}}}
};

static void measure_step(const uint64_t *which)
{
    uint16_t before[ND_SHEET_LENGTH];

    memcpy(before, sheet, sizeof sheet);
    memcpy(step, which, sizeof step);
    measure(STEP, 0);
    memcpy(sheet, before, sizeof sheet);
    steps_seen[step[0]] = true;
}

/* An order of so many lines. */
static void set_lines(uint16_t standing)
{
    for (size_t at = 0; at < ND_LINES_MOST; at++) {
        lines[at].option = (uint16_t)(511 - at);
        lines[at].negative = at % 2 == 1;
    }
    count = standing;
}

/* A line taken back of a list of 64, and the only one.  Some books have no room for 63 lines. */
static void measure_withdrawals(void)
{
    set_lines(64);
    measure(WITHDRAW, 8);
    whole_lists += nd_refusal(answer) == 0;
    set_lines(1);
    measure(WITHDRAW, 0);
}

/* A clause file of 512 options and so many clauses, of so many marks each, is measured. */
static void measure_import(size_t clauses, size_t marks, unsigned allowed)
{
    text_len = (size_t)sprintf(text, "c full size\r\np cnf 512 %u\r\n", (unsigned)clauses);
    for (size_t clause = 0; clause < clauses; clause++) {
        for (size_t mark = 0; mark < marks; mark++)
            text_len += (size_t)sprintf(text + text_len, "%s%u\t", mark % 2 == 0 ? "" : "-",
                                        (unsigned)((clause + mark) % 512 + 1));
        text_len += (size_t)sprintf(text + text_len, "0\r\n");
    }
    measure(IMPORT, allowed);
    if (nd_refusal(answer) != allowed)
        fail("an import is not refused as it is due");
}

/* As many clauses, as many marks and as much weight as can be; a mark too many, and a text that is
 * no clause file only at its end. */
static void measure_imports(void)
{
    measure_import(4095, 0, 0);
    measure_import(1365, 1, 0);
    measure_import(1, 2047, 0);
    measure_import(1, 2048, 16);
    text_len -= 3; /* its last 0 and the line end */
    measure(IMPORT, 15);
}

/* Every other call on one book of 512 options. */
static void measure_shape(size_t shape)
{
    begin_book(512);
    shapes[shape].make();
    end_book();
    measure(NOTHING, 0);
    measure(CHECK, 0);
    measure(LOOKUP, 0);
    measure(LOAD, 0);
    measure(WRITE, 0);
    measure(REPORT, 0);
    set_lines(64);
    measure(COMPLETE, 0);
    for (size_t at = 0; at < 5 && shapes[shape].steps[at][0] != 0; at++)
        measure_step(shapes[shape].steps[at]);
    set_lines(63);
    measure(KEY, 8); /* some of these sheets are full */
    measure(REPORT, 0);
    measure(RUN, 0);
    measure(REPORT, 0);
    measure(COMPLETE, 0);
    measure_withdrawals();
}

int main(void)
{
    int over = 0;

    for (size_t at = 0; at < sizeof shapes / sizeof shapes[0]; at++)
        measure_shape(at);
    measure_imports();
    if (whole_lists == 0)
        fail("no line of a list of 64 was taken back");
    for (int rule = 1; rule <= RULES; rule++)
        if (!steps_seen[rule]) {
            printf("stack: no step of rule %d was measured\n", rule);
            over = 1;
        }
    for (int call = 0; call < CALLS; call++) {
        int holds = call == NOTHING || needs[call] + MARGIN <= calls[call].most;

        printf("stack: %-14s %6zu bytes, header %6zu%s\n", calls[call].name, needs[call],
               calls[call].most, holds ? "" : ": TOO NEAR OR OVER");
        over |= !holds;
    }
    return over;
}
