/*
 * What stands in the slots past the count of an order's lines plays no part, its negative neither:
 * each call on lines is made with zeros there and with other bytes, and answers and leaves the same.
 * Then it is made with lines whose slots past the count lie in memory that can be neither read nor
 * written, which is more than the header allows: so nobody looks at them.
 *
 * slots                  all of that
 * slots --undefined      with bytes there that nobody has set, for valgrind to watch
 *
 * tests/library/run builds and runs both.  Ends with status 1 where something differs.
 */
#define _GNU_SOURCE
#include <nibdrumlin_sheets.h>

#include <stdio.h>
#include <stdlib.h>
#include <string.h>
#include <sys/mman.h>
#include <unistd.h>

#define OPTIONS 3
#define INDEX_LENGTH (2 * OPTIONS)
#define ALL_SLOTS (ND_LINES_MOST * sizeof(struct nd_line))
#define WAYS 32 /* of bytes to fill slots with */

/* A or (B and not C). */
static const uint8_t book[] = {
    OPTIONS, 0, 1, 0, 5, 0, 0, 0,
    'A', 0, 0, 0, 0, 0, 0, 0, 0, 0, 0, 0, 0,
    'B', 0, 0, 0, 0, 0, 0, 0, 0, 0, 0, 0, 0,
    'C', 0, 0, 0, 0, 0, 0, 0, 0, 0, 0, 0, 0,
    0, 0, 5, 0,
    0x02, 0x40, 0x00, 0x10, 0x02, 0x30, 0x01, 0x10, 0x02, 0x20
};

struct order {
    uint16_t sheet[ND_SHEET_LENGTH], index[INDEX_LENGTH], count;
    struct nd_line *lines;
    size_t slots;
};

enum call { COMPLETE, KEY, WITHDRAW_FIRST, WITHDRAW_MIDDLE, WITHDRAW_LAST, WITHDRAW_NONE, CALLS };

static int tried;

static void expect(bool holds, const char *what, int count)
{
    if (!holds) {
        printf("slots: %s, with %d lines\n", what, count);
        exit(1);
    }
}

static uint64_t answer_of(enum call call, struct order *order)
{
    uint64_t k[CALLS];

    k[WITHDRAW_FIRST] = 0;
    k[WITHDRAW_MIDDLE] = order->count / 2u;
    k[WITHDRAW_LAST] = order->count - 1u;
    k[WITHDRAW_NONE] = order->count;
    if (call == COMPLETE)
        return nd_complete(order->sheet, ND_SHEET_LENGTH, book, sizeof book, order->lines,
                           order->slots, order->count);
    if (call == KEY)
        return nd_key(order->sheet, ND_SHEET_LENGTH, order->lines, order->slots, &order->count,
                      order->index, INDEX_LENGTH, 2, true);
    return nd_withdraw(order->sheet, ND_SHEET_LENGTH, book, sizeof book, order->lines, order->slots,
                       &order->count, order->index, INDEX_LENGTH, k[call]);
}

/* An order of so many lines, in slots that are zeros. */
static void begin(struct order *order, struct nd_line *lines, int count)
{
    memset(lines, 0, ALL_SLOTS);
    order->lines = lines;
    order->slots = ND_LINES_MOST;
    order->count = 0;
    expect(nd_load(book, sizeof book, order->sheet, ND_SHEET_LENGTH) == 0, "no book", count);
    expect(nd_index(order->sheet, ND_SHEET_LENGTH, order->index, INDEX_LENGTH) == 0, "an index",
           count);
    while (order->count < count)
        expect(nd_key(order->sheet, ND_SHEET_LENGTH, lines, ND_LINES_MOST, &order->count,
                      order->index, INDEX_LENGTH, order->count % OPTIONS,
                      order->count % 7 < 3) == 0, "a keying", count);
}

/* The same order with its lines elsewhere, where nothing but these is written. */
static void move(struct order *order, const struct order *from, struct nd_line *lines)
{
    *order = *from;
    order->lines = lines;
    memcpy(lines, from->lines, from->count * sizeof *lines);
}

static void expect_same(const struct order *one, const struct order *other, int count)
{
    int i;

    expect(one->count == other->count, "the count differs", count);
    expect(memcmp(one->sheet, other->sheet, sizeof one->sheet) == 0, "the sheet differs", count);
    expect(memcmp(one->index, other->index, sizeof one->index) == 0, "the index differs", count);
    for (i = 0; i < one->count; i++)
        expect(one->lines[i].option == other->lines[i].option
               && one->lines[i].negative == other->lines[i].negative, "a line differs", count);
    tried++;
}

/* Makes a call on the order with zeros past the count, and on one with its lines at `lines`, where
 * the slots past the count hold something else or cannot be reached. */
static void compare(enum call call, const struct order *first, struct nd_line *lines)
{
    static struct nd_line clean[ND_LINES_MOST];
    struct order due, given;
    int count = first->count;

    memset(clean, 0, ALL_SLOTS);
    move(&due, first, clean);
    move(&given, first, lines);
    expect(answer_of(call, &given) == answer_of(call, &due), "the answer differs", count);
    expect_same(&given, &due, count);
    if (call != COMPLETE) {
        expect(answer_of(COMPLETE, &given) == answer_of(COMPLETE, &due), "complete after", count);
        expect_same(&given, &due, count);
    }
}

/* The slots that a call may write: those of the lines, and one more where it keys. */
static int written(enum call call, int count)
{
    return call == KEY && count < ND_LINES_MOST ? count + 1 : count;
}

/* With these bytes in all slots: those past the lines stay, and so does a slot that is freed. */
static void compare_filled(enum call call, const struct order *first, const uint8_t *bytes)
{
    static struct nd_line lines[ND_LINES_MOST];
    size_t past = (size_t)written(call, first->count) * sizeof lines[0];

    memcpy(lines, bytes, ALL_SLOTS);
    compare(call, first, lines);
    expect(memcmp((uint8_t *)lines + past, bytes + past, ALL_SLOTS - past) == 0,
           "a slot past the count was written", first->count);
}

/* With bytes that nobody has set. */
static void compare_undefined(enum call call, const struct order *first)
{
    struct nd_line *lines = malloc(ALL_SLOTS);

    expect(lines != NULL, "no memory", first->count);
    compare(call, first, lines);
    free(lines);
}

/* With `nowhere`, from which on there is no memory, past the slots that the call may write. */
static void compare_unreachable(enum call call, const struct order *first, struct nd_line *nowhere)
{
    compare(call, first, nowhere - written(call, first->count));
}

/* With bytes of one kind, one kind after the other, and with any. */
static void compare_all(enum call call, const struct order *first)
{
    static uint32_t drawn = 1;
    uint8_t bytes[ALL_SLOTS];
    size_t at;
    int way;

    for (way = 0; way < WAYS; way++) {
        for (at = 0; at < ALL_SLOTS; at++) {
            drawn = drawn * 1664525 + 1013904223;
            bytes[at] = way % 2 ? (uint8_t)(255 - way / 2) : drawn >> 24;
        }
        compare_filled(call, first, bytes);
    }
}

/* Lines that are not in order are refused without a look at any slot. */
static void expect_unread(struct nd_line *past)
{
    static struct nd_line clean[ND_LINES_MOST];
    struct order order;
    int call;

    for (call = COMPLETE; call < CALLS; call++) {
        begin(&order, clean, 1);
        order.lines = past;
        order.count = ND_LINES_MOST + 1;
        expect(answer_of(call, &order) == 11, "a count of 65", 65);
        order.count = 1;
        for (order.slots = 0; order.slots < 200; order.slots++)
            if (order.slots != ND_LINES_MOST)
                expect(answer_of(call, &order) == 11, "another number of slots", order.slots);
    }
}

/* Two pages, of which the second has no memory: where it begins. */
static struct nd_line *nowhere(void)
{
    size_t page = (size_t)sysconf(_SC_PAGESIZE);
    uint8_t *pages = mmap(NULL, 2 * page, PROT_READ | PROT_WRITE, MAP_PRIVATE | MAP_ANONYMOUS, -1,
                          0);

    expect(pages != MAP_FAILED && mprotect(pages + page, page, PROT_NONE) == 0, "no pages", 0);
    return (struct nd_line *)(pages + page);
}

int main(int argc, char **argv)
{
    static struct nd_line lines[ND_LINES_MOST];
    struct nd_line *past = nowhere();
    bool undefined = argc > 1 && strcmp(argv[1], "--undefined") == 0;
    struct order first;
    int call, count;

    for (count = 0; count <= ND_LINES_MOST; count++) {
        begin(&first, lines, count);
        for (call = COMPLETE; call < CALLS; call++) {
            if (undefined) {
                compare_undefined(call, &first);
            } else {
                compare_all(call, &first);
                compare_unreachable(call, &first, past);
            }
        }
    }
    expect_unread(past);
    printf("slots: %d calls with %s past the count, as with zeros\n", tried,
           undefined ? "unset bytes" : "any bytes or no memory");
    return 0;
}
