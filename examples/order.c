/*
 * order [BOOK] < CHOICES: what the desk program prints, by the C functions.
 *
 * At the repository's top, after tools/build-library:
 *
 *   gcc -O2 -Wall -Wextra -Iinclude examples/order.c target/library/libnibdrumlin_sheets.a -o target/order
 *   cd examples && ../target/order book.bin < choices.txt
 *
 * Choices are lines: + or - and a code, 64 of them at most.  The last may lack its line end.
 */
#include <nibdrumlin_sheets.h>

#include <stdio.h>
#include <stdlib.h>

#define BUDGET 100000
#define NO_SUCH_CODE 7
#define LIST_FULL 14
#define CODE_LENGTH 13
#define CODES_START 8

/* A sign and a code, and room for one character more, by which an over-long code is known. */
#define LINE_ROOM (1 + CODE_LENGTH + 1)

/* One byte more than the longest book: so a longer one is refused as it would be whole. */
static uint8_t book[ND_BOOK_LONGEST + 1];
static size_t book_len;
static uint16_t sheet[ND_SHEET_LENGTH];

/* The choices of the order, and how many there are: none yet. */
static struct nd_line lines[ND_LINES_MOST];
static uint16_t count = 0;

/* The index of the sheet, which the calls keep right once it is filled. */
static uint16_t mentions[ND_INDEX_LONGEST];

/* A refusal prints only itself, and ends the program. */
static void accept(uint64_t answer)
{
    if (nd_refusal(answer) != 0) {
        printf("refused %u\n", nd_refusal(answer));
        exit(0);
    }
}

/* Reads the book; one that cannot be opened counts as empty. */
static void read_book(const char *path)
{
    FILE *file = fopen(path, "rb");

    if (file == NULL)
        return;
    book_len = fread(book, 1, sizeof book, file);
    fclose(file);
}

/*
 * Keys the choice of one line.  A line of another form is refused as an unknown code is; one for
 * which the list has no slot left is refused whatever it holds.
 */
static void key(const uint8_t *line, size_t length)
{
    uint64_t found;

    if (count == ND_LINES_MOST)
        accept(LIST_FULL);
    if (length == 0 || (line[0] != '+' && line[0] != '-'))
        accept(NO_SUCH_CODE);
    found = nd_code_lookup(book, book_len, line + 1, length - 1);
    accept(found);
    accept(nd_key(sheet, ND_SHEET_LENGTH, lines, ND_LINES_MOST, &count, mentions, ND_INDEX_LONGEST,
                  nd_value(found), line[0] == '-'));
}

/* Keys the choices of standard input in order. */
static void key_lines(void)
{
    uint8_t line[LINE_ROOM];
    size_t length = 0;
    int byte;

    while ((byte = getchar()) != EOF) {
        if (byte == '\n') {
            key(line, length);
            length = 0;
        } else if (length < sizeof line) {
            line[length++] = (uint8_t)byte;
        }
    }
    if (length != 0)
        key(line, length);
}

static void print_states(const uint8_t *states)
{
    static const char *const words[] = {"open", "in", "out"};

    for (size_t option = 0; option < sheet[0]; option++)
        printf("%.*s %s\n", CODE_LENGTH, (const char *)book + CODES_START + CODE_LENGTH * option,
               words[states[option]]);
}

int main(int argc, char **arguments)
{
    uint8_t states[ND_OPTIONS_MOST];
    uint64_t ran, reported;

    read_book(argc > 1 ? arguments[1] : "book.bin");
    accept(nd_load(book, book_len, sheet, ND_SHEET_LENGTH));
    accept(nd_index(sheet, ND_SHEET_LENGTH, mentions, ND_INDEX_LONGEST));
    key_lines();
    ran = nd_run(sheet, ND_SHEET_LENGTH, mentions, ND_INDEX_LONGEST, BUDGET);
    accept(ran);
    reported = nd_report(sheet, ND_SHEET_LENGTH, states, sizeof states);
    accept(reported);
    if (nd_value(reported) == 1) {
        printf("contradiction %llu\n", (unsigned long long)nd_run_steps(ran));
        return 0;
    }
    printf("%s %llu\n", nd_run_settled(ran) ? "settled" : "stopped",
           (unsigned long long)nd_run_steps(ran));
    print_states(states);
    return 0;
}
