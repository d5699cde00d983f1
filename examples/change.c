/*
 * change BOOK WORD..: an order whose customer changes his mind, by the C functions.
 *
 * At the repository's top, after tools/build-library:
 *
 *   gcc -O2 -Wall -Wextra -Iinclude examples/change.c target/library/libnibdrumlin_sheets.a -o target/change
 *   cd examples && ../target/change book.bin +LID-STEEL +BAND-868 1
 *
 * A word is a choice, + or - and a code, or the number of a line that is taken back, counted from
 * 0.  Before a line is taken back, and at the end, the sheet is run and what it says is printed.
 */
#include <nibdrumlin_sheets.h>

#include <stdio.h>
#include <stdlib.h>
#include <string.h>

#define BUDGET 100000
#define NO_SUCH_CODE 7
#define CODE_LENGTH 13
#define CODES_START 8

/* One byte more than the longest book: so a longer one is refused as it would be whole. */
static uint8_t book[ND_BOOK_LONGEST + 1];
static size_t book_len;

/* The order: its sheet, the index of the sheet, and its lines, of which there are none yet. */
static uint16_t sheet[ND_SHEET_LENGTH];
static uint16_t mentions[ND_INDEX_LONGEST];
static struct nd_line lines[ND_LINES_MOST];
static uint16_t count = 0;

/* A refusal prints only itself, and ends the program. */
static void accept(uint64_t answer)
{
    if (nd_refusal(answer) != 0) {
        printf("refused %u\n", nd_refusal(answer));
        exit(0);
    }
}

/* Reads the book; one that cannot be opened counts as empty. */
static void read_book(const char *path)
{
    FILE *file = fopen(path, "rb");

    if (file == NULL)
        return;
    book_len = fread(book, 1, sizeof book, file);
    fclose(file);
}

/* Keys a choice: it becomes the order's last line. */
static void key(const char *word)
{
    uint64_t found;

    if (word[0] != '+' && word[0] != '-')
        accept(NO_SUCH_CODE);
    found = nd_code_lookup(book, book_len, (const uint8_t *)word + 1, strlen(word + 1));
    accept(found);
    accept(nd_key(sheet, ND_SHEET_LENGTH, lines, ND_LINES_MOST, &count, mentions, ND_INDEX_LONGEST,
                  nd_value(found), word[0] == '-'));
}

/* Runs the sheet, which makes no difference to what is reported, and prints what it says. */
static void tell(void)
{
    static const char *const words[] = {"open", "in", "out"};
    uint8_t states[ND_OPTIONS_MOST];
    uint64_t ran = nd_run(sheet, ND_SHEET_LENGTH, mentions, ND_INDEX_LONGEST, BUDGET);
    uint64_t reported = nd_report(sheet, ND_SHEET_LENGTH, states, sizeof states);

    accept(ran);
    accept(reported);
    if (nd_value(reported) == 1) {
        printf("contradiction %llu\n", (unsigned long long)nd_run_steps(ran));
        return;
    }
    printf("%s %llu\n", nd_run_settled(ran) ? "settled" : "stopped",
           (unsigned long long)nd_run_steps(ran));
    for (size_t option = 0; option < sheet[0]; option++)
        printf("%.*s %s\n", CODE_LENGTH, (const char *)book + CODES_START + CODE_LENGTH * option,
               words[states[option]]);
}

/* Takes a line back: the sheet is as if it had never been keyed, and not run yet. */
static void take_back(const char *word)
{
    uint64_t k = strtoull(word, NULL, 10);

    accept(nd_withdraw(sheet, ND_SHEET_LENGTH, book, book_len, lines, ND_LINES_MOST, &count,
                       mentions, ND_INDEX_LONGEST, k));
    printf("line %llu taken back, %u left\n", (unsigned long long)k, (unsigned)count);
}

int main(int argc, char **arguments)
{
    read_book(argc > 1 ? arguments[1] : "book.bin");
    accept(nd_load(book, book_len, sheet, ND_SHEET_LENGTH));
    accept(nd_index(sheet, ND_SHEET_LENGTH, mentions, ND_INDEX_LONGEST));
    for (int word = 2; word < argc; word++) {
        if (arguments[word][0] >= '0' && arguments[word][0] <= '9') {
            tell();
            take_back(arguments[word]);
        } else {
            key(arguments[word]);
        }
    }
    tell();
    return 0;
}
