/*
 * reserved BOOK CHOICE..: whether an order is complete, and what is still open, by the C functions.
 *
 * At the repository's top, after tools/build-library:
 *
 *   gcc -O2 -Wall -Wextra -Iinclude examples/reserved.c target/library/libnibdrumlin_sheets.a -o target/reserved
 *   cd examples && ../target/reserved reserved/book.bin +LID-STEEL
 *
 * A choice is + or - and a code.  It prints contradiction, complete or incomplete, and unless the
 * order is contradictory a line for each option.  An order is complete although an option is open
 * that neither a rule of the book nor a choice names: a code that engineering has reserved.
 */
#include <nibdrumlin_sheets.h>

#include <stdio.h>
#include <stdlib.h>
#include <string.h>

#define NO_SUCH_CODE 7
#define CODE_LENGTH 13
#define CODES_START 8

/* One byte more than the longest book: so a longer one is refused as it would be whole. */
static uint8_t book[ND_BOOK_LONGEST + 1];
static size_t book_len;

/* The order: its sheet, the index of the sheet, and its lines, of which there are none yet. */
static uint16_t sheet[ND_SHEET_LENGTH];
static uint16_t mentions[ND_INDEX_LONGEST];
static struct nd_line lines[ND_LINES_MOST];
static uint16_t count = 0;

/* A refusal prints only itself, and ends the program. */
static void accept(uint64_t answer)
{
    if (nd_refusal(answer) != 0) {
        printf("refused %u\n", nd_refusal(answer));
        exit(0);
    }
}

/* Reads the book; one that cannot be opened counts as empty. */
static void read_book(const char *path)
{
    FILE *file = fopen(path, "rb");

    if (file == NULL)
        return;
    book_len = fread(book, 1, sizeof book, file);
    fclose(file);
}

/* Keys a choice: it becomes the order's last line, and from then on names its option. */
static void key(const char *word)
{
    uint64_t found;

    if (word[0] != '+' && word[0] != '-')
        accept(NO_SUCH_CODE);
    found = nd_code_lookup(book, book_len, (const uint8_t *)word + 1, strlen(word + 1));
    accept(found);
    accept(nd_key(sheet, ND_SHEET_LENGTH, lines, ND_LINES_MOST, &count, mentions, ND_INDEX_LONGEST,
                  nd_value(found), word[0] == '-'));
}

/* A line for each option.  The sheet has not been run, so that its marks are those of the book's
 * rules and of the choices, and the index says which options these name. */
static void tell(const uint8_t *states)
{
    static const char *const words[] = {"open", "in", "out"};

    for (size_t option = 0; option < sheet[0]; option++) {
        bool named = nd_mentions(mentions, option) > 0;

        printf("%.*s %s%s\n", CODE_LENGTH, (const char *)book + CODES_START + CODE_LENGTH * option,
               words[states[option]], named ? "" : ", nothing names it");
    }
}

int main(int argc, char **arguments)
{
    uint8_t states[ND_OPTIONS_MOST];
    uint64_t reported, complete;

    read_book(argc > 1 ? arguments[1] : "book.bin");
    accept(nd_load(book, book_len, sheet, ND_SHEET_LENGTH));
    accept(nd_index(sheet, ND_SHEET_LENGTH, mentions, ND_INDEX_LONGEST));
    for (int word = 2; word < argc; word++)
        key(arguments[word]);
    reported = nd_report(sheet, ND_SHEET_LENGTH, states, sizeof states);
    accept(reported);
    complete = nd_complete(sheet, ND_SHEET_LENGTH, book, book_len, lines, ND_LINES_MOST, count);
    accept(complete);
    if (nd_value(reported) == 1) {
        printf("contradiction\n");
        return 0;
    }
    printf("%s\n", nd_value(complete) == 1 ? "complete" : "incomplete");
    tell(states);
    return 0;
}
