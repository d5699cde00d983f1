/*
 * mentions BOOK CHOICE..: how often the sheet names each option, by the C functions.
 *
 * At the repository's top, after tools/build-library:
 *
 *   gcc -O2 -Wall -Wextra -Iinclude examples/mentions.c target/library/libnibdrumlin_sheets.a -o target/mentions
 *   cd examples && ../target/mentions book.bin +LID-STEEL -BODY-C
 *
 * A choice is + or - and a code.  For each option it prints the count of its marks and the place
 * of the first, counted from the root, 0: once with the choices keyed, and once after a run.
 */
#include <nibdrumlin_sheets.h>

#include <stdio.h>
#include <stdlib.h>
#include <string.h>

#define BUDGET 100000
#define NO_SUCH_CODE 7
#define CODE_LENGTH 13
#define CODES_START 8

/* One byte more than the longest book: so a longer one is refused as it would be whole. */
static uint8_t book[ND_BOOK_LONGEST + 1];
static size_t book_len;

/* The order: its sheet, the index of the sheet, and its lines, of which there are none yet. */
static uint16_t sheet[ND_SHEET_LENGTH];
static uint16_t mentions[ND_INDEX_LONGEST];
static struct nd_line lines[ND_LINES_MOST];
static uint16_t count = 0;

/* A refusal prints only itself, and ends the program. */
static void accept(uint64_t answer)
{
    if (nd_refusal(answer) != 0) {
        printf("refused %u\n", nd_refusal(answer));
        exit(0);
    }
}

/* Reads the book; one that cannot be opened counts as empty. */
static void read_book(const char *path)
{
    FILE *file = fopen(path, "rb");

    if (file == NULL)
        return;
    book_len = fread(book, 1, sizeof book, file);
    fclose(file);
}

/* Keys a choice: one mark more of its option, on the sheet and in the index. */
static void key(const char *word)
{
    uint64_t found;

    if (word[0] != '+' && word[0] != '-')
        accept(NO_SUCH_CODE);
    found = nd_code_lookup(book, book_len, (const uint8_t *)word + 1, strlen(word + 1));
    accept(found);
    accept(nd_key(sheet, ND_SHEET_LENGTH, lines, ND_LINES_MOST, &count, mentions, ND_INDEX_LONGEST,
                  nd_value(found), word[0] == '-'));
}

/* A line for each option, read off the index. */
static void tell(void)
{
    for (size_t option = 0; option < sheet[0]; option++) {
        printf("%.*s marks %u", CODE_LENGTH,
               (const char *)book + CODES_START + CODE_LENGTH * option,
               (unsigned)nd_mentions(mentions, option));
        if (nd_first_place(mentions, option) != ND_NO_PLACE)
            printf(", first at %u", (unsigned)nd_first_place(mentions, option));
        printf("\n");
    }
}

int main(int argc, char **arguments)
{
    uint64_t ran;

    read_book(argc > 1 ? arguments[1] : "book.bin");
    accept(nd_load(book, book_len, sheet, ND_SHEET_LENGTH));
    accept(nd_index(sheet, ND_SHEET_LENGTH, mentions, ND_INDEX_LONGEST));
    for (int word = 2; word < argc; word++)
        key(arguments[word]);
    printf("keyed %u\n", (unsigned)count);
    tell();
    ran = nd_run(sheet, ND_SHEET_LENGTH, mentions, ND_INDEX_LONGEST, BUDGET);
    accept(ran);
    printf("%s %llu\n", nd_run_settled(ran) ? "settled" : "stopped",
           (unsigned long long)nd_run_steps(ran));
    tell();
    return 0;
}
