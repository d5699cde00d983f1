/*
 * import CLAUSES CHOICE..: a book made of a clause file (DIMACS CNF), and what its rules and the
 * choices force, by the C functions.
 *
 * At the repository's top, after tools/build-library:
 *
 *   gcc -O2 -Wall -Wextra -Iinclude examples/import.c target/library/libnibdrumlin_sheets.a -o target/import
 *   cd examples && ../target/import valves.cnf +V6
 *
 * A choice is + or - and a code; option number v of the clause file has the code V and v.  It
 * prints the length of the book, and then contradiction or a line for each option.
 */
#include <nibdrumlin_sheets.h>

#include <stdio.h>
#include <stdlib.h>
#include <string.h>

#define NO_SUCH_CODE 7
#define CODE_LENGTH 13
#define CODES_START 8

/* The clause file, as long as it may be, and the book: none is longer than this. */
static uint8_t *text;
static size_t text_len, text_room;
static uint8_t book[ND_BOOK_LONGEST];
static size_t book_len;

/* The order: its sheet, the index of the sheet, and its lines, of which there are none yet. */
static uint16_t sheet[ND_SHEET_LENGTH];
static uint16_t mentions[ND_INDEX_LONGEST];
static struct nd_line lines[ND_LINES_MOST];
static uint16_t count = 0;

/* A refusal prints only itself, and ends the program. */
static void accept(uint64_t answer)
{
    if (nd_refusal(answer) != 0) {
        printf("refused %u\n", nd_refusal(answer));
        exit(0);
    }
}

/* Makes room for more of the text. */
static void grow(void)
{
    text_room = 2 * text_room + 65536;
    text = (uint8_t *)realloc(text, text_room);
    if (text == NULL) {
        fprintf(stderr, "no memory for the clause file\n");
        exit(1);
    }
}

/* Reads the clause file; one that cannot be opened counts as empty. */
static void read_text(const char *path)
{
    FILE *file = fopen(path, "rb");
    size_t more = 1;

    if (file == NULL)
        return;
    while (more > 0) {
        if (text_len == text_room)
            grow();
        more = fread(text + text_len, 1, text_room - text_len, file);
        text_len += more;
    }
    fclose(file);
}

/* Makes the book.  There is room for every one, so that only the text can be refused: 15 or 16. */
static void make_book(void)
{
    uint64_t made = nd_import(text, text_len, book, sizeof book);

    accept(made);
    book_len = (size_t)nd_value(made);
    printf("a book of %lu bytes\n", (unsigned long)book_len);
}

/* Keys a choice: it becomes the order's last line. */
static void key(const char *word)
{
    uint64_t found;

    if (word[0] != '+' && word[0] != '-')
        accept(NO_SUCH_CODE);
    found = nd_code_lookup(book, book_len, (const uint8_t *)word + 1, strlen(word + 1));
    accept(found);
    accept(nd_key(sheet, ND_SHEET_LENGTH, lines, ND_LINES_MOST, &count, mentions, ND_INDEX_LONGEST,
                  nd_value(found), word[0] == '-'));
}

/* What the clauses and the choices force: unit propagation, no more and no less. */
static void tell(void)
{
    static const char *const words[] = {"open", "in", "out"};
    uint8_t states[ND_OPTIONS_MOST];
    uint64_t reported = nd_report(sheet, ND_SHEET_LENGTH, states, sizeof states);

    accept(reported);
    if (nd_value(reported) == 1) {
        printf("contradiction\n");
        return;
    }
    for (size_t option = 0; option < sheet[0]; option++)
        printf("%.*s %s\n", CODE_LENGTH, (const char *)book + CODES_START + CODE_LENGTH * option,
               words[states[option]]);
}

int main(int argc, char **arguments)
{
    read_text(argc > 1 ? arguments[1] : "valves.cnf");
    make_book();
    free(text);
    accept(nd_load(book, book_len, sheet, ND_SHEET_LENGTH));
    accept(nd_index(sheet, ND_SHEET_LENGTH, mentions, ND_INDEX_LONGEST));
    for (int word = 2; word < argc; word++)
        key(arguments[word]);
    tell();
    return 0;
}
