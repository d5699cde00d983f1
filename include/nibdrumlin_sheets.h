/*
 * Order sheets: a book loaded onto a sheet, choices keyed and taken back, steps, runs, reports,
 * how often the sheet names each option, and the sheet written back as a book; and a book made of
 * a clause file.  The book check and the code lookup stand in nibdrumlin.h, which this header
 * includes, with what a book is and how an answer is packed.
 *
 * A sheet is exactly 4,098 numbers of 16 bits, in the machine's own byte order:
 *
 *   sheet[0]     N, the number of options (0 to 512)
 *   sheet[1]     the count of nodes used, the root among them (1 to 4,096)
 *   sheet[2..]   the nodes from the root on as one tree, a node before its children, each
 *                kind * 4096 + value as in a book, with the same members of kind 6; kind 5 is
 *                the root, at the head and nowhere else, and its value is the number of its
 *                children
 *   the rest     zeros
 *
 * The root's children are the rules in book order, then the choices.  The weight of a sheet is
 * its nodes, the root counted, plus its marks (nodes of kind 1 or 2), and is at most 4,096.
 * Anything else is no sheet.  Nothing outside the 4,098 numbers belongs to a sheet: it may be
 * copied, kept and lent again at will.
 *
 * An order keeps its choices as lines, so that one can be taken back: 64 slots of struct nd_line
 * and a count, of which the first count slots are the lines.  Whoever begins an order sets the
 * count to 0.  A slot past the count may hold any bytes, or ones that nobody has set: it is not
 * looked at, and what it held stays until a line is keyed into it.  In a line, a slot below the
 * count, negative must be true or false, 1 or 0, as C's bool demands.  The byte that fills a line
 * up to four is nobody's: it may hold anything, and may change with its line.
 *
 * A list is in order where there are exactly 64 slots, the count is at most 64, and the option of
 * every line below the count is below the sheet's N.  The lines are what a withdrawal keys again:
 * whoever lends lines that were never keyed finds them on the sheet after the next withdrawal.
 *
 * Beside its sheet an order keeps an index, which says how often the sheet names each option: two
 * numbers of 16 bits an option, option after option.  For option v they are
 *
 *   index[2v]        the count of its marks: nodes of kind 1 or 2, so taken and barred alike
 *   index[2v + 1]    the place of the first (places count from the root, 0), 65,535 if none
 *
 * Whoever begins an order fills the index once, by nd_index after nd_load, and lends it on: a
 * keying, a withdrawal, a step and a run want it right as they begin, and leave it right.  A
 * load leaves it alone, so it is filled again after each.  2N numbers are enough, 1,024 for
 * every sheet, none where N is 0; numbers past them are not looked at and stay.  An index is
 * stale where it has 2N numbers or more and the first 2N are not those of the sheet: nothing but
 * nd_index mends it.
 *
 * A clause file is a text in the DIMACS CNF format, as partners publish their rules; nd_import
 * makes a book of it.  A line ends at byte 10, with or without 13 directly before it, or at the
 * end of the text.  The text is
 *
 *   comment lines    any number, each with c as its first byte and any bytes after it
 *   p cnf V C        one line, with single spaces and nothing more: V options, C clauses
 *   the clauses      C of them, each a row of marks (1 to V, or with a minus directly before it
 *                    where the option is barred) that is closed by 0; a row may be empty
 *
 * All numbers are decimal, of any length, without leading zeros and without a plus.  After the p
 * line spaces, tabs and line ends may stand before and after numbers, as many as one likes, and at
 * least one stands between two; nothing else does, no comment and no 13 but directly before 10.
 * Any other text is refused 15, an empty one too.
 *
 * Every function answers one number.  Its low 8 bits are the refusal, 0 where the call is
 * accepted; the rest is the value (nd_refusal and nd_value of nibdrumlin.h take it apart).  A
 * refused call has the value 0.  The refusals:
 *
 *    1 to 6  of the book, as in nibdrumlin.h and in the same order:
 *            1 (fewer than 8 bytes), 2, 1 (not the length due), 3, 4, 5, 6
 *    7       no such option number
 *    8       sheet full: its weight + 2 is over 4,096; in a withdrawal, the book's weight + twice
 *            the remaining lines is
 *    9       rule not 1 to 17
 *   10       the step does not apply
 *   11       not a sheet; in writing, in a withdrawal and in nd_complete also a book whose N is
 *            not the sheet's; in a keying, a withdrawal and nd_complete also lines that are not
 *            in order; in a keying, a withdrawal, a step and a run also a stale index; in loading
 *            only a length that is not 4,098
 *   12       output shorter than needed: for a report, than N bytes; for a written or an imported
 *            book, than its length; index shorter than 2N numbers, in every call that takes one
 *   13       no such line
 *   14       list full: there are 64 lines
 *   15       not a clause file: text of any other form
 *   16       clause file too large for a book: V over 512; C, or C plus the marks, over 4,095; or
 *            1 + C + twice the marks, which is the book's weight, over 4,096
 *
 * What each function can be refused stands beside it, in the order of the tests: the first that
 * holds is the answer.
 *
 * Who owns what: all memory is the caller's, lent for the time of the call.  A function writes
 * to what it takes without const and to nothing else, and after a refusal to nothing at all.  It
 * keeps no pointer and no state and allocates nothing, so calls may be made from several threads
 * at a time, each on its own buffers.  No buffer that a call writes may overlap another that it
 * is lent: so the index lies apart from the sheet.
 *
 * Every input has an answer: there is nothing that the caller must have tested before.  Lengths
 * count elements: bytes of a book, a text or an output, 16-bit numbers of a sheet or an index,
 * slots of lines.  A pointer may be null where its length is 0; that is an empty run.  Otherwise
 * it must point to as many elements as its length says, and a sheet, an index, lines and a count
 * must be aligned as uint16_t is.  A count is one number and has no length: where a call changes
 * it, it takes a pointer, which is never null; nd_complete changes nothing and takes the number.
 *
 * Stack: the ND_STACK_ numbers, here and in nibdrumlin.h, are bytes that suffice for one call,
 * with a margin of at least 4,096 over what was measured: 288 for nd_import, 3,656 for nd_write,
 * 6,352 for nd_withdraw, 10,684 for nd_step, 33,292 for nd_run, 58,928 for nd_complete.
 * tests/library/stack.c measures it again.  It counts what the calls and their memset, memcpy and
 * memmove use.  A program that binds these three only when they are first called needs, that once,
 * the dynamic linker's stack besides.
 */
#ifndef NIBDRUMLIN_SHEETS_H
#define NIBDRUMLIN_SHEETS_H

#include <nibdrumlin.h>

#include <stdbool.h>
#include <stddef.h>
#include <stdint.h>

#ifdef __cplusplus
extern "C" {
#endif

/* The length of a sheet, in numbers of 16 bits. */
#define ND_SHEET_LENGTH 4098

/* The most options of a book: an output of so many bytes is enough for every report. */
#define ND_OPTIONS_MOST 512

/* The length of the longest book, in bytes: an output of so many is enough for every write and
 * every import. */
#define ND_BOOK_LONGEST 31234

/* The length of the longest index, in numbers of 16 bits: so many are enough for every sheet. */
#define ND_INDEX_LONGEST 1024

/* In an index, the place of the first mark of an option that has none. */
#define ND_NO_PLACE 65535

/* The slots of an order's lines. */
#define ND_LINES_MOST 64

/* A line of an order: an option, taken or (negative) barred. */
struct nd_line {
    uint16_t option;
    bool negative;
};

/* The bytes of a report. */
#define ND_OPEN 0
#define ND_IN 1
#define ND_OUT 2
#define ND_CONTRADICTORY 3

/* Bytes of stack that suffice for nd_import, nd_load, nd_write, nd_index and nd_key; nd_withdraw
 * and nd_step; nd_run; nd_report and nd_complete. */
#define ND_STACK_SHEET 8192
#define ND_STACK_STEP 16384
#define ND_STACK_RUN 40960
#define ND_STACK_REPORT 65536

/*
 * Makes a book of the text_len bytes at text, a clause file.
 *
 * Accepted, the book's bytes stand at the start of out, those beyond stay, and the value is their
 * number: 8 + 13V + 4C + 2T, for T = C plus the marks of all clauses.  The book has V options and
 * C rules.  Option v - 1 has as its code the letter V and the decimal v: V1 to V512.  Each clause
 * is one rule, an any-of (kind 4) of its marks, a lone mark's too; an empty clause is the any-of of
 * nothing, which is false.  Clauses and marks stand in the order of the text.  A mark may stand
 * twice in a clause, and beside its opposite: all are kept.
 *
 * It is a book: nd_load takes it, and what is then reported is unit propagation on the clauses of
 * the text.
 *
 * Refused 15 (not a clause file, also where its numbers are too large for a book), 16 (too large
 * for a book), then 12 (out_len is under that number).
 */
uint64_t nd_import(const uint8_t *text, size_t text_len, uint8_t *out, size_t out_len);

/*
 * Loads the book_len bytes at book onto a sheet.
 *
 * sheet_len must be 4,098; what the sheet held before does not matter.  Accepted, the whole
 * sheet is filled.  An index of what it held before is stale now: nd_index.  The value is always
 * 0.
 *
 * Refused 11 (sheet_len is not 4,098), then 1 to 6.
 */
uint64_t nd_load(const uint8_t *book, size_t book_len, uint16_t *sheet, size_t sheet_len);

/*
 * Fills an index from a sheet, whatever the index held.
 *
 * Accepted, its first 2N numbers are those of the sheet as it stands now, and those past them
 * stay.  The value is always 0.
 *
 * Refused 11 (not a sheet), then 12 (index_len is under 2N).
 */
uint64_t nd_index(const uint16_t *sheet, size_t sheet_len, uint16_t *index, size_t index_len);

/*
 * Writes a sheet as a book whose codes are those of the book lent: its rules and choices are
 * the root's children as they stand now.
 *
 * Accepted, the bytes stand at the start of out, those beyond stay, and the value is their
 * number: 8 + 13N + 4M + 2T, for M children of the root and T nodes beside the root.
 *
 * Refused 11 (not a sheet), 1 to 6, 11 (a book whose N is not the sheet's), then 12 (out_len is
 * under that number).
 */
uint64_t nd_write(const uint16_t *sheet, size_t sheet_len, const uint8_t *book, size_t book_len,
                  uint8_t *out, size_t out_len);

/*
 * Reports which options are forced by the rules and choices on a sheet, whether or not it was
 * run before.
 *
 * Accepted, the first N bytes of out hold a byte for each option: ND_OPEN, ND_IN or ND_OUT; all
 * are ND_CONTRADICTORY where the sheet is contradictory.  The bytes beyond stay.  The value is 1
 * where it is contradictory, which the bytes cannot say where N is 0, else 0.
 *
 * Refused 11 (not a sheet), then 12 (out_len is under N).
 */
uint64_t nd_report(const uint16_t *sheet, size_t sheet_len, uint8_t *out, size_t out_len);

/*
 * Asks whether a sheet is complete: not contradictory, and every option that is named is in or
 * out.  An option is named where some rule of the book lent has a mark of it, taken or barred, in
 * an at-least too, or where one of the first count lines has.  So an option that no rule and no
 * line names, such as a code that engineering has reserved, may be open.  The marks on the sheet
 * name nothing, since steps take them away: the book is the one that was loaded, or that the last
 * withdrawal was lent, and the lines are the order's.
 *
 * The value is 1 where it is complete, else 0.  Where nothing is named it is 1, unless the sheet
 * is contradictory.
 *
 * Refused 11 (not a sheet), 1 to 6, then 11 (a book whose N is not the sheet's; lines not in
 * order).
 */
uint64_t nd_complete(const uint16_t *sheet, size_t sheet_len, const uint8_t *book, size_t book_len,
                     const struct nd_line *lines, size_t slots, uint16_t count);

/*
 * Keys a choice: the option, taken or (negative) barred, becomes the root's last child and the
 * order's last line.
 *
 * Accepted, the slot at the count holds the line, all other slots stay, the count is one more,
 * and the index is the sheet's again: the option's count of marks is one more, and where it had
 * no first place it has the new mark's.  The option is compared with all its 64 bits.  The value
 * is always 0.
 *
 * Refused 11 (not a sheet; lines not in order; a stale index), 14 (the count is 64), 7 (option is
 * N or more), 8, then 12 (index_len is under 2N).  After a refusal the sheet, every slot, the
 * count and the index are as they were.
 */
uint64_t nd_key(uint16_t *sheet, size_t sheet_len, struct nd_line *lines, size_t slots,
                uint16_t *count, uint16_t *index, size_t index_len, uint64_t option,
                bool negative);

/*
 * Takes line k back, counted from 0: the sheet becomes that of the book lent, with the remaining
 * lines keyed in their order.  What steps and runs had done to the sheet is dropped, whether or
 * not a run had settled it, and the next run counts its steps from zero.
 *
 * Accepted, the lines before k stay, the later ones move up by one, and the count is one less.
 * The slot that is free now keeps what it held, and so do those past it.  The index, which was
 * that of the sheet before, is that of the new one.  The book is usually the one that was loaded;
 * where it is another of as many options, its rules are the order's from then on, and the lines
 * name its options by their numbers.  The value is always 0.
 *
 * Refused 11 (not a sheet), 1 to 6, 11 (a book whose N is not the sheet's; lines not in order; a
 * stale index), 13 (k is the count or more, with all its 64 bits), 8 (the book's weight + twice
 * the remaining lines is over 4,096: a choice keyed into room that steps had made cannot always
 * be taken back), then 12 (index_len is under 2N).  After a refusal the sheet, every slot, the
 * count and the index are as they were.
 */
uint64_t nd_withdraw(uint16_t *sheet, size_t sheet_len, const uint8_t *book, size_t book_len,
                     struct nd_line *lines, size_t slots, uint16_t *count, uint16_t *index,
                     size_t index_len, uint64_t k);

/*
 * Does one step of the seventeen rules: rule 1 to 17, at a place (nodes counted from the root, 0),
 * child i and inner child j, from 0.  An i or j that the rule has no use for must be 0: so must
 * both for rules 16 and 17, also where the node has no child.
 *
 * Accepted, the index is that of the sheet after the step.  No step raises any option's count of
 * marks.  The value is always 0.
 *
 * Refused 11 (not a sheet; a stale index), 9, 10, then 12 (index_len is under 2N).  After a
 * refusal the sheet and the index are as they were.
 */
uint64_t nd_step(uint16_t *sheet, size_t sheet_len, uint16_t *index, size_t index_len,
                 uint64_t rule, uint64_t place, uint64_t i, uint64_t j);

/*
 * Does house steps, the applicable one of lowest rule, place, i and j each time, until no rule
 * applies or budget steps are done.
 *
 * The value is twice the count of the steps done, plus 1 where the run is settled: no rule
 * applies to the sheet any more.  Without that 1 it stopped: budget steps are done and a rule
 * still applies.  nd_run_steps and nd_run_settled, below, take an accepted answer apart.
 *
 * Accepted, the index is that of the sheet after the run, also where no step was done; no
 * option's count of marks is higher than before.
 *
 * Refused 11 (not a sheet; a stale index), then 12 (index_len is under 2N).  After a refusal the
 * sheet and the index are as they were.
 */
uint64_t nd_run(uint16_t *sheet, size_t sheet_len, uint16_t *index, size_t index_len,
                uint64_t budget);

/* The steps done, in the accepted answer of a run. */
static inline uint64_t nd_run_steps(uint64_t answer)
{
    return answer >> 9;
}

/* Whether no rule applies any more, in the accepted answer of a run. */
static inline bool nd_run_settled(uint64_t answer)
{
    return (answer >> 8 & 1u) != 0;
}

/* How often the sheet names an option below N, in its index. */
static inline uint16_t nd_mentions(const uint16_t *index, size_t option)
{
    return index[2 * option];
}

/* The place of the first mark of an option below N, ND_NO_PLACE if it has none. */
static inline uint16_t nd_first_place(const uint16_t *index, size_t option)
{
    return index[2 * option + 1];
}

#ifdef __cplusplus
}
#endif

#endif
