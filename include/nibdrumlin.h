/*
 * Option books as plain bytes: the book check and the code lookup.
 *
 * A book is a run of bytes; its numbers are 16 bits wide, low byte first.
 *
 *   head      four numbers: N options (0 to 512), M rules (0 to 4095),
 *             T body nodes (0 to 4095), zero
 *   contents  N codes of 13 bytes, then M pairs (first node, node count)
 *   bodies    T nodes, each one number: kind * 4096 + value
 *
 * A code is 1 to 13 characters from A-Z, a-z, 0-9 and hyphen, then zero bytes
 * up to 13.  Kind 1 is an option (value its number, 0 to N - 1), kind 2 the
 * same option barred, kinds 3 and 4 are all-of and any-of (value the number of
 * children).  Kind 6 is at-least: k of its members hold, or more (value
 * members * 64 + k, both 0 to 63).  Its members are its children, each one node:
 * an option, plain or barred, no option twice; 12288 (true, the empty all-of) or
 * 16384 (false, the empty any-of).  A body is one tree, a node before its
 * children.  The weight of a book is 1 + T + the number of its nodes of kind 1
 * or 2.
 *
 * Both functions answer one number.  Its low 8 bits are the refusal, 0 where
 * the call is accepted; the rest is the value.  nd_refusal and nd_value, below,
 * take it apart.  A refused call has the value 0, so that its answer is the
 * number of the refusal.
 *
 * The refusals of these two functions:
 *
 *   1  length: fewer than 8 bytes, or not exactly 8 + 13N + 4M + 2T
 *   2  head: N over 512, M or T over 4095, or the fourth number not zero
 *   3  code: a malformed code, or one equal to an earlier code of the book
 *   4  contents: a pair whose first node is not the sum of the counts before it
 *      or whose count is 0, or counts whose sum is not T (the sum is 0 where M
 *      is 0); the sums are exact, they do not wrap at 16 bits
 *   5  body: not one tree of exactly its node count, a kind other than 1 to 4
 *      and 6, an option number of N or more, or a kind 6 with another member
 *      than those above
 *   6  weight: over 4096
 *   7  no such code (lookup only)
 *
 * They are tested in this order, and the first that holds is the answer:
 *
 *   1 (fewer than 8 bytes), 2, 1 (not the length due), 3, 4, 5, 6, then 7
 *
 * Every input has an answer: there is nothing that the caller must have tested
 * before.  A pointer may be null where its length is 0; that is an empty run of
 * bytes.  Otherwise it must point to as many readable bytes as its length says.
 * The functions write to none of these bytes, keep no state, allocate no memory
 * and may be called from several threads at a time, each on its own buffers.
 * ND_STACK_BOOK, below, is how many bytes of stack suffice for either.
 *
 * The calls on order sheets, and the one that makes a book of a clause file,
 * stand in nibdrumlin_sheets.h.
 */
#ifndef NIBDRUMLIN_H
#define NIBDRUMLIN_H

#include <stddef.h>
#include <stdint.h>

#ifdef __cplusplus
extern "C" {
#endif

/*
 * Bytes of stack that suffice for one call.  3,592 were measured, by
 * tests/library/stack.c; the rest, over 4,096, is margin.
 */
#define ND_STACK_BOOK 8192

/*
 * Checks the book_len bytes at book.
 *
 * Accepted (0) exactly when they are a book, whole and with nothing after it.
 * Otherwise refused 1 to 6, as above.  The value is always 0.
 */
uint64_t nd_book_check(const uint8_t *book, size_t book_len);

/*
 * Looks up the code_len bytes at code among the codes of a book.
 *
 * The book is checked first, and refused 1 to 6 exactly as by nd_book_check,
 * whatever the code.  The code is given as its characters alone, without the
 * zero bytes that fill it up in the book.  Accepted when it is one of the
 * book's codes; the value is then that option's number, 0 to N - 1.  Refused 7
 * when it equals no code of the book: so is an empty one, one of more than 13
 * bytes, and one with a zero byte anywhere, also at its end.
 */
uint64_t nd_code_lookup(const uint8_t *book, size_t book_len,
                        const uint8_t *code, size_t code_len);

/* The refusal in an answer: 0 where the call is accepted. */
static inline unsigned nd_refusal(uint64_t answer)
{
    return (unsigned)(answer & 255u);
}

/* The value in an answer: the option's number after an accepted lookup, else 0. */
static inline uint64_t nd_value(uint64_t answer)
{
    return answer >> 8;
}

#ifdef __cplusplus
}
#endif

#endif
