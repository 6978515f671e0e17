/* The plot-form compiler: one function, proved to meet what is said here. Link with libhollupsa.a (tools/library makes it, for
   x86-64). It allocates nothing, keeps nothing, and always returns; it needs memset of the C library, and 64 KB of stack: the
   deepest sheets take 14,648 bytes of it, accepted or refused (measured by tests/c/stack.c, not proved). */
#ifndef HOLLUPSA_H
#define HOLLUPSA_H

#include <stddef.h>
#include <stdint.h>

#ifdef __cplusplus
extern "C" {
#endif

/* The numbers of an answer. */
enum {
  HOLLUPSA_REFUSAL, /* 0: accepted; else one of the eleven refusals below */
  HOLLUPSA_PLACE,   /* refusals 4 to 8: the index of the offending word, the sheet's length if its end offends; else 0 */
  HOLLUPSA_RECORDS, /* how many records the list holds, five words each */
  HOLLUPSA_NOTES,   /* how many notes, four words each */
  HOLLUPSA_ENTRIES, /* how many book entries, four words each */
  HOLLUPSA_ANSWER   /* how many these are */
};

/* The refusals. The lowest number decides, but among 4 to 8 first the earliest offending place. */
enum {
  HOLLUPSA_TOO_LONG = 1,    /* above 65,536 words or 65,536 units */
  HOLLUPSA_SURROGATE = 2,   /* a unit from D800 to DFFF */
  HOLLUPSA_WORK_SHORT = 3,  /* work is shorter than the sheet */
  HOLLUPSA_FORM = 4,        /* a word that the form does not take there, one left over, or one missing */
  HOLLUPSA_TOO_DEEP = 5,    /* a statement or expression nested deeper than 64 */
  HOLLUPSA_LINES = 6,       /* the lengths of the lines are not the text's */
  HOLLUPSA_RANGE = 7,       /* a range outside its line, an empty string, or an ill-formed name */
  HOLLUPSA_FSEEK = 8,       /* an FSEEK statement */
  HOLLUPSA_LIST_SHORT = 9,  /* list below five words a record, or more than 65,535 records */
  HOLLUPSA_NOTES_SHORT = 10,/* notes below four words a note */
  HOLLUPSA_BOOK_SHORT = 11  /* book below four words an entry */
};

/* What the words say. A range: 0x01000000 + start * 4,096 + end, within its line.
   A record: call (top 8 bits) and line, range, three arguments.
   A note: class (top 8 bits) and line, range, 1 error or 2 warning, and of class 10 how many units of the name are left out, from
   its first blank up to its sigil or its end; 0 in all other notes.
   An entry: kind (50 name, 51 datum, 52 byte; top 8 bits) and number within it, start in the text, length, and its sigil's unit,
   whether it is quoted, or the byte.
   Document 01 (01-scope.md, beside the Rust sources that this is a port of) lists calls, classes and the sheet's words. */

/* Compiles a sheet (32-bit words) with its text (16-bit units) into the lent list, notes, book and work; lengths are in words, of
   the text in units.

   Accepted: list, notes and book hold what document 01's rules say, with zeros behind, and work is all zeros.
   Refused: all four are all zeros. In both cases the five numbers of answer are written.

   What the caller owes: each pointer is aligned for its type and good for its length, and not null even where the length is 0;
   what is written overlaps with nothing else that is lent. There is nothing else to owe: any words and units may be lent, and any
   lengths. For a sheet of n words 7 n suffice for list, 8 n for notes, 4 n for book and n for work: with these none of the
   refusals 9 to 11 comes while n is at most 49,151 (proved: crates/bounds). A longer sheet may make more than 65,535 records. */
void hollupsa_compile(const uint32_t *sheet, size_t words, const uint16_t *text, size_t units, uint32_t *list, size_t list_words,
                      uint32_t *notes, size_t notes_words, uint32_t *book, size_t book_words, uint32_t *work, size_t work_words,
                      size_t answer[HOLLUPSA_ANSWER]);

#ifdef __cplusplus
}
#endif

#endif
