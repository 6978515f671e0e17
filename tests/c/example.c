/* Document 01's worked example, `10 GOTO 10`, through the library; then a short list, and a sheet that the form does not take. */
#include "hollupsa.h"
#include <stdio.h>
#include <string.h>

static const uint32_t sheet[] = {0x0F000001, 0x1000000A, 0x01000002, 0x0300000A, 0x04000001,
                                 0x20000018, 0x0100300A, 0x05000001, 0x0100800A, 0x0300000A};
static const char *const line = "10 GOTO 10";

enum { WORDS = 10, UNITS = 10, LIST = 15, NOTES = 8, BOOK = 8 };

static uint16_t text[UNITS];
static uint32_t list[LIST], notes[NOTES], book[BOOK], work[WORDS];
static size_t answer[HOLLUPSA_ANSWER];
static int failed;

/* Compiles so many words with so long a list; what is lent is full of ones before. */
static void compile(size_t words, size_t list_words) {
  memset(list, 0xFF, sizeof list);
  memset(notes, 0xFF, sizeof notes);
  memset(book, 0xFF, sizeof book);
  memset(work, 0xFF, sizeof work);
  hollupsa_compile(sheet, words, text, UNITS, list, list_words, notes, NOTES, book, BOOK, work, WORDS, answer);
}

static void expect(const char *what, const uint32_t *got, const uint32_t *wanted, size_t count) {
  for (size_t i = 0; i < count; i++)
    if (got[i] != wanted[i]) {
      printf("%s, word %zu: %08X, wanted %08X\n", what, i, (unsigned)got[i], (unsigned)wanted[i]);
      failed = 1;
    }
}

static void expect_answer(const char *what, const size_t *wanted) {
  for (size_t i = 0; i < HOLLUPSA_ANSWER; i++)
    if (answer[i] != wanted[i]) {
      printf("%s, number %zu: %zu, wanted %zu\n", what, i, answer[i], wanted[i]);
      failed = 1;
    }
}

int main(void) {
  static const uint32_t zeros[LIST];
  for (size_t i = 0; i < UNITS; i++) text[i] = (uint16_t)line[i];

  compile(WORDS, LIST);
  expect_answer("answer", (const size_t[]){0, 0, 2, 0, 0});
  expect("list", list, (const uint32_t[]){0x14000000, 0x0100300A, 0, 0, 0, 0x02000000, 0x01000000, 17, 0, 0, 0, 0, 0, 0, 0}, LIST);
  expect("notes", notes, zeros, NOTES);
  expect("book", book, zeros, BOOK);
  expect("work", work, zeros, WORDS);

  compile(WORDS, 9);
  expect_answer("short list: answer", (const size_t[]){HOLLUPSA_LIST_SHORT, 0, 0, 0, 0});
  expect("short list: list", list, zeros, 9);

  compile(9, LIST);
  expect_answer("short sheet: answer", (const size_t[]){HOLLUPSA_FORM, 9, 0, 0, 0});
  expect("short sheet: list", list, zeros, LIST);

  puts(failed ? "failed" : "ok");
  return failed;
}
