/* The stack that a call takes on the deepest sheets: nested operators, subscripts and IFs, accepted and with an offence at their
   very end. Each call runs on a stack of its own that was filled before; what is no longer so at the end was used. */
#define _GNU_SOURCE
#include "hollupsa.h"
#include <pthread.h>
#include <stdio.h>
#include <string.h>

/* What include/hollupsa.h promises. */
enum { PROMISED = 65536 };

enum { STACK = 1 << 20, FILLED = 0xA5, WORDS = 512, DEEPEST = 64 };

enum shape { UNARY, BINARY, SUBSCRIPT, STORED_SUBSCRIPT, THEN, ELSE, SHAPES };

static const char *const names[] = {"operators of one operand", "operators of two", "subscripts",
                                    "subscripts of a place",    "IFs in THEN",      "IFs in ELSE"};

static const uint32_t one_unit = 0x01000001, variable = 0x21000000, absent = 0x02000000, counted = 0x04000000;

static uint32_t sheet[WORDS], list[7 * WORDS], notes[8 * WORDS], book[4 * WORDS], work[WORDS];
static size_t words, answer[HOLLUPSA_ANSWER];
static unsigned char stack[STACK] __attribute__((aligned(4096)));

static void put(uint32_t word) { sheet[words++] = word; }

static void put_variable(void) {
  put(variable);
  put(one_unit);
}

static void put_ifs(enum shape shape, int depth) {
  for (int i = 0; i < depth; i++) {
    put(0x2000001A);
    put(one_unit);
    put_variable();
    if (shape == ELSE) put(counted);
    put(counted + 1);
  }
  put(0x20000011);
  put(one_unit);
  if (shape == THEN)
    for (int i = 0; i < depth; i++) put(absent);
}

static void put_nested(enum shape shape, int depth) {
  for (int i = 0; i < depth; i++) {
    put(variable + (shape == UNARY ? 6 : shape == BINARY ? 5 : 7));
    put(one_unit);
    if (shape != BINARY) put(one_unit);
    if (shape == UNARY) put(0x09000001);
    if (shape == SUBSCRIPT || shape == STORED_SUBSCRIPT) put(counted + 1);
  }
  put_variable();
  if (shape == BINARY)
    for (int i = 0; i < depth; i++) {
      put(one_unit);
      put(0x09000006);
      put_variable();
    }
}

/* A sheet of one line, `A` its text. */
static void nest(enum shape shape, int depth) {
  words = 0;
  put(0x0F000001);
  put(0x10000001);
  put(absent);
  put(counted + 1);
  if (shape == THEN || shape == ELSE) {
    put_ifs(shape, depth);
    return;
  }
  if (shape == STORED_SUBSCRIPT) { /* LET */
    put(0x2000001F);
    put(one_unit);
    put_nested(shape, depth);
    put_variable();
    return;
  }
  put(0x2000002F); /* PRINT of one element */
  put(one_unit);
  put(counted + 1);
  put(0x08000000);
  put_nested(shape, depth);
}

static void *call(void *unused) {
  static const uint16_t text[] = {'A'};
  if (words > 0)
    hollupsa_compile(sheet, words, text, 1, list, 7 * words, notes, 8 * words, book, 4 * words, work, words, answer);
  return unused;
}

/* The bytes that a thread uses which makes the call, or none if there are no words. */
static size_t used(void) {
  pthread_t thread;
  pthread_attr_t attributes;
  memset(stack, FILLED, STACK);
  if (pthread_attr_init(&attributes) || pthread_attr_setstack(&attributes, stack, STACK) ||
      pthread_create(&thread, &attributes, call, NULL) || pthread_join(thread, NULL))
    return STACK;
  size_t free = 0;
  while (free < STACK && stack[free] == FILLED) free++;
  return STACK - free;
}

int main(void) {
  int failed = 0;
  used(); /* a first thread may bind what later ones find bound */
  const size_t bare = used();
  for (enum shape shape = UNARY; shape < SHAPES; shape++) {
    int depth = DEEPEST;
    size_t accepted;
    do {
      nest(shape, depth--);
      accepted = used() - bare;
    } while (answer[HOLLUPSA_REFUSAL] == HOLLUPSA_TOO_DEEP);
    const size_t refusal = answer[HOLLUPSA_REFUSAL];
    sheet[words - 1] = 0;
    const size_t refused = used() - bare;
    printf("%s, %d: %zu bytes accepted, %zu refused\n", names[shape], depth + 1, accepted, refused);
    if (refusal != 0 || answer[HOLLUPSA_REFUSAL] != HOLLUPSA_FORM || accepted > PROMISED || refused > PROMISED) {
      printf("%s: answers %zu and %zu, wanted 0 and 4, and at most %d bytes\n", names[shape], refusal,
             answer[HOLLUPSA_REFUSAL], PROMISED);
      failed = 1;
    }
    words = 0;
  }
  return failed;
}
