/* A built form read through include/hollupsa_built.h: document 01's listing of it; with "--whole" behind the file all that its
   records, notes and entries say; with "--damage" the reader on damaged copies. Each must be refused, or, where the checksum was
   made good again, be read to its end without a step outside it (build with -fsanitize=address,undefined to see one). */
#include "hollupsa_built.h"
#include <inttypes.h>
#include <stdio.h>
#include <stdlib.h>
#include <string.h>

/* What all accessors gave, so that none is left out. */
static volatile uint32_t seen;
static size_t refused, taken;

static void *lent(size_t length) {
  void *bytes = malloc(length > 0 ? length : 1);
  if (bytes == NULL) {
    fputs("built: no memory\n", stderr);
    exit(2);
  }
  return bytes;
}

/* The bytes of a file; the caller frees them. */
static unsigned char *file_bytes(const char *name, size_t *length) {
  FILE *file = fopen(name, "rb");
  if (file == NULL || fseek(file, 0, SEEK_END) != 0) {
    perror(name);
    exit(2);
  }
  const long size = ftell(file);
  rewind(file);
  *length = size > 0 ? (size_t)size : 0;
  unsigned char *bytes = (unsigned char *)lent(*length);
  if (fread(bytes, 1, *length, file) != *length) {
    perror(name);
    exit(2);
  }
  fclose(file);
  return bytes;
}

static void list(const struct hollupsa_built *form) {
  for (size_t i = 0; i < form->records; i++) {
    const struct hollupsa_record r = hollupsa_built_record(form, i);
    printf("%zu %" PRIu32 " %" PRIu32 " %" PRIu32 " %" PRIu32 " %" PRIu32 "\n", i, r.line, r.call, r.arguments[0], r.arguments[1],
           r.arguments[2]);
  }
  for (size_t i = 0; i < form->notes; i++) {
    const struct hollupsa_note n = hollupsa_built_note(form, i);
    printf("note %" PRIu32 " %" PRIu32 " %" PRIu32 " %" PRIu32 "\n", n.class_number, n.line, n.start, n.end);
  }
}

/* All that its records, notes and entries say. */
static void list_whole(const struct hollupsa_built *form) {
  for (size_t i = 0; i < form->records; i++) {
    const struct hollupsa_record r = hollupsa_built_record(form, i);
    printf("record %" PRIu32 " line %" PRIu32 " from %" PRIu32 " to %" PRIu32, r.call, r.line, r.start, r.end);
    printf(" arguments %" PRIu32 " %" PRIu32 " %" PRIu32 "\n", r.arguments[0], r.arguments[1], r.arguments[2]);
  }
  for (size_t i = 0; i < form->notes; i++) {
    const struct hollupsa_note n = hollupsa_built_note(form, i);
    printf("note %" PRIu32 " line %" PRIu32 " from %" PRIu32 " to %" PRIu32, n.class_number, n.line, n.start, n.end);
    printf(" severity %" PRIu32 " lost %" PRIu32 "\n", n.severity, n.lost);
  }
  for (size_t i = 0; i < form->entries; i++) {
    const struct hollupsa_entry e = hollupsa_built_entry(form, i);
    printf("entry %" PRIu32 " number %" PRIu32 " from %" PRIu32, e.kind, e.number, e.start);
    printf(" length %" PRIu32 " extra %" PRIu32 "\n", e.length, e.extra);
  }
}

/* Everything in the form, and one step further. */
static void read_all(const struct hollupsa_built *form) {
  uint32_t all = 0;
  for (size_t i = 0; i <= form->records; i++) {
    const struct hollupsa_record r = hollupsa_built_record(form, i);
    all ^= r.call ^ r.line ^ r.start ^ r.end ^ r.arguments[0] ^ r.arguments[1] ^ r.arguments[2];
  }
  for (size_t i = 0; i <= form->notes; i++) {
    const struct hollupsa_note n = hollupsa_built_note(form, i);
    all ^= n.class_number ^ n.line ^ n.start ^ n.end ^ n.severity ^ n.lost;
  }
  for (size_t i = 0; i <= form->entries; i++) {
    const struct hollupsa_entry e = hollupsa_built_entry(form, i);
    all ^= e.kind ^ e.number ^ e.start ^ e.length ^ e.extra;
  }
  for (size_t i = 0; i <= form->lines; i++) all ^= hollupsa_built_line(form, i);
  for (size_t i = 0; i <= form->units; i++) all ^= hollupsa_built_unit(form, i);
  seen = all;
}

/* What the reader says of so many bytes. They are read from a place of their own that ends where they end, and is odd. */
static enum hollupsa_built_error opened(const unsigned char *bytes, size_t length) {
  unsigned char *copy = (unsigned char *)lent(length + 1);
  if (length > 0) memcpy(copy + 1, bytes, length);
  struct hollupsa_built form;
  const enum hollupsa_built_error error = hollupsa_built_open(copy + 1, length, &form);
  read_all(&form);
  free(copy);
  if (error != HOLLUPSA_BUILT_OK && form.records + form.notes + form.entries + form.lines + form.units != 0) {
    printf("refused, but not empty: %s\n", hollupsa_built_message(error));
    return HOLLUPSA_BUILT_OK;
  }
  return error;
}

/* Counts a copy that has to be refused; true if it was not. */
static int slips(const char *what, size_t at, const unsigned char *bytes, size_t length) {
  if (opened(bytes, length) != HOLLUPSA_BUILT_OK) {
    refused++;
    return 0;
  }
  printf("%s %zu: not refused\n", what, at);
  return 1;
}

/* The same where it is known what has to be said. */
static int is_untold(const char *what, size_t at, const unsigned char *bytes, size_t length, enum hollupsa_built_error wanted) {
  const enum hollupsa_built_error error = opened(bytes, length);
  if (error == wanted) {
    refused += error != HOLLUPSA_BUILT_OK;
    return 0;
  }
  printf("%s %zu: said \"%s\", wanted \"%s\"\n", what, at, hollupsa_built_message(error), hollupsa_built_message(wanted));
  return 1;
}

static void put_word(unsigned char *at, uint32_t word) {
  for (size_t i = 0; i < HOLLUPSA_BUILT_WORD; i++) at[i] = (unsigned char)(word >> 8 * i & 0xFFu);
}

static void make_good(unsigned char *bytes, size_t length) {
  const uint32_t sum = hollupsa_built_checksum(bytes, length - HOLLUPSA_BUILT_WORD);
  put_word(bytes + length - HOLLUPSA_BUILT_WORD, sum);
}

/* Whether a changed byte is told by its checksum alone: those of the words and of the text are, the head, the lengths of the lines
   and what fills the last word of the text are looked at. */
static int is_free(const struct hollupsa_built *form, const unsigned char *at) {
  return (at >= form->list_at && at < form->lines_at) || (at >= form->text_at && at < form->text_at + 2 * form->units);
}

/* One byte changed: refused; with the checksum made good again: taken where the byte is free. */
static int change(const struct hollupsa_built *form, unsigned char *bytes, size_t length, size_t at, unsigned char change) {
  unsigned char sum[HOLLUPSA_BUILT_WORD], *const sum_at = bytes + length - HOLLUPSA_BUILT_WORD;
  memcpy(sum, sum_at, sizeof sum);
  bytes[at] ^= change;
  int failed = slips("byte", at, bytes, length);
  if (bytes + at < sum_at) {
    make_good(bytes, length);
    if (!is_free(form, bytes + at)) {
      failed |= slips("byte with a good checksum", at, bytes, length);
    } else if (opened(bytes, length) != HOLLUPSA_BUILT_OK) {
      printf("byte %zu with a good checksum: refused\n", at);
      failed = 1;
    } else {
      taken++;
    }
    memcpy(sum_at, sum, sizeof sum);
  }
  bytes[at] ^= change;
  return failed;
}

/* The bytes with zeros behind them: refused, with their checksum or a good one at the new end. */
static int lengthen(const unsigned char *bytes, size_t length, size_t more) {
  unsigned char *longer = (unsigned char *)lent(length + more);
  memcpy(longer, bytes, length);
  memset(longer + length, 0, more);
  int failed = is_untold("length", length + more, longer, length + more, HOLLUPSA_BUILT_TOO_LONG);
  make_good(longer, length + more);
  failed |= is_untold("length with a good checksum", length + more, longer, length + more, HOLLUPSA_BUILT_TOO_LONG);
  free(longer);
  return failed;
}

/* Another word at a place, with a good checksum. */
static int put(unsigned char *bytes, size_t length, size_t at, uint32_t word, enum hollupsa_built_error wanted) {
  unsigned char *copy = (unsigned char *)lent(length);
  memcpy(copy, bytes, length);
  put_word(copy + at, word);
  make_good(copy, length);
  const int failed = is_untold("word at", at, copy, length, wanted);
  free(copy);
  return failed;
}

/* Each error that a word can make. */
static int put_words(const struct hollupsa_built *form, unsigned char *bytes, size_t length) {
  static const uint32_t most[] = {65535, 131072, 65536, 21845, 65536};
  int failed = put(bytes, length, 0, 0, HOLLUPSA_BUILT_NO_MAGIC);
  failed |= put(bytes, length, HOLLUPSA_BUILT_MAGIC_BYTES, HOLLUPSA_BUILT_LAYOUT + 1, HOLLUPSA_BUILT_OTHER_LAYOUT);
  for (size_t i = 0; i < sizeof most / sizeof most[0]; i++) {
    const size_t at = HOLLUPSA_BUILT_MAGIC_BYTES + HOLLUPSA_BUILT_WORD * (1 + i);
    failed |= put(bytes, length, at, most[i], HOLLUPSA_BUILT_TOO_SHORT);
    failed |= put(bytes, length, at, most[i] + 1, HOLLUPSA_BUILT_TOO_MANY);
    failed |= put(bytes, length, at, 0xFFFFFFFFu, HOLLUPSA_BUILT_TOO_MANY);
  }
  if (form->lines > 0) {
    const size_t at = (size_t)(form->lines_at - bytes);
    failed |= put(bytes, length, at, hollupsa_built_line(form, 0) + 1, HOLLUPSA_BUILT_LINES);
    failed |= put(bytes, length, at, 0xFFFFFFFFu, HOLLUPSA_BUILT_LINES);
  }
  return failed;
}

/* A form of one line with so many units. */
static int one_line(uint32_t units, enum hollupsa_built_error wanted) {
  const size_t lines_at = HOLLUPSA_BUILT_HEAD_BYTES, text_at = lines_at + HOLLUPSA_BUILT_WORD;
  const size_t length = text_at + 2 * (units + units % 2) + HOLLUPSA_BUILT_WORD;
  unsigned char *bytes = (unsigned char *)lent(length);
  memset(bytes, 0, length);
  memcpy(bytes, "PLOTFORM", HOLLUPSA_BUILT_MAGIC_BYTES);
  put_word(bytes + 8, HOLLUPSA_BUILT_LAYOUT);
  put_word(bytes + 24, 1);
  put_word(bytes + 28, units);
  put_word(bytes + lines_at, units);
  make_good(bytes, length);
  const int failed = is_untold("a line of", units, bytes, length, wanted);
  free(bytes);
  return failed;
}

static int damage(const struct hollupsa_built *form, unsigned char *bytes, size_t length) {
  static const unsigned char changes[] = {0x01, 0x80, 0xFF};
  int failed = put_words(form, bytes, length);
  for (size_t at = 0; at < length; at++)
    for (size_t i = 0; i < sizeof changes; i++) failed |= change(form, bytes, length, at, changes[i]);
  for (size_t shorter = 0; shorter < length; shorter++)
    failed |= is_untold("length", shorter, bytes, shorter, HOLLUPSA_BUILT_TOO_SHORT);
  for (size_t more = 1; more <= 8; more++) failed |= lengthen(bytes, length, more);
  failed |= one_line(HOLLUPSA_BUILT_LONGEST_LINE, HOLLUPSA_BUILT_OK);
  failed |= one_line(HOLLUPSA_BUILT_LONGEST_LINE + 1, HOLLUPSA_BUILT_LINES);
  struct hollupsa_built none;
  if (hollupsa_built_open(NULL, 0, &none) != HOLLUPSA_BUILT_TOO_SHORT) {
    puts("no bytes: not refused as too short");
    failed = 1;
  }
  if (opened(bytes, length) != HOLLUPSA_BUILT_OK) {
    puts("the undamaged form: refused");
    failed = 1;
  }
  return failed;
}

int main(int count, char **arguments) {
  const char *const option = count == 3 ? arguments[2] : "";
  const int whole = strcmp(option, "--whole") == 0;
  if (count != 2 && !whole && strcmp(option, "--damage") != 0) {
    fputs("built FILE, or built FILE --whole or --damage, where FILE is a built form\n", stderr);
    return 2;
  }
  size_t length;
  unsigned char *bytes = file_bytes(arguments[1], &length);
  struct hollupsa_built form;
  const enum hollupsa_built_error error = hollupsa_built_open(bytes, length, &form);
  if (error != HOLLUPSA_BUILT_OK) {
    fprintf(stderr, "%s: %s\n", arguments[1], hollupsa_built_message(error));
    free(bytes);
    return 1;
  }
  int failed = 0;
  if (whole) {
    list_whole(&form);
  } else if (count == 2) {
    list(&form);
  } else {
    failed = damage(&form, bytes, length);
    printf("%zu damaged copies refused, %zu taken with their checksum made good\n", refused, taken);
    puts(failed ? "failed" : "ok");
  }
  free(bytes);
  return failed;
}
