/* Reads a built form, the file that docs/BUILT.md describes: the list, notes and book of a compiled form with the text that they
   cite. All of the reader is in this header, for C11 and C++; nothing is linked. It allocates nothing, keeps nothing, and reads
   the bytes where they stand, of whatever alignment, on machines of either byte order. */
#ifndef HOLLUPSA_BUILT_H
#define HOLLUPSA_BUILT_H

#include <stddef.h>
#include <stdint.h>

#ifdef __cplusplus
extern "C" {
#endif

/* Why bytes are no built form that can be read here. */
enum hollupsa_built_error {
  HOLLUPSA_BUILT_OK,           /* none: they are one */
  HOLLUPSA_BUILT_NO_MAGIC,     /* the first bytes are not "PLOTFORM" */
  HOLLUPSA_BUILT_TOO_SHORT,    /* there are fewer bytes than the head takes, or than it says */
  HOLLUPSA_BUILT_OTHER_LAYOUT, /* another layout than HOLLUPSA_BUILT_LAYOUT */
  HOLLUPSA_BUILT_TOO_MANY,     /* more of a part than any form gives */
  HOLLUPSA_BUILT_TOO_LONG,     /* there are more bytes than the head says */
  HOLLUPSA_BUILT_DAMAGED,      /* the checksum is not that of the bytes before it */
  HOLLUPSA_BUILT_LINES,        /* the lengths of the lines do not add up to the text, or one is above 4,095 */
  HOLLUPSA_BUILT_PADDING       /* what fills the text's last word is not zero */
};

/* A built form, in bytes that stay lent as long as it is used. The counts are for callers to read, the pointers for the functions
   below. */
struct hollupsa_built {
  size_t records, notes, entries, lines, units;
  const unsigned char *list_at, *notes_at, *book_at, *lines_at, *text_at;
};

/* What the words of a record, a note and an entry say (include/hollupsa.h, and document 01). A range is in units of its line. */
struct hollupsa_record {
  uint32_t call, line, start, end, arguments[3];
};

struct hollupsa_note {
  uint32_t class_number, line, start, end;
  uint32_t severity; /* 1 error or 2 warning */
  uint32_t lost;     /* class 10: how many units of the name are left out; else 0 */
};

struct hollupsa_entry {
  uint32_t kind; /* 50 name, 51 datum, 52 byte */
  uint32_t number, start, length;
  uint32_t extra; /* the sigil's unit or 0, whether the datum is quoted, or the byte */
};

/* The numbers of the layout that is read: five words a record, four a note, four an entry. */
enum {
  HOLLUPSA_BUILT_LAYOUT = 1,
  HOLLUPSA_BUILT_WORD = 4,
  HOLLUPSA_BUILT_MAGIC_BYTES = 8,
  HOLLUPSA_BUILT_HEAD_BYTES = 32, /* magic, layout and five counts */
  HOLLUPSA_BUILT_RECORD_BYTES = 20,
  HOLLUPSA_BUILT_NOTE_BYTES = 16,
  HOLLUPSA_BUILT_ENTRY_BYTES = 16,
  HOLLUPSA_BUILT_LONGEST_LINE = 4095
};

/* The little-endian word at a place. */
static inline uint32_t hollupsa_built_word(const unsigned char *at) {
  return (uint32_t)at[0] | (uint32_t)at[1] << 8 | (uint32_t)at[2] << 16 | (uint32_t)at[3] << 24;
}

/* CRC-32 of IEEE 802.3, the lowest bit of a byte first. */
static inline uint32_t hollupsa_built_checksum(const unsigned char *bytes, size_t length) {
  uint32_t sum = 0xFFFFFFFFu;
  for (size_t i = 0; i < length; i++) {
    sum ^= bytes[i];
    for (int bit = 0; bit < 8; bit++) sum = sum & 1u ? sum >> 1 ^ 0xEDB88320u : sum >> 1;
  }
  return sum ^ 0xFFFFFFFFu;
}

/* Whether bytes begin as the magic does, as far as there are any. */
static inline int hollupsa_built_begins(const unsigned char *bytes, size_t length) {
  static const char magic[HOLLUPSA_BUILT_MAGIC_BYTES + 1] = "PLOTFORM";
  for (size_t i = 0; i < length && i < HOLLUPSA_BUILT_MAGIC_BYTES; i++)
    if (bytes[i] != (unsigned char)magic[i]) return 0;
  return 1;
}

/* Whether the head's counts are such as a form can give (docs/BUILT.md says why): with these no size below is too large. */
static inline int hollupsa_built_counts_fit(const struct hollupsa_built *form) {
  return form->records <= 65535u && form->notes <= 131072u && form->entries <= 65536u && form->lines <= 21845u &&
         form->units <= 65536u;
}

/* Whether no line is too long and the lines add up to the text. */
static inline int hollupsa_built_lines_fit(const struct hollupsa_built *form) {
  size_t units = 0;
  for (size_t i = 0; i < form->lines; i++) {
    const uint32_t length = hollupsa_built_word(form->lines_at + HOLLUPSA_BUILT_WORD * i);
    if (length > HOLLUPSA_BUILT_LONGEST_LINE) return 0;
    units += length;
  }
  return units == form->units;
}

/* Reads into form, whose parts are lent bytes. What it leaves there is of use where the answer is HOLLUPSA_BUILT_OK. */
static inline enum hollupsa_built_error hollupsa_built_read(const unsigned char *bytes, size_t length,
                                                            struct hollupsa_built *form) {
  if (!hollupsa_built_begins(bytes, length)) return HOLLUPSA_BUILT_NO_MAGIC;
  if (length < HOLLUPSA_BUILT_HEAD_BYTES + HOLLUPSA_BUILT_WORD) return HOLLUPSA_BUILT_TOO_SHORT;
  const unsigned char *const head = bytes + HOLLUPSA_BUILT_MAGIC_BYTES;
  if (hollupsa_built_word(head) != HOLLUPSA_BUILT_LAYOUT) return HOLLUPSA_BUILT_OTHER_LAYOUT;
  form->records = hollupsa_built_word(head + 4);
  form->notes = hollupsa_built_word(head + 8);
  form->entries = hollupsa_built_word(head + 12);
  form->lines = hollupsa_built_word(head + 16);
  form->units = hollupsa_built_word(head + 20);
  if (!hollupsa_built_counts_fit(form)) return HOLLUPSA_BUILT_TOO_MANY;

  const size_t notes_at = HOLLUPSA_BUILT_HEAD_BYTES + HOLLUPSA_BUILT_RECORD_BYTES * form->records;
  const size_t book_at = notes_at + HOLLUPSA_BUILT_NOTE_BYTES * form->notes;
  const size_t lines_at = book_at + HOLLUPSA_BUILT_ENTRY_BYTES * form->entries;
  const size_t text_at = lines_at + HOLLUPSA_BUILT_WORD * form->lines;
  const size_t padding_at = text_at + 2 * form->units;
  const size_t sum_at = padding_at + form->units % 2 * 2;
  if (length < sum_at + HOLLUPSA_BUILT_WORD) return HOLLUPSA_BUILT_TOO_SHORT;
  if (length > sum_at + HOLLUPSA_BUILT_WORD) return HOLLUPSA_BUILT_TOO_LONG;
  if (hollupsa_built_word(bytes + sum_at) != hollupsa_built_checksum(bytes, sum_at)) return HOLLUPSA_BUILT_DAMAGED;

  form->list_at = bytes + HOLLUPSA_BUILT_HEAD_BYTES;
  form->notes_at = bytes + notes_at;
  form->book_at = bytes + book_at;
  form->lines_at = bytes + lines_at;
  form->text_at = bytes + text_at;
  if (!hollupsa_built_lines_fit(form)) return HOLLUPSA_BUILT_LINES;
  if (padding_at < sum_at && (bytes[padding_at] != 0 || bytes[padding_at + 1] != 0)) return HOLLUPSA_BUILT_PADDING;
  return HOLLUPSA_BUILT_OK;
}

/* A form with nothing in it. */
static inline void hollupsa_built_clear(struct hollupsa_built *form) {
  form->records = form->notes = form->entries = form->lines = form->units = 0;
  form->list_at = form->notes_at = form->book_at = form->lines_at = form->text_at = NULL;
}

/* Opens the bytes of a built form. They are good for their length, and have to stay lent while the form is used; they may be null
   where the length is 0. Whatever they are, the call ends and reads none beyond them.

   HOLLUPSA_BUILT_OK: form tells of them. That calls, targets and places in its words are any that a form can give is not looked at.
   Else: form has nothing in it. */
static inline enum hollupsa_built_error hollupsa_built_open(const void *bytes, size_t length, struct hollupsa_built *form) {
  hollupsa_built_clear(form);
  const enum hollupsa_built_error error = hollupsa_built_read((const unsigned char *)bytes, length, form);
  if (error != HOLLUPSA_BUILT_OK) hollupsa_built_clear(form);
  return error;
}

/* What the error is and what to do, for people. */
static inline const char *hollupsa_built_message(enum hollupsa_built_error error) {
  switch (error) {
    case HOLLUPSA_BUILT_OK: return "this is a built form";
    case HOLLUPSA_BUILT_NO_MAGIC: return "this is not a built form: build one of the form's text";
    case HOLLUPSA_BUILT_TOO_SHORT: return "the file ends too early: copy it again whole, or build it again";
    case HOLLUPSA_BUILT_OTHER_LAYOUT: return "the file has another layout than is read here: build it again with this version";
    case HOLLUPSA_BUILT_TOO_MANY: return "the file says more of a part than any form gives: build it again";
    case HOLLUPSA_BUILT_TOO_LONG: return "the file is longer than its head says: copy it again, or build it again";
    case HOLLUPSA_BUILT_DAMAGED: return "the file is damaged: copy it again, or build it again";
    case HOLLUPSA_BUILT_LINES: return "the lengths of the file's lines do not add up to its text: build it again";
    case HOLLUPSA_BUILT_PADDING: return "something stands behind the last unit of the file's text: build it again";
  }
  return "this is no error of a built form";
}

/* The parts of an opened form, each from 0. From the count on there are none: zeros throughout. */

/* The first word of each: a kind (of a record its call, of a note its class) and a number. */
static inline void hollupsa_built_head(const unsigned char *at, uint32_t *kind, uint32_t *number) {
  const uint32_t head = hollupsa_built_word(at);
  *kind = head >> 24;
  *number = head & 0xFFFFFFu;
}

/* The first two words of a record and a note: the second is a range in the line that the first one numbers. */
static inline void hollupsa_built_place(const unsigned char *at, uint32_t *kind, uint32_t *line, uint32_t *start, uint32_t *end) {
  const uint32_t range = hollupsa_built_word(at + HOLLUPSA_BUILT_WORD);
  hollupsa_built_head(at, kind, line);
  *start = range >> 12 & 0xFFFu;
  *end = range & 0xFFFu;
}

/* The record at an address. */
static inline struct hollupsa_record hollupsa_built_record(const struct hollupsa_built *form, size_t address) {
  struct hollupsa_record record = {0, 0, 0, 0, {0, 0, 0}};
  if (address >= form->records) return record;
  const unsigned char *const at = form->list_at + HOLLUPSA_BUILT_RECORD_BYTES * address;
  hollupsa_built_place(at, &record.call, &record.line, &record.start, &record.end);
  for (size_t i = 0; i < 3; i++) record.arguments[i] = hollupsa_built_word(at + 8 + HOLLUPSA_BUILT_WORD * i);
  return record;
}

static inline struct hollupsa_note hollupsa_built_note(const struct hollupsa_built *form, size_t i) {
  struct hollupsa_note note = {0, 0, 0, 0, 0, 0};
  if (i >= form->notes) return note;
  const unsigned char *const at = form->notes_at + HOLLUPSA_BUILT_NOTE_BYTES * i;
  hollupsa_built_place(at, &note.class_number, &note.line, &note.start, &note.end);
  note.severity = hollupsa_built_word(at + 8);
  note.lost = hollupsa_built_word(at + 12);
  return note;
}

/* The entry at a place in the book; records cite an entry by its number within its kind. */
static inline struct hollupsa_entry hollupsa_built_entry(const struct hollupsa_built *form, size_t i) {
  struct hollupsa_entry entry = {0, 0, 0, 0, 0};
  if (i >= form->entries) return entry;
  const unsigned char *const at = form->book_at + HOLLUPSA_BUILT_ENTRY_BYTES * i;
  hollupsa_built_head(at, &entry.kind, &entry.number);
  entry.start = hollupsa_built_word(at + 4);
  entry.length = hollupsa_built_word(at + 8);
  entry.extra = hollupsa_built_word(at + 12);
  return entry;
}

/* The length of a line in units, with its end. */
static inline uint32_t hollupsa_built_line(const struct hollupsa_built *form, size_t i) {
  return i < form->lines ? hollupsa_built_word(form->lines_at + HOLLUPSA_BUILT_WORD * i) : 0;
}

/* A unit of the text. */
static inline uint16_t hollupsa_built_unit(const struct hollupsa_built *form, size_t i) {
  if (i >= form->units) return 0;
  const unsigned char *const at = form->text_at + 2 * i;
  return (uint16_t)((unsigned)at[0] | (unsigned)at[1] << 8);
}

#ifdef __cplusplus
}
#endif

#endif
