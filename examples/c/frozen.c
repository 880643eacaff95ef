/* Frozen parts in C: an examiner freezes a line of a script before a sitting.
 * Calls that would take its bytes away are refused, and filed so; the others go
 * on around it. A withdrawal starts from the desk as the examiner left it.
 *
 *   ./archive
 *   gcc -Iinclude -o frozen examples/c/frozen.c \
 *       target/staticlib/libmagic_string.a
 */
#include "magic_string.h"

#include <stdio.h>
#include <string.h>

static const char script[] = "Wind north.\nTimeout 30 s.\nGood night.\n";

/* What is lent to the calls: a desk, and a record, which is empty while it is
 * zeroed. */
static uint32_t chunks[MAGIC_STRING_CHUNKS_LEN];
static uint32_t pieces[MAGIC_STRING_PIECES_LEN];
static uint8_t store[MAGIC_STRING_STORE_LEN];
static uint32_t words[MAGIC_STRING_RECORD_WORDS_LEN];
static uint8_t bytes[MAGIC_STRING_RECORD_BYTES_LEN];

#define DESK                                                                   \
  (const uint8_t *)script, strlen(script), chunks, MAGIC_STRING_CHUNKS_LEN,    \
      pieces, MAGIC_STRING_PIECES_LEN, store, MAGIC_STRING_STORE_LEN
#define RECORD                                                                 \
  words, MAGIC_STRING_RECORD_WORDS_LEN, bytes, MAGIC_STRING_RECORD_BYTES_LEN

/* Calls as records of a sheet: the length of the rest, the kind, the positions
 * and the text. */
#define UPDATE_5_10 "\0\x0D\x02\0\0\0\x05\0\0\0\x0Awest"
#define UPDATE_20_22                                                           \
  "\0\x0B\x02\0\0\0\x14\0\0\0\x16"                                             \
  "99"
#define RELOCATE_12_26_38 "\0\x0D\x08\0\0\0\x0C\0\0\0\x1A\0\0\0\x26"
#define CALL(c) (const uint8_t *)(c), sizeof(c) - 1

/* Prints an answer, the running text, and the bytes that are frozen. */
static void show(const char *call, magic_string_answer answer) {
  static uint8_t out[MAGIC_STRING_SOURCE_BYTES + MAGIC_STRING_STORE_BYTES];
  const uint32_t *row = chunks;
  printf("%s: %u, cuts: %u\n  ", call, (unsigned)answer.number,
         (unsigned)answer.value);
  uint32_t n = magic_string_to_string(DESK, out, sizeof out).value;
  for (uint32_t i = 0; i < n; i++)
    putchar(out[i] == '\n' ? '|' : out[i]);
  printf("\n  frozen:");
  while (row[MAGIC_STRING_NEXT] != MAGIC_STRING_LIST_END) {
    row = chunks + row[MAGIC_STRING_NEXT] * MAGIC_STRING_ROW;
    if (row[MAGIC_STRING_MARK])
      printf(" %u to %u", (unsigned)row[MAGIC_STRING_START],
             (unsigned)row[MAGIC_STRING_END]);
  }
  putchar('\n');
}

int main(void) {
  magic_string_open(DESK);
  show("freeze the timeout", magic_string_freeze(DESK, RECORD, 12, 26));
  show("file, replace north",
       magic_string_file(DESK, RECORD, CALL(UPDATE_5_10)));
  show("file, replace the 30",
       magic_string_file(DESK, RECORD, CALL(UPDATE_20_22)));
  show("file, move the line",
       magic_string_file(DESK, RECORD, CALL(RELOCATE_12_26_38)));
  /* Nothing more is frozen while calls are filed. */
  show("freeze the wind", magic_string_freeze(DESK, RECORD, 0, 12));
  for (int filed = 3; filed > 0; filed--)
    show("withdraw the last",
         magic_string_withdraw(DESK, RECORD, (uint32_t)filed));
  show("freeze the wind", magic_string_freeze(DESK, RECORD, 0, 12));
  return 0;
}
