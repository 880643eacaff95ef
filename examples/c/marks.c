/* Marks in C: a member files calls on a script, the examiner marks them, and
 * the member takes one back. The member reads calls and answers; the examiner
 * reads the marks too, and their total.
 *
 *   ./archive
 *   gcc -Iinclude -o marks examples/c/marks.c
 * target/staticlib/libmagic_string.a
 */
#include "magic_string.h"

#include <stdio.h>
#include <string.h>

static const char script[] = "Wind north, 12 knots, rain.";

/* What is lent to the calls: a desk, and a record, which is empty while it is
 * zeroed. The marks lie in the record's bytes, which a member is not given. */
static uint32_t chunks[MAGIC_STRING_CHUNKS_LEN];
static uint32_t pieces[MAGIC_STRING_PIECES_LEN];
static uint8_t store[MAGIC_STRING_STORE_LEN];
static uint32_t words[MAGIC_STRING_RECORD_WORDS_LEN];
static uint8_t bytes[MAGIC_STRING_RECORD_BYTES_LEN];

#define SOURCE (const uint8_t *)script, strlen(script)
#define DESK                                                                   \
  SOURCE, chunks, MAGIC_STRING_CHUNKS_LEN, pieces, MAGIC_STRING_PIECES_LEN,    \
      store, MAGIC_STRING_STORE_LEN
#define RECORD                                                                 \
  words, MAGIC_STRING_RECORD_WORDS_LEN, bytes, MAGIC_STRING_RECORD_BYTES_LEN

/* Calls as records of a sheet: the length of the rest, the kind, the positions
 * and the text. */
#define UPDATE_5_20                                                            \
  "\0\x0D\x02\0\0\0\x05\0\0\0\x14"                                             \
  "calm"
#define APPEND_LEFT_14                                                         \
  "\0\x0B\x04\0\0\0\x0E"                                                       \
  " to 15"
#define APPEND_RIGHT_22                                                        \
  "\0\x08\x05\0\0\0\x16"                                                       \
  "no "
#define CALL(c) (const uint8_t *)(c), sizeof(c) - 1

/* A reading: the record of a call and its answer, and the examiner's marks. */
static uint8_t out[100];

static void text(void) {
  static uint8_t shown[MAGIC_STRING_SOURCE_BYTES + MAGIC_STRING_STORE_BYTES];
  uint32_t n = magic_string_to_string(DESK, shown, sizeof shown).value;
  printf("  %.*s\n", (int)n, (const char *)shown);
}

/* The kind and the answer of each call, up to the first number that none has.
 */
static void member_reads(void) {
  puts("The member reads:");
  for (uint32_t k = 1;; k++) {
    magic_string_answer read =
        magic_string_entry(SOURCE, RECORD, k, out, sizeof out);
    if (read.number != 0)
      break;
    printf("  call %u: kind %u, answer %u\n", (unsigned)k, (unsigned)out[2],
           (unsigned)out[read.value - 1]);
  }
  text();
}

static void points(const char *what, uint32_t marks) {
  printf("%s%u.%u points\n", what, (unsigned)marks / 10, (unsigned)marks % 10);
}

/* The same with the marks, and their total. */
static void examiner_reads(void) {
  puts("The examiner reads:");
  for (uint32_t k = 1;; k++) {
    magic_string_answer read =
        magic_string_marked_entry(SOURCE, RECORD, k, out, sizeof out);
    if (read.number != 0)
      break;
    printf("  call %u: kind %u, answer %u, ", (unsigned)k, (unsigned)out[2],
           (unsigned)out[read.value - 2]);
    points("", out[read.value - 1]);
  }
  points("  in all ", magic_string_total(SOURCE, RECORD).value);
}

static void mark(uint32_t k, uint32_t marks) {
  magic_string_answer answer = magic_string_set_marks(SOURCE, RECORD, k, marks);
  printf("mark call %u: %u, ", (unsigned)k, (unsigned)answer.number);
  points("", marks);
}

int main(void) {
  magic_string_open(DESK);
  /* The second call lies inside what the first replaces, and is refused. */
  magic_string_file(DESK, RECORD, CALL(UPDATE_5_20));
  magic_string_file(DESK, RECORD, CALL(APPEND_LEFT_14));
  magic_string_file(DESK, RECORD, CALL(APPEND_RIGHT_22));
  mark(1, 90);
  mark(2, 25);
  mark(3, 100);
  /* 10 points are the most, and there is no fourth call. */
  mark(3, 101);
  mark(4, 50);
  examiner_reads();
  member_reads();
  /* The call takes its 9 points with it. The next one is done now, and keeps
   * its 2.5. */
  printf("withdraw 1: %u\n",
         (unsigned)magic_string_withdraw(DESK, RECORD, 1).number);
  member_reads();
  examiner_reads();
  return 0;
}
