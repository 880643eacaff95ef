/* A sitting in C: calls are made on a script and filed, refused ones too, and
 * one of them is taken back. Then the others are made anew, and some answers
 * change.
 *
 *   ./archive
 *   gcc -Iinclude -o sitting examples/c/sitting.c \
 *       target/staticlib/libmagic_string.a
 */
#include "magic_string.h"

#include <stdio.h>
#include <string.h>

static const char script[] = "Wind north, 12 knots, rain.";

/* What is lent to the calls: a desk, and a record, which is empty while it is
 * zeroed. */
static uint32_t chunks[MAGIC_STRING_CHUNKS_LEN];
static uint32_t pieces[MAGIC_STRING_PIECES_LEN];
static uint8_t store[MAGIC_STRING_STORE_LEN];
static uint32_t words[MAGIC_STRING_RECORD_WORDS_LEN];
static uint8_t bytes[MAGIC_STRING_RECORD_BYTES_LEN];

#define DESK                                                                   \
  (const uint8_t *)script, strlen(script), chunks, MAGIC_STRING_CHUNKS_LEN,    \
      pieces, MAGIC_STRING_PIECES_LEN, store, MAGIC_STRING_STORE_LEN
#define RECORD                                                                 \
  words, MAGIC_STRING_RECORD_WORDS_LEN, bytes, MAGIC_STRING_RECORD_BYTES_LEN

/* The kinds of calls, and how many positions each has. */
enum { UPDATE = 2, APPEND_LEFT = 4, APPEND_RIGHT = 5, RELOCATE = 8 };
static const struct {
  const char *name;
  unsigned positions;
} kinds[] = {[UPDATE] = {"update", 2},
             [APPEND_LEFT] = {"append_left", 1},
             [APPEND_RIGHT] = {"append_right", 1},
             [RELOCATE] = {"relocate", 3}};

/* Writes a number in n bytes, the highest first. */
static uint8_t *put(uint8_t *at, uint32_t number, unsigned n) {
  while (n-- > 0)
    *at++ = (uint8_t)(number >> 8 * n);
  return at;
}

static uint32_t get(const uint8_t *at, unsigned n) {
  uint32_t number = 0;
  while (n-- > 0)
    number = number << 8 | *at++;
  return number;
}

/* Makes and files a call: its length, its kind, its positions and its text. */
static void file(uint8_t kind, const uint32_t *positions, const char *text) {
  uint8_t call[100], *end = call + 2;
  *end++ = kind;
  for (unsigned i = 0; i < kinds[kind].positions; i++)
    end = put(end, positions[i], 4);
  memcpy(end, text, strlen(text));
  end += strlen(text);
  put(call, (uint32_t)(end - call) - 2, 2);
  magic_string_answer answer =
      magic_string_file(DESK, RECORD, call, (size_t)(end - call));
  printf("file %s: %u, cuts: %u\n", kinds[kind].name, (unsigned)answer.number,
         (unsigned)answer.value);
}

/* Prints the filed calls with their answers, and the running text. */
static void show(void) {
  static uint8_t out[MAGIC_STRING_SOURCE_BYTES + MAGIC_STRING_STORE_BYTES];
  const uint8_t *call = bytes, *answers = bytes + MAGIC_STRING_RECORD_ANSWERS;
  printf("\nThe record:\n");
  for (unsigned k = 0; call < bytes + words[MAGIC_STRING_RECORD_USED]; k++) {
    const uint8_t *next = call + 2 + get(call, 2), *at = call + 3;
    unsigned kind = call[2];
    printf("  %u  answer %u  %s", k + 1, (unsigned)answers[k],
           kinds[kind].name);
    for (unsigned i = 0; i < kinds[kind].positions; i++, at += 4)
      printf(" %u", (unsigned)get(at, 4));
    if (at < next)
      printf(" \"%.*s\"", (int)(next - at), (const char *)at);
    putchar('\n');
    call = next;
  }
  uint32_t n = magic_string_to_string(DESK, out, sizeof out).value;
  printf("The text: %.*s\n", (int)n, (const char *)out);
}

static void withdraw(uint32_t k) {
  magic_string_answer answer = magic_string_withdraw(DESK, RECORD, k);
  printf("\nwithdraw %u: %u\n", (unsigned)k, (unsigned)answer.number);
}

#define POSITIONS(...) ((const uint32_t[]){__VA_ARGS__})

int main(void) {
  magic_string_open(DESK);
  /* Replaces "north, 12 knots". The two calls behind it lie inside that: 6. */
  file(UPDATE, POSITIONS(5, 20), "calm");
  file(RELOCATE, POSITIONS(10, 20, 26), "");
  file(APPEND_LEFT, POSITIONS(14), " to 15");
  file(UPDATE, POSITIONS(5, 20), "light");
  file(APPEND_RIGHT, POSITIONS(22), "no ");
  show();
  /* Without the first call both are done. The second replacement is across a
   * moved edge then: 7. */
  withdraw(1);
  show();
  /* There is no fifth call any more. */
  withdraw(5);
  return 0;
}
