/* A join in C: two candidates hand in a list of calls each, written against one
 * script, and the lists are joined, the one first or the other. Then a list
 * that does not join with the first.
 *
 *   ./archive
 *   gcc -Iinclude -o join examples/c/join.c target/staticlib/libmagic_string.a
 */
#include "magic_string.h"

#include <stdio.h>
#include <string.h>

static const char script[] = "Wind north, 12 knots, rain.";

/* What is lent to the calls. */
static uint32_t chunks[MAGIC_STRING_CHUNKS_LEN];
static uint32_t pieces[MAGIC_STRING_PIECES_LEN];
static uint8_t store[MAGIC_STRING_STORE_LEN];

#define DESK                                                                   \
  (const uint8_t *)script, strlen(script), chunks, MAGIC_STRING_CHUNKS_LEN,    \
      pieces, MAGIC_STRING_PIECES_LEN, store, MAGIC_STRING_STORE_LEN

/* The kinds of calls that stand in these lists. */
enum { REMOVE = 1, UPDATE = 2, APPEND_LEFT = 4, RELOCATE = 8 };

/* A list: records of a sheet, one behind the other. */
struct list {
  uint8_t bytes[200];
  size_t length;
};

/* Writes a number in n bytes behind the list, the highest first. */
static void put(struct list *list, uint32_t number, unsigned n) {
  while (n-- > 0)
    list->bytes[list->length++] = (uint8_t)(number >> 8 * n);
}

/* Adds a call: the length of its record, its kind, its n positions and its
 * text. */
static void add(struct list *list, uint8_t kind, const uint32_t *positions,
                unsigned n, const char *text) {
  size_t text_len = strlen(text);
  put(list, (uint32_t)(1 + 4 * n + text_len), 2);
  put(list, kind, 1);
  for (unsigned i = 0; i < n; i++)
    put(list, positions[i], 4);
  memcpy(list->bytes + list->length, text, text_len);
  list->length += text_len;
}

/* Opens the script and joins two lists on it. Prints the answer and the text,
 * which is the script if they were not joined. */
static void join(const char *call, const struct list *first,
                 const struct list *second) {
  static uint8_t out[MAGIC_STRING_SOURCE_BYTES + MAGIC_STRING_STORE_BYTES];
  magic_string_open(DESK);
  magic_string_answer answer = magic_string_join(
      DESK, first->bytes, first->length, second->bytes, second->length);
  printf("%s: %u, cuts: %u\n", call, (unsigned)answer.number,
         (unsigned)answer.value);
  if (answer.number == MAGIC_STRING_NOT_APART)
    puts("  calls to be joined are not apart");
  if (answer.number == MAGIC_STRING_REFUSED_ALONE)
    puts("  a call to be joined is refused alone");
  uint32_t n = magic_string_to_string(DESK, out, sizeof out).value;
  printf("  %.*s\n", (int)n, (const char *)out);
}

int main(void) {
  static struct list wind, sky, calm, into;
  add(&wind, UPDATE, (const uint32_t[]){5, 10}, 2, "west");
  add(&wind, APPEND_LEFT, (const uint32_t[]){14}, 1, " to 15");
  add(&sky, RELOCATE, (const uint32_t[]){22, 26, 0}, 3, "");
  add(&sky, APPEND_LEFT, (const uint32_t[]){26}, 1, ", ");
  add(&sky, REMOVE, (const uint32_t[]){20, 22}, 2, "");
  join("wind, sky", &wind, &sky);
  join("sky, wind", &sky, &wind);

  /* It replaces bytes that both calls of the wind reach. */
  add(&calm, UPDATE, (const uint32_t[]){0, 14}, 2, "Calm");
  join("wind, calm", &wind, &calm);
  join("calm, sky", &calm, &sky);

  /* A move into itself. */
  add(&into, RELOCATE, (const uint32_t[]){0, 4, 2}, 3, "");
  join("wind, into itself", &wind, &into);
  return 0;
}
