/* A paper in C: a script is opened and edits are made on it, with the cuts
 * that each made and the running text after it, refusals in words, and the desk
 * chunk by chunk at the end. Then a whole paper in a sheet.
 *
 *   ./archive
 *   gcc -Iinclude examples/c/paper.c target/staticlib/libmagic_string.a -o
 * paper
 */
#include "magic_string.h"

#include <stdio.h>
#include <string.h>

static const char script[] = "Here is Ålesund Radio.\n"
                             "  Wind north, 12 knots.\n"
                             "  Air 7 °C, sea calm.\n"
                             "Good night – over.\n";

/* What is lent to the calls. */
static uint32_t chunks[MAGIC_STRING_CHUNKS_LEN];
static uint32_t pieces[MAGIC_STRING_PIECES_LEN];
static uint8_t store[MAGIC_STRING_STORE_LEN];
static uint8_t out[MAGIC_STRING_SOURCE_BYTES + MAGIC_STRING_STORE_BYTES];

#define TEXT(t) (const uint8_t *)(t), strlen(t)
#define TABLES                                                                 \
  chunks, MAGIC_STRING_CHUNKS_LEN, pieces, MAGIC_STRING_PIECES_LEN, store,     \
      MAGIC_STRING_STORE_LEN
#define DESK TEXT(script), TABLES

/* The switches of an insertion. */
enum { RIGHT, LEFT };
enum { BACK, FRONT };

static const char *const words[] = {
    [0] = "done",
    [MAGIC_STRING_NOT_UTF8] = "text not UTF-8",
    [MAGIC_STRING_NOT_WELL_FORMED] = "desk not well formed",
    [MAGIC_STRING_INSIDE_CHARACTER] = "position inside a character",
    [MAGIC_STRING_END_BEFORE_START] = "end before start",
    [MAGIC_STRING_ZERO_WIDTH] = "replace zero width",
    [MAGIC_STRING_CUT_IN_REPLACEMENT] = "cut inside a non-empty replacement",
    [MAGIC_STRING_ACROSS_MOVED_EDGE] = "replace across a moved edge",
    [MAGIC_STRING_INTO_ITSELF] = "move into itself",
    [MAGIC_STRING_NOT_TOGETHER] = "moved range not together",
    [MAGIC_STRING_PAST_SOURCE] = "end past source",
    [MAGIC_STRING_SLICE_START] = "slice starts inside a replaced chunk",
    [MAGIC_STRING_SLICE_END] = "slice ends inside a replaced chunk",
    [MAGIC_STRING_LIMIT] = "the desk would break a limit",
    [MAGIC_STRING_SHORT_BUFFER] = "output buffer too short",
    [MAGIC_STRING_BAD_OPTION] =
        "pattern above 1, or an exclude list of odd count",
    [MAGIC_STRING_BAD_SHEET] =
        "sheet, list or call breaks the rules of its form",
    [MAGIC_STRING_NO_SUCH_CALL] = "no call with that number is filed",
    [MAGIC_STRING_NOT_APART] = "calls to be joined are not apart",
    [MAGIC_STRING_REFUSED_ALONE] = "a call to be joined is refused alone",
    [MAGIC_STRING_FROZEN] = "a frozen chunk, or calls are filed",
    [MAGIC_STRING_MARKS_TOO_HIGH] = "marks above 100"};

/* The place of a text in the script: its first byte, and the first behind. */
static uint32_t start(const char *text) {
  return (uint32_t)(strstr(script, text) - script);
}

static uint32_t end(const char *text) {
  return start(text) + (uint32_t)strlen(text);
}

/* Shows the running text if a call was done. */
static void show(magic_string_answer answer) {
  if (answer.number == 0) {
    uint32_t n = magic_string_to_string(DESK, out, sizeof out).value;
    fwrite(out, 1, n, stdout);
  }
  putchar('\n');
}

/* Says what an edit answered: its number, in words too, and how many cuts it
 * made that remain, which a refused edit reports as well. */
static void edit(const char *call, magic_string_answer answer) {
  printf("%s: %u, %s, cuts: %u\n", call, (unsigned)answer.number,
         words[answer.number], (unsigned)answer.value);
  show(answer);
}

/* Prints bytes between quotes, line feeds as \n. */
static void quote(const uint8_t *text, uint32_t n) {
  putchar('"');
  for (uint32_t i = 0; i < n; i++) {
    if (text[i] == '\n')
      fputs("\\n", stdout);
    else
      putchar(text[i]);
  }
  putchar('"');
}

/* Prints a piece list, if it has any: n rows of pieces from row `at`, each of
 * two words, where its text begins in the store and how many bytes it has. */
static void list(const char *name, uint32_t at, uint32_t n) {
  if (n == 0)
    return;
  printf("  %10s ", name);
  for (uint32_t i = at; i < at + n; i++) {
    putchar(' ');
    quote(store + pieces[2 * i], pieces[2 * i + 1]);
  }
  putchar('\n');
}

/* Prints the desk, following the list from row 0 until it comes back there. */
static void draw(void) {
  const uint32_t *row = chunks;
  printf("\nThe desk, chunk by chunk:\n");
  list("head", row[MAGIC_STRING_INTRO_AT], row[MAGIC_STRING_INTRO_N]);
  while (row[MAGIC_STRING_NEXT] != MAGIC_STRING_LIST_END) {
    row = chunks + row[MAGIC_STRING_NEXT] * MAGIC_STRING_ROW;
    uint32_t from = row[MAGIC_STRING_START], to = row[MAGIC_STRING_END];
    list("intro", row[MAGIC_STRING_INTRO_AT], row[MAGIC_STRING_INTRO_N]);
    printf("  %3u to %-3u  ", (unsigned)from, (unsigned)to);
    quote((const uint8_t *)script + from, to - from);
    if (row[MAGIC_STRING_TEXT_AT] != MAGIC_STRING_NONE) {
      printf(" is replaced by ");
      quote(store + row[MAGIC_STRING_TEXT_AT], row[MAGIC_STRING_TEXT_N]);
    }
    putchar('\n');
    list("outro", row[MAGIC_STRING_OUTRO_AT], row[MAGIC_STRING_OUTRO_N]);
  }
  list("tail", chunks[MAGIC_STRING_OUTRO_AT], chunks[MAGIC_STRING_OUTRO_N]);
}

/* Document 02's sheet: the version, the source "abc" behind its length, and a
 * record behind its length: kind 8, a move of the bytes from 0 up to 2 to 3. */
static const char example[] = "\x01"
                              "\x00\x03"
                              "abc"
                              "\x00\x0D"
                              "\x08"
                              "\x00\x00\x00\x00"
                              "\x00\x00\x00\x02"
                              "\x00\x00\x00\x03";
#define EXAMPLE_LEN (sizeof example - 1)

/* Says what a run of a sheet with one record answered. Then the record's answer
 * and the text of the desk, which are those of before if it was refused. */
static void run(const char *call, const uint8_t *sheet, uint8_t *answers) {
  const uint8_t *source = sheet + MAGIC_STRING_SHEET_FRONT;
  size_t source_len = (size_t)sheet[1] << 8 | sheet[2];
  magic_string_answer answer = magic_string_run_sheet(
      sheet, EXAMPLE_LEN, TABLES, answers, MAGIC_STRING_SHEET_RECORDS);
  printf("\n%s: %u, %s\n", call, (unsigned)answer.number, words[answer.number]);
  printf("  its record: %u, %s\n  the text: ", (unsigned)answers[0],
         words[answers[0]]);
  answer = magic_string_to_string(source, source_len, TABLES, out, sizeof out);
  quote(out, answer.value);
  putchar('\n');
}

static void sheets(void) {
  uint8_t sheet[EXAMPLE_LEN];
  uint8_t answers[MAGIC_STRING_SHEET_RECORDS];
  memcpy(sheet, example, EXAMPLE_LEN);
  run("run a sheet", sheet, answers);
  sheet[0] = MAGIC_STRING_SHEET_VERSION + 1;
  run("run a sheet of another version", sheet, answers);
}

int main(void) {
  magic_string_answer opened = magic_string_open(DESK);
  printf("open: %u, %s\n", (unsigned)opened.number, words[opened.number]);
  show(opened);
  edit("replace north",
       magic_string_update_with(DESK, start("north"), end("north"),
                                TEXT("north-west"), 0));
  edit("add behind 12",
       magic_string_insert(DESK, end("12"), TEXT(" to 15"), LEFT, BACK));
  edit("add before over",
       magic_string_insert(DESK, start("over"), TEXT("and "), RIGHT, BACK));
  edit("remove the sea",
       magic_string_remove(DESK, start(", sea"), end("calm")));
  edit("move the air before the wind",
       magic_string_relocate(DESK, start("  Air"), start("Good"),
                             start("  Wind")));
  edit("remove from inside the Å",
       magic_string_remove(DESK, start("Å") + 1, end("Å")));
  edit("add inside a replaced word",
       magic_string_insert(DESK, start("north") + 1, TEXT("?"), LEFT, BACK));
  edit("replace across the moved line",
       magic_string_update_with(DESK, start("Radio"), end("Wind"), TEXT("?"),
                                0));
  edit("reset past the source", magic_string_reset(DESK, 0, UINT32_MAX));
  edit("append", magic_string_append(DESK, TEXT("73 \n\n")));
  edit("trim the end", magic_string_trim_end(DESK, 0));
  draw();
  sheets();
  return 0;
}
