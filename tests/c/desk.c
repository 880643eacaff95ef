/* Makes every call of the header once or more, on memory of exactly the lengths
 * that it asks for, so that valgrind sees a read or a write beside it. */
#include "magic_string.h"

#include <stdio.h>
#include <stdlib.h>
#include <string.h>

static const char script[] = "  abcdef\n  é\n";

static uint8_t *source;
static uint32_t *chunks, *pieces;
static uint8_t *store, *out;
static size_t source_len, out_len;

#define TABLES                                                                 \
  chunks, MAGIC_STRING_CHUNKS_LEN, pieces, MAGIC_STRING_PIECES_LEN, store,     \
      MAGIC_STRING_STORE_LEN
#define DESK source, source_len, TABLES
#define OUT out, out_len
#define TEXT(t) (const uint8_t *)(t), strlen(t)

/* Prints bytes with line feeds as \n. */
static void text(const uint8_t *bytes, uint32_t n) {
  putchar('"');
  for (uint32_t i = 0; i < n; i++)
    bytes[i] == '\n' ? (void)fputs("\\n", stdout) : (void)putchar(bytes[i]);
  puts("\"");
}

/* An edit's answer, and the output after it. */
static void edit(const char *call, magic_string_answer answer) {
  magic_string_answer shown = magic_string_to_string(DESK, OUT);
  printf("%-28s %2u %u  ", call, (unsigned)answer.number,
         (unsigned)answer.value);
  text(out, shown.value);
}

/* A report's answer, and what it wrote. */
static void filled(const char *call, magic_string_answer answer) {
  printf("%-28s %2u %u  ", call, (unsigned)answer.number,
         (unsigned)answer.value);
  text(out, answer.value);
}

static void reported(const char *call, magic_string_answer answer) {
  printf("%-28s %2u %u\n", call, (unsigned)answer.number,
         (unsigned)answer.value);
}

/* The lines of what is appended piece by piece on an empty source. */
static void lines(void) {
  static const char *const texts[][2] = {
      {"line_count of \"\"", ""},
      {"line_count of \"a\\n\\r\"", "a\n\r"},
      {"line_count of \"a\\n\\r\\n\"", "\n"},
      {"the same, empty piece last", ""}};
  magic_string_open(source, 0, TABLES);
  for (size_t i = 0; i < sizeof texts / sizeof *texts; i++) {
    magic_string_append(source, 0, TABLES, TEXT(texts[i][1]));
    reported(texts[i][0], magic_string_line_count(source, 0, TABLES));
  }
}

static void edits(void) {
  static const uint32_t exclude[2] = {9, 13};
  edit("remove 3,7", magic_string_remove(DESK, 3, 7));
  /* Any number but 0 says left, and front. */
  edit("append_left 5 Z",
       magic_string_insert(DESK, 5, TEXT("Z"), UINT32_C(0x80000000), 0));
  edit("prepend_left 5 Y",
       magic_string_insert(DESK, 5, TEXT("Y"), 2, UINT32_MAX));
  edit("append_right 5 z", magic_string_insert(DESK, 5, TEXT("z"), 0, 0));
  edit("prepend_right 5 y", magic_string_insert(DESK, 5, TEXT("y"), 0, 256));
  edit("prepend", magic_string_prepend(DESK, TEXT(" >")));
  edit("append", magic_string_append(DESK, TEXT("< \n")));
  edit("relocate 2,3,8", magic_string_relocate(DESK, 2, 3, 8));
  edit("update_with 7,8 FF",
       magic_string_update_with(DESK, 7, 8, TEXT("FF"), 1));
  edit("reset 4,6", magic_string_reset(DESK, 4, 6));
  edit("trim_lines", magic_string_trim_lines(DESK));
  edit("trim_end 0", magic_string_trim_end(DESK, 0));
  edit("trim_start 0", magic_string_trim_start(DESK, 0));
  edit("indent_with",
       magic_string_indent_with(DESK, 1, TEXT("| "), exclude, 2));
  edit("append", magic_string_append(DESK, TEXT("\t")));
  edit("trim 0", magic_string_trim(DESK, 0));
}

/* Cuts that remain, after refusals too. */
static void cuts(void) {
  static const uint32_t exclude[1] = {0};
  static char too_long[MAGIC_STRING_STORE_BYTES + 2];
  memset(too_long, 'x', sizeof too_long - 1);
  edit("open", magic_string_open(DESK));
  edit("update_with 4,6 XX",
       magic_string_update_with(DESK, 4, 6, TEXT("XX"), 0));
  edit("remove 3,5, cut at 3", magic_string_remove(DESK, 3, 5));
  edit("remove 3,5, an edge at 3", magic_string_remove(DESK, 3, 5));
  edit("insert 5", magic_string_insert(DESK, 5, TEXT("Y"), 0, 0));
  edit("relocate 7,9,5, two cuts", magic_string_relocate(DESK, 7, 9, 5));
  edit("update_with 8,99, cut at 8",
       magic_string_update_with(DESK, 8, 99, TEXT(""), 0));
  edit("reset 1,99", magic_string_reset(DESK, 1, 99));
  edit("relocate 3,7,9", magic_string_relocate(DESK, 3, 7, 9));
  edit("relocate 2,10,1, three cuts", magic_string_relocate(DESK, 2, 10, 1));
  edit("open", magic_string_open(DESK));
  edit("relocate 3,7,9", magic_string_relocate(DESK, 3, 7, 9));
  edit("update_with 2,5, two cuts",
       magic_string_update_with(DESK, 2, 5, TEXT("XX"), 0));
  edit("insert 8, text too long",
       magic_string_insert(DESK, 8, TEXT(too_long), 1, 0));
  edit("open", magic_string_open(DESK));
  edit("indent_with, line at 9",
       magic_string_indent_with(DESK, 1, TEXT("|"), exclude, 0));
  edit("indent_with, an edge there",
       magic_string_indent_with(DESK, 0, TEXT(""), exclude, 0));
  edit("trim_lines", magic_string_trim_lines(DESK));
}

static void reports(void) {
  filled("to_string", magic_string_to_string(DESK, OUT));
  filled("slice 2,3", magic_string_slice(DESK, 2, 1, 3, OUT));
  filled("slice 8", magic_string_slice(DESK, 8, 0, 0, OUT));
  filled("last_line", magic_string_last_line(DESK, OUT));
  filled("get_indent_string", magic_string_get_indent_string(DESK, OUT));
  reported("len", magic_string_len(DESK));
  reported("len_utf16", magic_string_len_utf16(DESK));
  reported("line_count", magic_string_line_count(DESK));
  reported("is_empty", magic_string_is_empty(DESK));
  reported("has_changed", magic_string_has_changed(DESK));
  reported("last_char", magic_string_last_char(DESK));
  reported("is_range_within.. 7,8",
           magic_string_is_range_within_edited_chunk(DESK, 7, 8));
  reported("well_formed", magic_string_well_formed(DESK));
}

static void refusals(void) {
  edit("append with byte FF", magic_string_append(DESK, TEXT("\xFF")));
  edit("remove 11,12", magic_string_remove(DESK, 11, 12));
  edit("remove 2,1", magic_string_remove(DESK, 2, 1));
  edit("trim 2", magic_string_trim(DESK, 2));
  out_len = 1;
  filled("to_string into 1 byte", magic_string_to_string(DESK, OUT));
  memset(chunks, 0, MAGIC_STRING_CHUNKS_LEN * sizeof *chunks);
  reported("well_formed of zeros", magic_string_well_formed(DESK));
  edit("remove on zeros", magic_string_remove(DESK, 0, 1));
}

/* Document 02's sheet: "abc", and a record that moves a and b behind c. */
static const char example[] = "\x01\x00\x03"
                              "abc"
                              "\x00\x0D\x08"
                              "\x00\x00\x00\x00"
                              "\x00\x00\x00\x02"
                              "\x00\x00\x00\x03";
#define EXAMPLE_LEN (sizeof example - 1)

/* A copy of the tables, and whether each byte of them still is as it was. */
static uint32_t chunks_before[MAGIC_STRING_CHUNKS_LEN];
static uint32_t pieces_before[MAGIC_STRING_PIECES_LEN];
static uint8_t store_before[MAGIC_STRING_STORE_LEN];

static void keep_tables(void) {
  memcpy(chunks_before, chunks, sizeof chunks_before);
  memcpy(pieces_before, pieces, sizeof pieces_before);
  memcpy(store_before, store, sizeof store_before);
}

static const char *tables_now(void) {
  int same = !memcmp(chunks_before, chunks, sizeof chunks_before) &&
             !memcmp(pieces_before, pieces, sizeof pieces_before) &&
             !memcmp(store_before, store, sizeof store_before);
  return same ? "as before" : "written";
}

/* Runs a sheet with room for one answer, which is 99 before. Prints the answer
 * of the run and of the record, whether each byte of the tables is as it was,
 * and the output. */
static void run(const char *call, const uint8_t *sheet, uint8_t *answers) {
  answers[0] = 99;
  keep_tables();
  reported(call,
           magic_string_run_sheet(sheet, EXAMPLE_LEN, TABLES, answers, 1));
  printf("  answer %u, tables %s, ", (unsigned)answers[0], tables_now());
  magic_string_answer shown = magic_string_to_string(
      sheet + MAGIC_STRING_SHEET_FRONT, 3, TABLES, out, 3);
  text(out, shown.value);
}

static void sheets(void) {
  uint8_t *sheet = malloc(EXAMPLE_LEN), *answers = malloc(1);
  if (!sheet || !answers)
    exit(1);
  memcpy(sheet, example, EXAMPLE_LEN);
  memset(chunks, 0xA5, MAGIC_STRING_CHUNKS_LEN * sizeof *chunks);
  memset(pieces, 0xA5, MAGIC_STRING_PIECES_LEN * sizeof *pieces);
  memset(store, 0xA5, MAGIC_STRING_STORE_LEN);
  run("run_sheet on any bytes", sheet, answers);
  sheet[0] = 2;
  run("run_sheet of version 2", sheet, answers);
  free(sheet);
  free(answers);
}

/* A record of filed calls in memory of exactly these lengths, and calls in the
 * form of a sheet's record. */
static uint32_t *words;
static uint8_t *bytes;

#define RECORD                                                                 \
  words, MAGIC_STRING_RECORD_WORDS_LEN, bytes, MAGIC_STRING_RECORD_BYTES_LEN
#define ENTRIES source, source_len, RECORD
#define CALL(c) (const uint8_t *)(c), sizeof(c) - 1

#define REMOVE_3_7 "\0\x09\x01\0\0\0\x03\0\0\0\x07"
#define REMOVE_7_3 "\0\x09\x01\0\0\0\x07\0\0\0\x03"
#define APPEND_LEFT_5 "\0\x06\x04\0\0\0\x05!"
#define NOT_UTF8_5 "\0\x06\x04\0\0\0\x05\xFF"
#define RELOCATE_2_3_8 "\0\x0D\x08\0\0\0\x02\0\0\0\x03\0\0\0\x08"

/* How many calls are filed: each is as long as its first two bytes say, and
 * these. */
static uint32_t filed(void) {
  uint32_t count = 0, at = 0;
  for (; at < words[MAGIC_STRING_RECORD_USED]; count++)
    at += 2 + (uint32_t)(bytes[at] << 8 | bytes[at + 1]);
  return count;
}

/* What filing or withdrawing answered, how many calls are filed and in how many
 * bytes, the answers of the first of them, and the output. */
static void kept(const char *call, magic_string_answer answer) {
  uint32_t count = filed();
  printf("%-28s %2u %u  %u calls, %u bytes:", call, (unsigned)answer.number,
         (unsigned)answer.value, (unsigned)count,
         (unsigned)words[MAGIC_STRING_RECORD_USED]);
  for (uint32_t i = 0; i < count && i < 5; i++)
    printf(" %u", (unsigned)bytes[MAGIC_STRING_RECORD_ANSWERS + i]);
  fputs("  ", stdout);
  answer = magic_string_to_string(DESK, OUT);
  text(out, answer.value);
}

/* The answers of all calls on a record that is lent with these lengths. */
static void lengths(const char *what, size_t words_len, size_t bytes_len) {
  reported(what, magic_string_file(DESK, words, words_len, bytes, bytes_len,
                                   CALL(REMOVE_3_7)));
  reported("  withdraw 1",
           magic_string_withdraw(DESK, words, words_len, bytes, bytes_len, 1));
  reported("  freeze 0,1",
           magic_string_freeze(DESK, words, words_len, bytes, bytes_len, 0, 1));
  reported("  set_marks 1,101",
           magic_string_set_marks(source, source_len, words, words_len, bytes,
                                  bytes_len, 1, 101));
  reported("  entry 1", magic_string_entry(source, source_len, words, words_len,
                                           bytes, bytes_len, 1, OUT));
  reported("  marked_entry 0",
           magic_string_marked_entry(source, source_len, words, words_len,
                                     bytes, bytes_len, 0, OUT));
  reported("  total", magic_string_total(source, source_len, words, words_len,
                                         bytes, bytes_len));
}

/* What lies in an empty record before: no marks are so high. */
#define ANY 199

/* Tells whether all bytes behind these of the calls, and behind as many answers
 * and marks, still are so. */
static void behind(size_t used, size_t count) {
  int same = 1;
  for (size_t i = used; i < MAGIC_STRING_RECORD_ANSWERS; i++)
    same = same && bytes[i] == ANY;
  for (size_t i = count; i < MAGIC_STRING_RECORD_CALLS; i++)
    same = same && bytes[MAGIC_STRING_RECORD_ANSWERS + i] == ANY &&
           bytes[MAGIC_STRING_RECORD_MARKS + i] == ANY;
  printf("  the bytes behind %s\n", same ? "as before" : "written");
}

static void records(void) {
  words = calloc(MAGIC_STRING_RECORD_WORDS_LEN, sizeof *words);
  bytes = malloc(MAGIC_STRING_RECORD_BYTES_LEN);
  if (!words || !bytes)
    exit(1);
  /* An empty record: its first word is 0, whatever else it holds. */
  memset(bytes, ANY, MAGIC_STRING_RECORD_BYTES_LEN);
  magic_string_open(DESK);
  kept("withdraw 1 of none", magic_string_withdraw(DESK, RECORD, 1));
  kept("file remove 3,7", magic_string_file(DESK, RECORD, CALL(REMOVE_3_7)));
  kept("file append_left 5",
       magic_string_file(DESK, RECORD, CALL(APPEND_LEFT_5)));
  kept("file remove 7,3", magic_string_file(DESK, RECORD, CALL(REMOVE_7_3)));
  kept("file with byte FF", magic_string_file(DESK, RECORD, CALL(NOT_UTF8_5)));
  kept("file relocate 2,3,8",
       magic_string_file(DESK, RECORD, CALL(RELOCATE_2_3_8)));
  kept("file no byte", magic_string_file(DESK, RECORD, CALL("")));
  kept("file a byte too many",
       magic_string_file(DESK, RECORD, CALL(REMOVE_3_7 "\0")));
  kept("file two calls",
       magic_string_file(DESK, RECORD, CALL(REMOVE_3_7 REMOVE_3_7)));
  kept("withdraw 0", magic_string_withdraw(DESK, RECORD, 0));
  kept("withdraw 6", magic_string_withdraw(DESK, RECORD, 6));
  uint32_t used = words[MAGIC_STRING_RECORD_USED];
  behind(used, 5);
  lengths("file, no word", 0, MAGIC_STRING_RECORD_BYTES_LEN);
  lengths("file, a byte too few", MAGIC_STRING_RECORD_WORDS_LEN,
          MAGIC_STRING_RECORD_BYTES_LEN - 1);
  /* A record before it kept a desk, and one before it had marks. */
  lengths("file, without a kept desk", 1, MAGIC_STRING_RECORD_MARKS);
  lengths("file, without marks", MAGIC_STRING_RECORD_WORDS_LEN,
          MAGIC_STRING_RECORD_BYTES_LEN - MAGIC_STRING_RECORD_CALLS);
  /* An edit that is not filed, and is lost. */
  edit("append", magic_string_append(DESK, TEXT("lost")));
  kept("withdraw 1", magic_string_withdraw(DESK, RECORD, 1));
  kept("withdraw 4", magic_string_withdraw(DESK, RECORD, 4));
  behind(used, 5);
  edit("open", magic_string_open(DESK));
  kept("withdraw 2", magic_string_withdraw(DESK, RECORD, 2));
  words[MAGIC_STRING_RECORD_USED]--;
  lengths("file, a call cut short", MAGIC_STRING_RECORD_WORDS_LEN,
          MAGIC_STRING_RECORD_BYTES_LEN);
}

/* Every place of 20: a range, a desk to be trimmed or indented, and freezing
 * while calls are filed. */
static void freezes(void) {
  static const uint32_t exclude[1] = {0};
  words[MAGIC_STRING_RECORD_USED] = 0;
  magic_string_open(DESK);
  edit("freeze 12,12", magic_string_freeze(DESK, RECORD, 12, 12));
  edit("freeze 5,4", magic_string_freeze(DESK, RECORD, 5, 4));
  edit("freeze 4,15", magic_string_freeze(DESK, RECORD, 4, 15));
  edit("freeze 4,4", magic_string_freeze(DESK, RECORD, 4, 4));
  edit("freeze 4,6, two cuts", magic_string_freeze(DESK, RECORD, 4, 6));
  edit("freeze 5,7, two cuts", magic_string_freeze(DESK, RECORD, 5, 7));
  edit("remove 3,5, cut at 3", magic_string_remove(DESK, 3, 5));
  edit("update_with 6,8, cut at 8",
       magic_string_update_with(DESK, 6, 8, TEXT("XX"), 1));
  edit("update_with 4,99",
       magic_string_update_with(DESK, 4, 99, TEXT("XX"), 1));
  edit("reset 0,14", magic_string_reset(DESK, 0, 14));
  keep_tables();
  edit("trim 0", magic_string_trim(DESK, 0));
  edit("trim 2", magic_string_trim(DESK, 2));
  edit("trim_start 1", magic_string_trim_start(DESK, 1));
  edit("trim_end 0", magic_string_trim_end(DESK, 0));
  edit("trim_lines", magic_string_trim_lines(DESK));
  edit("indent_with nothing",
       magic_string_indent_with(DESK, 1, TEXT(""), exclude, 0));
  printf("  tables %s\n", tables_now());
  kept("file remove 3,7", magic_string_file(DESK, RECORD, CALL(REMOVE_3_7)));
  kept("file append_left 5",
       magic_string_file(DESK, RECORD, CALL(APPEND_LEFT_5)));
  edit("freeze 0,1, calls are filed", magic_string_freeze(DESK, RECORD, 0, 1));
  uint32_t count = words[MAGIC_STRING_KEPT_CHUNKS];
  words[MAGIC_STRING_KEPT_CHUNKS] = 0;
  lengths("file, no kept chunks", MAGIC_STRING_RECORD_WORDS_LEN,
          MAGIC_STRING_RECORD_BYTES_LEN);
  words[MAGIC_STRING_KEPT_CHUNKS] = count;
  /* Another source. */
  source_len = 8;
  edit("open 8 bytes", magic_string_open(DESK));
  lengths("file", MAGIC_STRING_RECORD_WORDS_LEN, MAGIC_STRING_RECORD_BYTES_LEN);
  source_len = strlen(script);
  edit("open", magic_string_open(DESK));
  edit("freeze 0,1, calls are filed", magic_string_freeze(DESK, RECORD, 0, 1));
  kept("withdraw 2", magic_string_withdraw(DESK, RECORD, 2));
  kept("withdraw 1", magic_string_withdraw(DESK, RECORD, 1));
  edit("trim 0", magic_string_trim(DESK, 0));
  edit("freeze 0,1, cut at 1", magic_string_freeze(DESK, RECORD, 0, 1));
}

/* Reads the k-th entry, the examiner's way or the member's, into memory of
 * exactly this length, which holds EE all over. Prints the answer and the
 * memory. */
static void read_entry(const char *call, int marked, uint32_t k,
                       size_t length) {
  uint8_t *read = malloc(length + !length);
  if (!read)
    exit(1);
  memset(read, 0xEE, length);
  magic_string_answer answer =
      marked ? magic_string_marked_entry(ENTRIES, k, read, length)
             : magic_string_entry(ENTRIES, k, read, length);
  printf("%-28s %2u %u", call, (unsigned)answer.number, (unsigned)answer.value);
  for (size_t i = 0; i < length; i++)
    printf("%s%02X", i ? " " : "  ", (unsigned)read[i]);
  putchar('\n');
  free(read);
}

/* Every number of the examiner's calls and of the member's reading, what they
 * write, and where marks go with withdrawals. */
static void marks(void) {
  words[MAGIC_STRING_RECORD_USED] = 0;
  memset(bytes, ANY, MAGIC_STRING_RECORD_BYTES_LEN);
  magic_string_open(DESK);
  reported("total of none", magic_string_total(ENTRIES));
  reported("set_marks 1,0 of none", magic_string_set_marks(ENTRIES, 1, 0));
  magic_string_file(DESK, RECORD, CALL(REMOVE_3_7));
  magic_string_file(DESK, RECORD, CALL(APPEND_LEFT_5));
  magic_string_file(DESK, RECORD, CALL(REMOVE_7_3));
  reported("total of three", magic_string_total(ENTRIES));
  reported("set_marks 1,100", magic_string_set_marks(ENTRIES, 1, 100));
  reported("set_marks 2,30", magic_string_set_marks(ENTRIES, 2, 30));
  reported("set_marks 3,7", magic_string_set_marks(ENTRIES, 3, 7));
  reported("set_marks 3,101", magic_string_set_marks(ENTRIES, 3, 101));
  reported("set_marks 3,2^32-1",
           magic_string_set_marks(ENTRIES, 3, UINT32_MAX));
  reported("set_marks 0,101", magic_string_set_marks(ENTRIES, 0, 101));
  reported("set_marks 4,101", magic_string_set_marks(ENTRIES, 4, 101));
  behind(words[MAGIC_STRING_RECORD_USED], 3);
  reported("total", magic_string_total(ENTRIES));
  read_entry("entry 1", 0, 1, 12);
  read_entry("entry 1, a byte too few", 0, 1, 11);
  read_entry("entry 2, and 2 bytes more", 0, 2, 11);
  read_entry("entry 0 into no byte", 0, 0, 0);
  read_entry("marked_entry 1", 1, 1, 13);
  read_entry("marked_entry 2", 1, 2, 10);
  read_entry("the same, a byte too few", 1, 2, 9);
  read_entry("marked_entry 4", 1, 4, 1);
  kept("withdraw 2", magic_string_withdraw(DESK, RECORD, 2));
  reported("total", magic_string_total(ENTRIES));
  read_entry("marked_entry 2", 1, 2, 13);
  kept("file append_left 5",
       magic_string_file(DESK, RECORD, CALL(APPEND_LEFT_5)));
  read_entry("marked_entry 3", 1, 3, 10);
  bytes[MAGIC_STRING_RECORD_MARKS + 2] = 101;
  lengths("file, marks above 100", MAGIC_STRING_RECORD_WORDS_LEN,
          MAGIC_STRING_RECORD_BYTES_LEN);
  bytes[MAGIC_STRING_RECORD_MARKS + 2] = 100;
  /* Marks behind the filed calls are not looked at. */
  bytes[MAGIC_STRING_RECORD_MARKS + 3] = 101;
  reported("total", magic_string_total(ENTRIES));
  /* Nor is the desk, and of an empty record the source. */
  chunks[0] = 0;
  reported("total beside no desk", magic_string_total(ENTRIES));
  reported("total over 8 bytes", magic_string_total(source, 8, RECORD));
  words[MAGIC_STRING_RECORD_USED] = 0;
  reported("total of none", magic_string_total(source, 8, RECORD));
}

/* 13 for the record, which does not grow, and 13 for the desk. */
static void limits(void) {
  static char longest[MAGIC_STRING_STORE_BYTES + 1];
  words[MAGIC_STRING_RECORD_USED] = 0;
  magic_string_open(DESK);
  for (int i = 0; i < MAGIC_STRING_RECORD_CALLS; i++)
    magic_string_file(DESK, RECORD, CALL(REMOVE_7_3));
  kept("file a call too many",
       magic_string_file(DESK, RECORD, CALL(REMOVE_7_3)));
  kept("withdraw the last",
       magic_string_withdraw(DESK, RECORD, MAGIC_STRING_RECORD_CALLS));
  kept("file in its place", magic_string_file(DESK, RECORD, CALL(REMOVE_3_7)));
  kept("withdraw the first", magic_string_withdraw(DESK, RECORD, 1));
  words[MAGIC_STRING_RECORD_USED] = 0;
  memset(longest, 'x', sizeof longest - 1);
  magic_string_append(DESK, TEXT(longest));
  kept("file, the desk is full",
       magic_string_file(DESK, RECORD, CALL(APPEND_LEFT_5)));
  /* The desk stays full: its text was appended before the call was filed. */
  kept("withdraw 1", magic_string_withdraw(DESK, RECORD, 1));
  free(words);
  free(bytes);
}

/* Lists of calls, in the same form, that are joined with one another. */
#define REMOVE_3_3 "\0\x09\x01\0\0\0\x03\0\0\0\x03"
#define UPDATE_3_7 "\0\x0B\x02\0\0\0\x03\0\0\0\x07XY"
#define APPEND_LEFT_3 "\0\x06\x04\0\0\0\x03("
#define PREPEND_RIGHT_7 "\0\x06\x07\0\0\0\x07)"
#define APPEND_LEFT_0 "\0\x06\x04\0\0\0\x00<"
#define APPEND_RIGHT_14 "\0\x06\x05\0\0\0\x0E>"
#define APPEND_LEFT_12 "\0\x06\x04\0\0\0\x0C?"
#define APPEND_LEFT_15 "\0\x06\x04\0\0\0\x0F?"
#define NOT_UTF8_8 "\0\x06\x04\0\0\0\x08\xFF"
#define RELOCATE_2_5_8 "\0\x0D\x08\0\0\0\x02\0\0\0\x05\0\0\0\x08"

/* Joins two lists, each in memory of exactly its length. Prints the answer,
 * whether each byte of the tables is as it was, and the output. */
static void join(const char *call, const char *first, size_t first_len,
                 const char *second, size_t second_len) {
  uint8_t *lists[2] = {malloc(first_len + !first_len),
                       malloc(second_len + !second_len)};
  if (!lists[0] || !lists[1])
    exit(1);
  memcpy(lists[0], first, first_len);
  memcpy(lists[1], second, second_len);
  keep_tables();
  edit(call,
       magic_string_join(DESK, lists[0], first_len, lists[1], second_len));
  printf("  tables %s\n", tables_now());
  free(lists[0]);
  free(lists[1]);
}

#define LIST(l) l, sizeof(l) - 1
#define FIRST UPDATE_3_7 APPEND_LEFT_0
#define SECOND PREPEND_RIGHT_7 RELOCATE_2_3_8 APPEND_LEFT_3 APPEND_RIGHT_14

/* Every number of a join; those that stand before another one come with it. */
static void joins(void) {
  static char long_first[MAGIC_STRING_STORE_BYTES / 2 + 7];
  static char long_second[MAGIC_STRING_STORE_BYTES / 2 + 8];
  magic_string_open(DESK);
  join("join two lists", LIST(FIRST), LIST(SECOND));
  magic_string_open(DESK);
  join("join, the second one first", LIST(SECOND), LIST(FIRST));
  join("join no calls", LIST(""), LIST(""));
  magic_string_open(DESK);
  join("join with a byte too many", LIST(REMOVE_3_7), LIST(REMOVE_3_3 "\0"));
  join("join of zero width", LIST(REMOVE_3_3), LIST(NOT_UTF8_8));
  join("join backwards", LIST(""), LIST(REMOVE_7_3));
  join("join past the source", LIST(APPEND_LEFT_15), LIST(""));
  join("join at the same byte", LIST(REMOVE_3_7), LIST(APPEND_LEFT_5));
  join("join two moves", LIST(RELOCATE_2_3_8), LIST(RELOCATE_2_5_8));
  join("join, a move from inside", LIST(UPDATE_3_7), LIST(RELOCATE_2_5_8));
  join("join with byte FF", LIST(REMOVE_3_7), LIST(NOT_UTF8_8));
  join("join inside a character", LIST(APPEND_LEFT_12), LIST(FIRST));

  /* Two texts of half the store, and a byte. */
  memset(long_first, 'x', sizeof long_first);
  memset(long_second, 'x', sizeof long_second);
  memcpy(long_first, "\x40\x05\x04\0\0\0\0", 7);
  memcpy(long_second, "\x40\x06\x05\0\0\0\x0E", 7);
  join("join, a byte too many", long_first, sizeof long_first, long_second,
       sizeof long_second);
  source_len = 0;
  magic_string_open(DESK);
  join("join no calls on \"\"", LIST(""), LIST(""));
  memset(chunks, 0, MAGIC_STRING_CHUNKS_LEN * sizeof *chunks);
  join("join on zeros", LIST("\0"), LIST(""));
  source_len = strlen(script);
}

int main(void) {
  source_len = strlen(script);
  out_len = source_len + 16;
  source = malloc(source_len);
  chunks = malloc(MAGIC_STRING_CHUNKS_LEN * sizeof *chunks);
  pieces = malloc(MAGIC_STRING_PIECES_LEN * sizeof *pieces);
  store = malloc(MAGIC_STRING_STORE_LEN);
  out = malloc(out_len);
  if (!source || !chunks || !pieces || !store || !out)
    return 1;
  memcpy(source, script, source_len);
  lines();
  cuts();
  edit("open", magic_string_open(DESK));
  reported("line_count", magic_string_line_count(DESK));
  edits();
  reports();
  refusals();
  sheets();
  out_len = source_len + 16;
  records();
  freezes();
  marks();
  limits();
  joins();
  free(source);
  free(chunks);
  free(pieces);
  free(store);
  free(out);
  return 0;
}
