/* magic_string.h: desks of document 01 in lent memory, for C.
 *
 * A desk is four slices that the caller lends: the source, and three tables
 * whose words docs/LAYOUT.md describes. Every function takes them first, each
 * as a pointer and a length in elements, but that run_sheet takes a sheet in
 * the place of the source, and the calls on marks and entries a record in the
 * place of the tables. It works on any content and any length, always returns,
 * and keeps nothing. Pointers are not null and are valid for their lengths, a
 * slice of length 0 too: pass the address of any object of the element's type.
 * A slice that is written lies apart from the others, and nothing else writes
 * any of them during the call.
 *
 * A call uses no heap. Its stack, measured: an edit, a sheet, and a call on a
 * desk and a record up to 128 kB, a join up to 210 kB, the check, a report and
 * the calls on marks and entries up to 20 kB.
 *
 * The tables do not hold the source, and nothing in them tells which it was. A
 * caller lends the same source to every call on a desk: another one of the same
 * length with the same boundaries between characters is no less a desk, so it
 * gives no 2, and the output shows that other source.
 *
 * Options are numbers; any value but 0 is yes. Texts are UTF-8. Positions are
 * byte offsets into the source, "from start up to end" is without end.
 *
 * Every call gives a number and a value. The number is 0 if the call was
 * accepted, or a refusal, whose name is in the enum below:
 *
 *    1 text not UTF-8                  11 slice starts inside a replaced chunk
 *    2 desk or record not well formed  12 slice ends there
 *    3 position inside a character     13 the desk would break a limit
 *    4 end before start                14 output buffer too short
 *    5 replace zero width              15 pattern above 1, odd exclude list
 *    6 cut inside a replacement        16 sheet, list or call breaks its rules
 *    7 replace across a moved edge     17 no call with that number is filed
 *    8 move into itself                18 calls to be joined are not apart
 *    9 moved range not together        19 one of them is refused alone
 *   10 end past source                 20 a frozen chunk, or calls are filed
 *                                      21 marks above 100
 *
 * "Numbers" below are those that the call may give, in the order in which they
 * are tested. 13 is given if the desk that the call would leave breaks a limit,
 * and then in place of the answers that it is named for; file gives it for the
 * limits of a record too, and join for the space that it reckons.
 *
 * What lent memory holds afterwards:
 *
 *  - The source, texts, sheets, lists to be joined and calls to be filed are
 *    never written.
 *  - After 0 the tables hold the desk that the call leaves. Which rows and
 *    which bytes of the store it lies in is the library's choice. Where a call
 *    is said to do nothing, and after every report, each byte of the tables is
 *    as it was.
 *  - After a refusal each byte of the tables is as it was, but where "After"
 *    says that something stays (after 6, 7, 9, update_with's 10, and the 20 of
 *    remove, update_with and reset, by file too): the tables then hold that
 *    desk, well formed, in rows and bytes of the library's choice.
 *  - A report that fills a buffer writes its text to the front of it and leaves
 *    the bytes behind; so do run_sheet with its answers and entry and
 *    marked_entry with an entry. No refusal writes a buffer.
 *  - A record is written by file, withdraw and set_marks alone, as they say;
 *    the other calls that take one only read it.
 */
#ifndef MAGIC_STRING_H
#define MAGIC_STRING_H

#include <stddef.h>
#include <stdint.h>

#ifdef __cplusplus
extern "C" {
#endif

/* Limits of a desk. */
#define MAGIC_STRING_SOURCE_BYTES 16384
#define MAGIC_STRING_CHUNKS 512
#define MAGIC_STRING_PIECES 1024
#define MAGIC_STRING_STORE_BYTES 32768

/* A sheet: its version, how many bytes stand before its source, and its limits,
 * the records and the bytes in all. The limits are those of a list to be joined
 * too. */
#define MAGIC_STRING_SHEET_VERSION 1
#define MAGIC_STRING_SHEET_FRONT 3
#define MAGIC_STRING_SHEET_RECORDS 200
#define MAGIC_STRING_SHEET_BYTES 57344

/* A record of filed calls: its limits, the calls, the bytes of their texts
 * together and the marks of a call; the most bytes of a filed call before its
 * text; the place of the word that counts the calls' bytes; and where the
 * answers begin in its bytes, behind room for the calls, and the marks, behind
 * room for the answers. */
#define MAGIC_STRING_RECORD_CALLS 200
#define MAGIC_STRING_RECORD_TEXT 32768
#define MAGIC_STRING_HIGHEST_MARKS 100
#define MAGIC_STRING_RECORD_FRONT 15
#define MAGIC_STRING_RECORD_USED 0
#define MAGIC_STRING_RECORD_ANSWERS                                            \
  (MAGIC_STRING_RECORD_CALLS * MAGIC_STRING_RECORD_FRONT +                     \
   MAGIC_STRING_RECORD_TEXT)
#define MAGIC_STRING_RECORD_MARKS                                              \
  (MAGIC_STRING_RECORD_ANSWERS + MAGIC_STRING_RECORD_CALLS)

/* Words in a row of chunks, and in a row of pieces. */
#define MAGIC_STRING_ROW 12
#define MAGIC_STRING_PIECE 2

/* Lengths of the lent tables, in elements: the desk's own row and one for each
 * chunk; two rows for each piece; the store. */
#define MAGIC_STRING_CHUNKS_LEN ((1 + MAGIC_STRING_CHUNKS) * MAGIC_STRING_ROW)
#define MAGIC_STRING_PIECES_LEN (2 * MAGIC_STRING_PIECES * MAGIC_STRING_PIECE)
#define MAGIC_STRING_STORE_LEN MAGIC_STRING_STORE_BYTES

/* Where the desk that a record keeps begins: its chunks and its pieces in the
 * record's words, behind the first of them, and its store in the bytes, behind
 * the marks. Each is as long as the table of its name. */
#define MAGIC_STRING_KEPT_CHUNKS (MAGIC_STRING_RECORD_USED + 1)
#define MAGIC_STRING_KEPT_PIECES                                               \
  (MAGIC_STRING_KEPT_CHUNKS + MAGIC_STRING_CHUNKS_LEN)
#define MAGIC_STRING_KEPT_STORE                                                \
  (MAGIC_STRING_RECORD_MARKS + MAGIC_STRING_RECORD_CALLS)

/* Lengths of a lent record's words and bytes. */
#define MAGIC_STRING_RECORD_WORDS_LEN                                          \
  (MAGIC_STRING_KEPT_PIECES + MAGIC_STRING_PIECES_LEN)
#define MAGIC_STRING_RECORD_BYTES_LEN                                          \
  (MAGIC_STRING_KEPT_STORE + MAGIC_STRING_STORE_LEN)

/* The words of a row of chunks (docs/LAYOUT.md). Row 0 is the desk's own. A
 * chunk's mark is 0 where it is not frozen, and any other word where it is. */
enum {
  MAGIC_STRING_START,
  MAGIC_STRING_END,
  MAGIC_STRING_NEXT,
  MAGIC_STRING_PREV,
  MAGIC_STRING_INTRO_AT,
  MAGIC_STRING_INTRO_N,
  MAGIC_STRING_OUTRO_AT,
  MAGIC_STRING_OUTRO_N,
  MAGIC_STRING_TEXT_AT,
  MAGIC_STRING_TEXT_N,
  MAGIC_STRING_MARK
};

/* The words of a row of pieces: where its text begins in the store, and how
 * many bytes it has. */
enum { MAGIC_STRING_PIECE_AT, MAGIC_STRING_PIECE_N };

/* In a chunk row's next or prev: the list ends. It is row 0, the desk's own,
 * whose next and prev are the first chunk and the last. */
#define MAGIC_STRING_LIST_END UINT32_C(0)

/* In a chunk row's text_at: the chunk has no replacement. */
#define MAGIC_STRING_NONE UINT32_C(0xFFFFFFFF)

/* last_char's value where the output has no last character. */
#define MAGIC_STRING_NO_CHAR UINT32_C(0xFFFFFFFF)

/* The refusals. */
enum {
  MAGIC_STRING_NOT_UTF8 = 1,
  MAGIC_STRING_NOT_WELL_FORMED = 2,
  MAGIC_STRING_INSIDE_CHARACTER = 3,
  MAGIC_STRING_END_BEFORE_START = 4,
  MAGIC_STRING_ZERO_WIDTH = 5,
  MAGIC_STRING_CUT_IN_REPLACEMENT = 6,
  MAGIC_STRING_ACROSS_MOVED_EDGE = 7,
  MAGIC_STRING_INTO_ITSELF = 8,
  MAGIC_STRING_NOT_TOGETHER = 9,
  MAGIC_STRING_PAST_SOURCE = 10,
  MAGIC_STRING_SLICE_START = 11,
  MAGIC_STRING_SLICE_END = 12,
  MAGIC_STRING_LIMIT = 13,
  MAGIC_STRING_SHORT_BUFFER = 14,
  MAGIC_STRING_BAD_OPTION = 15,
  MAGIC_STRING_BAD_SHEET = 16,
  MAGIC_STRING_NO_SUCH_CALL = 17,
  MAGIC_STRING_NOT_APART = 18,
  MAGIC_STRING_REFUSED_ALONE = 19,
  MAGIC_STRING_FROZEN = 20,
  MAGIC_STRING_MARKS_TOO_HIGH = 21
};

/* The value is what the call reports, and 0 where it reports nothing. A refused
 * edit reports the cuts that remain (see "edits"), by file too; any other
 * refused call 0. */
typedef struct magic_string_answer {
  uint32_t number;
  uint32_t value;
} magic_string_answer;

/* The four lent slices, to be written or only read. */
#define MAGIC_STRING_DESK                                                      \
  const uint8_t *source, size_t source_len, uint32_t *chunks,                  \
      size_t chunks_len, uint32_t *pieces, size_t pieces_len, uint8_t *store,  \
      size_t store_len
#define MAGIC_STRING_READ                                                      \
  const uint8_t *source, size_t source_len, const uint32_t *chunks,            \
      size_t chunks_len, const uint32_t *pieces, size_t pieces_len,            \
      const uint8_t *store, size_t store_len

/* The source and a record, all of it only read. */
#define MAGIC_STRING_ENTRIES                                                   \
  const uint8_t *source, size_t source_len, const uint32_t *words,             \
      size_t words_len, const uint8_t *bytes, size_t bytes_len

/* ---- opening ---- */

/* Makes a fresh desk over the source, whatever the tables held: one chunk, not
 * frozen, and no pieces. A record beside the desk stays as it is (see "a
 * record").
 * Numbers: 2 for tables of other lengths, 13 for a source that is too long, 1
 * for one that is not UTF-8. Value: 0. */
magic_string_answer magic_string_open(MAGIC_STRING_DESK);

/* Tells whether the memory holds a well-formed desk. Every call but open and
 * run_sheet makes this check first.
 * Numbers: 2. Value: 0. */
magic_string_answer magic_string_well_formed(MAGIC_STRING_READ);

/* ---- edits: the value is the number of cuts ---- */

/* A cut at a position makes two chunks of the one that holds it. It makes none
 * where a chunk ends already, at 0, and at the source's end or past it. Inside
 * a non-empty replacement it is refused with 6.
 *
 * The value counts the cuts that made two chunks and remain, whether the edit
 * was accepted or refused: it is how many chunks more the desk has. So it is 0
 * with every number that leaves each byte of the tables as it was.
 *
 * A chunk may be frozen: freeze sets its mark, and no edit clears it. A cut
 * makes two frozen chunks of one. remove, update_with and reset refuse a range
 * with a frozen chunk, one that starts in it once both cuts are made. The trims
 * and indent_with refuse any desk with one. So whatever edits are made, the
 * bytes of a frozen chunk are shown as they were, or by the replacement that
 * they had. insert and relocate are free: pieces may be added around frozen
 * bytes and between them, and these may be moved. */

/* Removes the bytes from start up to end, and the pieces of their chunks. An
 * end past the source is accepted. Zero width does nothing.
 * Numbers: 2, 3, 4, 6, 20; 13 in place of 0, 6 and 20. Value: at most 2.
 * After 6: the cut at start stays, if that was made. After 20: both cuts stay,
 * where they were made. */
magic_string_answer magic_string_remove(MAGIC_STRING_DESK, uint32_t start,
                                        uint32_t end);

/* Replaces the bytes from start up to end by the text, which goes to the first
 * chunk of the range. The later ones become empty and lose their pieces; the
 * first one loses its own if overwrite says so.
 * Numbers: 2, 1, 3, 5, 4, 6, 10, 20, 7; 13 in place of 0, 6, 10, 20 and 7.
 * Value: at most 2.
 * After 6: the cut at start stays, if that was made. After 10: the same. After
 * 20: both cuts stay, where they were made. After 7: both cuts stay, and so do
 * the later chunks that were emptied before the moved edge was met; the first
 * chunk is as it was. */
magic_string_answer magic_string_update_with(MAGIC_STRING_DESK, uint32_t start,
                                             uint32_t end, const uint8_t *text,
                                             size_t text_len,
                                             uint32_t overwrite);

/* Undoes the edits of the bytes from start up to end: their chunks lose pieces
 * and replacements. Moves stay. Zero width does nothing.
 * Numbers: 2, 3, 4, 10, 6, 20; 13 in place of 0, 6 and 20. Value: at most 2.
 * After 6: the cut at start stays, if that was made. After 20: both cuts stay,
 * where they were made. */
magic_string_answer magic_string_reset(MAGIC_STRING_DESK, uint32_t start,
                                       uint32_t end);

/* Adds a piece at the position, after a cut there. With left it goes to the
 * outro of the chunk that ends there, or to the head where none does: past the
 * source, and at 0 if the source is not empty. Without left it goes to the
 * intro of the chunk that starts there, or to the tail where none does: past
 * the source, and at its end if it is not empty. With front it is the first
 * piece of that list, without front the last.
 * Numbers: 2, 1, 3, 6; 13 in place of 0. Value: at most 1. */
magic_string_answer magic_string_insert(MAGIC_STRING_DESK, uint32_t at,
                                        const uint8_t *text, size_t text_len,
                                        uint32_t left, uint32_t front);

/* Adds a piece at the back of the tail, the end of the output.
 * Numbers: 2, 1; 13 in place of 0. Value: 0. */
magic_string_answer magic_string_append(MAGIC_STRING_DESK, const uint8_t *text,
                                        size_t text_len);

/* Adds a piece at the front of the head, the start of the output.
 * Numbers: 2, 1; 13 in place of 0. Value: 0. */
magic_string_answer magic_string_prepend(MAGIC_STRING_DESK, const uint8_t *text,
                                         size_t text_len);

/* Moves the bytes from start up to end before the chunk that starts at `to`, or
 * to the end of the list where none does. Zero width does nothing.
 * Numbers: 2, 3, 8, 4, 10, 6, 9; 13 in place of 0, 6 and 9. Value: at most 3.
 * After 6: the cuts made before it stay, of start, end and to in this order.
 * After 9: all three stay. */
magic_string_answer magic_string_relocate(MAGIC_STRING_DESK, uint32_t start,
                                          uint32_t end, uint32_t to);

/* Takes white space (pattern 0) or line ends (pattern 1) off both ends of the
 * output, piece by piece: a piece of which nothing is left goes, and what is
 * left of a chunk's trimmed content is its replacement.
 * Numbers: 2, 15, 20 for a frozen chunk on the desk; 13 in place of 0.
 * Value: 0. */
magic_string_answer magic_string_trim(MAGIC_STRING_DESK, uint32_t pattern);

/* The same off the start alone. The tail is never touched.
 * Numbers: 2, 15, 20; 13 in place of 0. Value: 0. */
magic_string_answer magic_string_trim_start(MAGIC_STRING_DESK,
                                            uint32_t pattern);

/* The same off the end alone. The head is never touched.
 * Numbers: 2, 15, 20; 13 in place of 0. Value: 0. */
magic_string_answer magic_string_trim_end(MAGIC_STRING_DESK, uint32_t pattern);

/* trim with pattern 1.
 * Numbers: 2, 20; 13 in place of 0. Value: 0. */
magic_string_answer magic_string_trim_lines(MAGIC_STRING_DESK);

/* Puts the indentor in front of each line of the head's pieces, the chunks'
 * contents and the tail's pieces, as one text after the other; the chunks' own
 * pieces are passed over. A line's first character is one that is neither a
 * carriage return nor a line feed. Without has_indentor the indentor is not
 * looked at, and what get_indent_string writes is taken. exclude holds pairs of
 * positions, start and end: source characters from start up to end are passed
 * over, and so is a replacement whose chunk starts there. An empty indentor does
 * nothing; 15, 1, 3 and 20 come before that.
 * Numbers: 2, 15, 1, 3, 20 for a frozen chunk on the desk; 13 in place of 0.
 * Value: one for each line that it indents and that begins strictly inside a
 * chunk without replacement. */
magic_string_answer
magic_string_indent_with(MAGIC_STRING_DESK, uint32_t has_indentor,
                         const uint8_t *indentor, size_t indentor_len,
                         const uint32_t *exclude, size_t exclude_len);

/* ---- a sheet: a source and the edits to be made on it ---- */

/* The form of a sheet; its numbers are big-endian:
 *
 *    1 byte    the version, MAGIC_STRING_SHEET_VERSION
 *    2 bytes   the length of the source
 *              the source
 *              records, one behind the other up to the end of the sheet
 *
 * The form of a record:
 *
 *    2 bytes   the length of the rest of the record
 *    1 byte    the kind
 *    4 bytes   for each position of the kind
 *              the text, if the kind has one: what is left, it may be empty
 *
 *    kind 1   remove          start, end
 *    kind 2   update_with     start, end, text; overwrite is yes
 *    kind 3   reset           start, end
 *    kind 4   append_left     at, text; insert with left
 *    kind 5   append_right    at, text; insert
 *    kind 6   prepend_left    at, text; insert with left and front
 *    kind 7   prepend_right   at, text; insert with front
 *    kind 8   relocate        start, end, to
 *
 * A sheet has at most MAGIC_STRING_SHEET_RECORDS records, and at most
 * MAGIC_STRING_SHEET_BYTES bytes in all. A version, a length, a kind, a count
 * of records or a size that breaks these rules is 16. */

/* Opens the source of the sheet, whatever the tables held, and makes the call
 * of each record, one for each, in order; after a refused one it goes on. The
 * answers are the numbers of these calls, 0 or a refusal, one byte each. A text
 * that is not UTF-8 breaks no rule above: the call of its record gives 1.
 * Numbers: 2 for tables of other lengths, 16 for a sheet that breaks a rule, 13
 * for a source that is too long, 1 for one that is not UTF-8, 14 for fewer
 * bytes of answers than the sheet has records. Value: how many answers were
 * written; the cuts of its calls are not reported.
 * After 0: the tables hold the desk that the calls leave, over the source that
 * stands in the sheet from byte MAGIC_STRING_SHEET_FRONT on. Lend this part of
 * the sheet, without what follows it, as the source to later calls on the desk.
 * After a refusal: each byte of the tables and of the answers is as it was. */
magic_string_answer magic_string_run_sheet(const uint8_t *sheet,
                                           size_t sheet_len, uint32_t *chunks,
                                           size_t chunks_len, uint32_t *pieces,
                                           size_t pieces_len, uint8_t *store,
                                           size_t store_len, uint8_t *answers,
                                           size_t answers_len);

/* ---- a join: two lists of calls made on one desk ---- */

/* A list is records of a sheet, in the form above, one behind the other up to
 * its end, with no version and no source before them. It may have no record. It
 * has at most MAGIC_STRING_SHEET_RECORDS records, and at most
 * MAGIC_STRING_SHEET_BYTES bytes. A length, a kind, a count of records or a
 * size that breaks these rules is 16.
 *
 * Two lists join exactly if their calls, all together, pass the checks of the
 * any-order rule (docs/ANY-ORDER.md) on the desk. What a call reaches: a
 * removal, replacement or reset its bytes; an insertion with left the byte
 * before its position, or the head at 0; an insertion without left the byte
 * behind its position, or the tail at the source's end; a move nothing.
 *
 *    18   The source is empty, even if both lists are. A removal, replacement
 *         or reset has zero width, or its end lies before its start. A position
 *         lies past the source's end. Two calls reach the same byte, both the
 *         head or both the tail. There are two moves. A position of the move
 *         lies strictly inside a range that is replaced, by an empty text too.
 *    19   A call is refused alone: made by itself on the desk as it is lent, it
 *         gives a number. So a text that is not UTF-8, a position inside a
 *         character, a range with a frozen chunk and a call that alone would
 *         break a limit are 19.
 *    13   There is no space: the desk's chunks and three for each call are more
 *         than MAGIC_STRING_CHUNKS, or its pieces and one for each insertion
 *         more than MAGIC_STRING_PIECES, or the bytes of its pieces and
 *         replacements and of all texts of the lists more than
 *         MAGIC_STRING_STORE_BYTES. */

/* Makes the calls of the first list and then those of the second, if the two
 * lists join. Each is accepted then, and the same calls in any other order, the
 * second list before the first too, would leave the same desk. Two empty lists
 * on a source that is not empty do nothing.
 * Numbers: 2, 16 for a list that breaks a rule, 18, 19, 13. Value: the cuts of
 * all calls together, which is how many chunks more the desk has.
 * After 0: the tables hold the desk that the first list and then the second
 * leave.
 * After a refusal: each byte of the tables is as it was. */
magic_string_answer magic_string_join(MAGIC_STRING_DESK, const uint8_t *first,
                                      size_t first_len, const uint8_t *second,
                                      size_t second_len);

/* ---- a record: calls filed and withdrawn ---- */

/* A record keeps calls that were made on a desk, with their answers, so that
 * any of them can be taken back. Beside them it keeps the desk as it stood
 * before the first of them, frozen chunks and all: the kept desk. It is two
 * slices, which the caller lends behind those of the desk:
 * MAGIC_STRING_RECORD_WORDS_LEN words, and MAGIC_STRING_RECORD_BYTES_LEN bytes.
 *
 *    words   at MAGIC_STRING_RECORD_USED: how many bytes the filed calls have;
 *            from MAGIC_STRING_KEPT_CHUNKS on the chunks of the kept desk, from
 *            MAGIC_STRING_KEPT_PIECES on its pieces
 *    bytes   from 0 on the filed calls, one behind the other, each in the form
 *            of a sheet's record; from MAGIC_STRING_RECORD_ANSWERS on their
 *            answers in the same order, 0 or a refusal, one byte each; from
 *            MAGIC_STRING_RECORD_MARKS on their marks (see "marks") in the same
 *            order, one byte each; from MAGIC_STRING_KEPT_STORE on the store of
 *            the kept desk
 *
 * An empty record has 0 in the first word, whatever else it holds: zeroed
 * memory is one. To begin a record anew, write that 0.
 *
 * A record is well formed exactly if it has these lengths, the bytes that the
 * first word counts end at MAGIC_STRING_RECORD_ANSWERS at the latest and are
 * whole records of a sheet, at most MAGIC_STRING_RECORD_CALLS, the texts of
 * these have at most MAGIC_STRING_RECORD_TEXT bytes together, the marks of each
 * are at most MAGIC_STRING_HIGHEST_MARKS, and, if there are any calls, the kept
 * desk is well formed over the source that is lent beside it. The answers are
 * not looked at, nor what stands behind the filed calls and behind as many
 * marks, nor whether a text of theirs is UTF-8, nor the kept desk of an empty
 * record. Memory of the lengths that a record had before it had marks, 10,253
 * words and 68,736 bytes, or before it kept a desk, 1 word and 35,968 bytes, is
 * too short now: 2.
 *
 * Only file files: an edit, a join, open and run_sheet leave the record as it
 * is. What was edited or frozen before the first call is filed is part of the
 * kept desk, and no withdrawal takes it back. What is edited while calls are
 * filed, without being filed, is lost by the next withdrawal.
 *
 * A desk that stood beside an empty record, and that only file and withdraw
 * have changed since, is what the filed calls leave when they are made in order
 * on the desk that it was then, and the answers are those of that run. Another
 * edit or a join, and open or run_sheet, while calls are filed, may leave a
 * desk that is not; the next call that is withdrawn makes it so again.
 *
 * Opening anew leaves the calls filed. With another source every call on the
 * record then gives 2, where the kept desk is not well formed over it. With the
 * same one freeze gives 20 until all calls are withdrawn, and a withdrawal
 * starts from the kept desk and not from the one that was opened.
 *
 * Nothing else in a record tells which desk it belongs to: lend the same one to
 * every call on a desk. */

/* Makes the call, which is one record of a sheet, its length included, and
 * files it behind the others with its answer, whether it was accepted or
 * refused. If no other is filed, the record keeps the desk that it is made on.
 * Numbers: 2 for a desk or record that is not well formed, 16 for a call that
 * is not exactly one record of a sheet, 13 for a record without room for it;
 * then those of the function of the call's kind, without 2. A record is without
 * room if MAGIC_STRING_RECORD_CALLS calls are filed, or if the texts would have
 * more than MAGIC_STRING_RECORD_TEXT bytes together. Value: the cuts that
 * remain, as that function reports them.
 * After 2, 16 and the record's 13: the call is not filed, and each byte of the
 * tables and of the record is as it was.
 * After 0 and the function's own numbers, its 13 among them: the tables are as
 * the function leaves them, and the call is filed. Its bytes stand behind those
 * of the others, its number behind their answers, 0 behind their marks, and the
 * first word has grown by call_len. With the first call the kept desk is
 * written, in rows and bytes of the library's choice. All else in the record is
 * as it was. So the first word tells the 13 of the record, after which it is as
 * it was, from that of the desk. */
magic_string_answer magic_string_file(MAGIC_STRING_DESK, uint32_t *words,
                                      size_t words_len, uint8_t *bytes,
                                      size_t bytes_len, const uint8_t *call,
                                      size_t call_len);

/* Takes the k-th filed call out of the record, counted from 1 among those that
 * are filed, and makes the others in order on the kept desk, frozen chunks and
 * all. So one that was accepted may be refused now, or the other way round.
 * Edits that were made since the first call was filed, and were not filed, are
 * lost. If no call is left, the desk is the kept one, and freeze is free again.
 * Numbers: 2 for a desk or record that is not well formed, 17 for a k that is 0
 * or above the count of filed calls. Value: 0.
 * After 0: the tables hold the desk that the others leave. The record has the
 * others, one behind the other, with the answers that they got now and with
 * their own marks, the first word counts their bytes, and the kept desk is as
 * it was. The bytes that no call, no answer and no marks have any more hold
 * anything; those that none had before are as they were.
 * After 2 and 17: each byte of the tables and of the record is as it was. */
magic_string_answer magic_string_withdraw(MAGIC_STRING_DESK, uint32_t *words,
                                          size_t words_len, uint8_t *bytes,
                                          size_t bytes_len, uint32_t k);

/* ---- freezing: an edit, beside a record without calls ---- */

/* Freezes the bytes from start up to end: sets the mark of every chunk of the
 * range, after a cut at both ends. Pieces and replacements stay. Zero width does
 * nothing, and what is frozen already may be frozen again.
 *
 * It is lent the record of the desk, which it only reads: while calls are filed
 * it gives 20, because a withdrawal starts from the desk before them. For a
 * desk without a record lend an empty one. Lent that beside a desk whose calls
 * are filed in another, it does set the mark, and the next withdrawal loses it.
 * Numbers: 2 for a desk or record that is not well formed, 20 for a record with
 * calls, 3, 4, 10, 6; 13 in place of 0 and 6. Value: at most 2.
 * After 6: the cut at start stays, if that was made; nothing is frozen. */
magic_string_answer magic_string_freeze(MAGIC_STRING_DESK,
                                        const uint32_t *words, size_t words_len,
                                        const uint8_t *bytes, size_t bytes_len,
                                        uint32_t start, uint32_t end);

/* ---- marks: the examiner's column of a record ---- */

/* Each filed call has marks, in tenths of a point, from 0 to
 * MAGIC_STRING_HIGHEST_MARKS: 0 when it is filed, then what the examiner
 * writes. A withdrawn call takes its marks with it. The other calls keep
 * theirs, though their answers and their places may change.
 *
 * set_marks, marked_entry and total are the examiner's calls. All others here
 * are a member's, entry among them, and they do not tell the marks. Take two
 * memories that hold equal desks and well-formed records, with the same calls
 * and answers and, if there are calls, equal kept desks. Under the same
 * member's calls, with the same sources and buffers lent, each call gives the
 * same number and value and leaves the same bytes in its buffer on both,
 * whatever marks the two records have.
 *
 * That is said of the calls. The marks lie in the record's bytes: who may read
 * that memory sees them, and who may write it can change them. Lend it to calls
 * that are made for a member, and not to the member.
 *
 * The four calls below take the source and a record, and no tables. They give 2
 * for a record that is not well formed. Of an empty one neither the kept desk
 * nor the source is looked at. Calls are counted from 1 among those that are
 * filed. */

/* The examiner's: writes the marks of the k-th filed call, in place of those
 * that it had.
 * Numbers: 2, 17 for a k that is 0 or above the count of filed calls, 21 for
 * marks above MAGIC_STRING_HIGHEST_MARKS. Value: 0.
 * After 0: the byte at MAGIC_STRING_RECORD_MARKS + k - 1 is the marks, and all
 * else in the record is as it was.
 * After a refusal: each byte of the record is as it was. */
magic_string_answer
magic_string_set_marks(const uint8_t *source, size_t source_len,
                       const uint32_t *words, size_t words_len, uint8_t *bytes,
                       size_t bytes_len, uint32_t k, uint32_t marks);

/* The member's reading of the k-th filed call: writes the call as it was filed,
 * one record of a sheet, its length included, and behind it the answer, one
 * byte.
 * Numbers: 2, 17 for a k that is 0 or above the count of filed calls, 14.
 * Value: how many bytes were written. */
magic_string_answer magic_string_entry(MAGIC_STRING_ENTRIES, uint32_t k,
                                       uint8_t *out, size_t out_len);

/* The examiner's: writes what entry writes, and behind it the marks, one byte.
 * Numbers: 2, 17, 14. Value: how many bytes were written. */
magic_string_answer magic_string_marked_entry(MAGIC_STRING_ENTRIES, uint32_t k,
                                              uint8_t *out, size_t out_len);

/* The examiner's: the total. Value: the sum of the marks of the filed calls.
 * Numbers: 2. */
magic_string_answer magic_string_total(MAGIC_STRING_ENTRIES);

/* ---- reports: the value is the number of bytes written ---- */

/* Writes the output. It is never longer than the source and the store together.
 * Numbers: 2, 14. */
magic_string_answer magic_string_to_string(MAGIC_STRING_READ, uint8_t *out,
                                           size_t out_len);

/* Walks the list and writes the output of the chunks from the one that holds
 * the byte at start to the first from there on that holds end: whose span
 * begins before end and reaches it. Of the first chunk it writes what lies from
 * start on, with the intro only if the chunk begins at start; of the last what
 * lies up to end, with the outro only if the chunk ends there. Where no chunk
 * from start on holds end the walk goes to the end of the list, so a slice from
 * 2 to 0 of a fresh "abcdef" is "cdef", and one from 0 to 0 is all of it. The
 * slice is empty where a chunk that holds end is met before the one that holds
 * start, and where none holds start. Without has_end the end is the source's,
 * and end is not looked at.
 * Numbers: 2, 3, 11, 12, 14. */
magic_string_answer magic_string_slice(MAGIC_STRING_READ, uint32_t start,
                                       uint32_t has_end, uint32_t end,
                                       uint8_t *out, size_t out_len);

/* Writes the output behind its last line feed, all of it if it has none.
 * Numbers: 2, 14. */
magic_string_answer magic_string_last_line(MAGIC_STRING_READ, uint8_t *out,
                                           size_t out_len);

/* Writes the indent that the source's lines suggest: a tab, unless more of them
 * begin with two spaces than with a tab; then as many spaces as the one of those
 * lines that begins with the fewest.
 * Numbers: 2, 14. */
magic_string_answer
magic_string_get_indent_string(MAGIC_STRING_READ, uint8_t *out, size_t out_len);

/* ---- reports: the value is what is reported ---- */

/* Value: the bytes of the chunks' output, without head and tail.
 * Numbers: 2. */
magic_string_answer magic_string_len(MAGIC_STRING_READ);

/* Value: the same in UTF-16 units.
 * Numbers: 2. */
magic_string_answer magic_string_len_utf16(MAGIC_STRING_READ);

/* Value: the line feeds of the output, and one more if the output is not empty
 * and does not end in a line feed. So an empty output has 0 lines. A carriage
 * return is a byte like any other.
 * Numbers: 2. */
magic_string_answer magic_string_line_count(MAGIC_STRING_READ);

/* Value: 1 if the chunks' output is white space or empty, else 0.
 * Numbers: 2. */
magic_string_answer magic_string_is_empty(MAGIC_STRING_READ);

/* Value: 1 if the output differs from the source, else 0.
 * Numbers: 2. */
magic_string_answer magic_string_has_changed(MAGIC_STRING_READ);

/* Value: 1 if the span of one replaced chunk has the range from start up to
 * end, else 0. It takes any two numbers.
 * Numbers: 2. */
magic_string_answer magic_string_is_range_within_edited_chunk(MAGIC_STRING_READ,
                                                              uint32_t start,
                                                              uint32_t end);

/* Value: the code of the output's last character, looking at the last piece of
 * each list alone, or MAGIC_STRING_NO_CHAR if there is none.
 * Numbers: 2. */
magic_string_answer magic_string_last_char(MAGIC_STRING_READ);

#undef MAGIC_STRING_DESK
#undef MAGIC_STRING_READ
#undef MAGIC_STRING_ENTRIES

#ifdef __cplusplus
}
#endif

#endif
