/*
 * The C functions of the crate `capi`: link the archive that `tools/archive.sh capi` writes, target/staticlib/libcapi.a (x86-64).
 *
 * Each function returns an outcome and stores the rest through its pointers to single numbers. It takes any bytes, keeps nothing between calls, and
 * uses no memory but what it is given and the stack. What is proved of a function stands beside it in crates/capi/src/, by the definitions of
 * crates/capi/specs/; the proof takes for granted what this page asks of the caller:
 *
 * - a pointer with a length after it points to that many bytes (words, where it points to words); with the length 0 it may be null;
 * - a pointer to a single number isn't null, and points to memory that may be written;
 * - what a function stores to overlaps nothing else that the function is given.
 */
#ifndef FLOWAWK_H
#define FLOWAWK_H

#include <stddef.h>
#include <stdint.h>

#ifdef __cplusplus
extern "C" {
#endif

/*
 * The match of an ERE in a text: of all spans of the text that are in the ERE's language, anchors judged against the whole text, the one with the
 * smallest start, then the greatest length.
 *
 * Outcome 5 if the bytes of `ere` are no ERE, or pass one of its sizes (512 bytes, 128 places, 16 nested groups); else 14 if the text has over 512
 * bytes; else 0, whether there is a match or none.
 *
 * *rstart and *rlength are stored on every call. With a match they are its start, counted from 1, and its length, which may be 0; with outcome 0
 * and no match, and with outcomes 5 and 14, they are 0 and -1.
 */
uint64_t flowawk_match(const uint8_t *ere, size_t ere_length, const uint8_t *text, size_t text_length, uint64_t *rstart, int64_t *rlength);

/*
 * The fields of a record, as the separator fs splits it. One space: at spaces and tabs, leading and trailing ones dropped. Any other single byte: at
 * each such byte. Longer: fs is an ERE, and each separator starts at the leftmost place after the last one where a nonempty match exists, and is the
 * longest there; anchors are judged against the whole record. An empty record has no fields.
 *
 * Outcome 15 if the record has over 512 bytes; else 18 if fs is empty, or longer than a byte and no ERE (as for `flowawk_match`); else 16 if there are
 * over 128 fields; else 0.
 *
 * *count is stored on every call: the number of fields, 0 with outcomes 15, 18 and 16.
 */
uint64_t flowawk_split(const uint8_t *record, size_t record_length, const uint8_t *fs, size_t fs_length, uint64_t *count);

/*
 * Field k of a record: its first byte's index in the record, counted from 0, and its length, which are stored on every call. k = 0 is the whole record;
 * k above the number of fields, and any k where the outcome isn't 0, is the empty part at the record's end. The outcome is that of `flowawk_split`.
 */
uint64_t flowawk_field(const uint8_t *record, size_t record_length, const uint8_t *fs, size_t fs_length, uint64_t k, uint64_t *start, uint64_t *length);

/*
 * An image's content: its numbers and text bytes in order, a word each.
 *
 * Outcome 8 if the bytes are no image's: a number that is longer than needed, over 2^53 or cut off, an unknown edition, kind or code, a list that is cut off, or bytes
 * behind the end. Else 7 if the content has more than content_words words. Else 0, and the content stands at the front of the room.
 *
 * *written is stored on every call: the words of the content, 0 with outcomes 8 and 7. The words behind them, and with outcomes 8 and 7 all of them, are as they were.
 */
uint64_t flowawk_read(const uint8_t *image, size_t image_length, uint64_t *content, size_t content_words, uint64_t *written);

/*
 * An image, from its content.
 *
 * Outcome 8 if `flowawk_read` gives these words for no image. Else 7 if the image has more than image_length bytes. Else 0, and the image stands at the front of the
 * room. Reading it gives the same words again, and writing what was read gives the same bytes.
 *
 * *written is stored on every call: the bytes of the image, 0 with outcomes 8 and 7. The bytes behind them, and with outcomes 8 and 7 all of them, are as they were.
 */
uint64_t flowawk_write(const uint64_t *content, size_t content_words, uint8_t *image, size_t image_length, uint64_t *written);

/*
 * The check of an image: 8 if the bytes are no image's, as for `flowawk_read`; else 9 if it fails the check; else 0. An image that passes never gets stuck in a run.
 */
uint64_t flowawk_check(const uint8_t *image, size_t image_length);

/*
 * The translation of a filter text to an image.
 *
 * Outcome 1 if the text has over 8,192 bytes, with place 8,192; else 2 if it has a NUL byte, with the place of the first; else, at the first token that is bad (3,
 * or 5 for an ERE), can't continue any program (4) or opens level 17 of nesting (6), the number, with the place where that token starts, or the text's end. Else 6
 * if another size is passed: 25 users' names, 64 constants, 16 EREs, 1,024 instructions of a section, 32 operands, 512 bytes of a text; else 7 if the image has more
 * than image_length bytes; both with the text's length as place. Else 0, with the image at the front of the room and its length as place.
 *
 * *place is stored on every call. The room's bytes beyond the image, and with outcomes 1 to 7 all of them, are as they were. An image that was written passes
 * `flowawk_check`. A call uses under 320 KiB of stack.
 */
uint64_t flowawk_translate(const uint8_t *text, size_t text_length, uint8_t *image, size_t image_length, uint64_t *place);

/*
 * A run of an image over lines.
 *
 * Outcome 19 if the working room has under 49,152 bytes; else 8 if the bytes are no image's, as for `flowawk_read`; else 9 if it fails the check: then nothing is
 * written to the output and the working room, and all counts are 0. Else the run of the definition with this budget: 0 if it finishes; 10 if the budget is used up
 * before an instruction or a record read; 11 to 18 if it stops.
 *
 * *steps, *records and *bytes are stored on every call: the instructions executed, the records begun, and the bytes written to the front of the output. The output's
 * bytes beyond them are as they were. The working room may hold anything before the call; what it holds after a run that began is left open.
 *
 * The lines are all there are: a last one counts without a newline too. When BEGIN, the record section or END is entered, the EREs that its instructions ask for
 * get finite automata: one for `~`, two for match(), as long as there is room: 13,279 words for all, those of `~` first, and each in the order of the EREs. An ERE
 * that gets none is walked over a table, which all such EREs share, and which is compiled where another of them is asked for: that is slower. A call uses under
 * 64 KiB of stack.
 */
uint64_t flowawk_run(const uint8_t *image, size_t image_length, const uint8_t *lines, size_t lines_length, uint8_t *output, size_t output_length,
                     uint8_t *work, size_t work_length, uint64_t budget, uint64_t *steps, uint64_t *records, uint64_t *bytes);

#ifdef __cplusplus
}
#endif

#endif
