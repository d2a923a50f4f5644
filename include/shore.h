/* The store for C. Link crates/capi/out/libcapi.a (tests/library builds it); of the C library it
 * calls memcpy and memset alone.
 *
 * Each call makes a store of its own on the stack and keeps nothing; it allocates nothing. It
 * answers for all bytes, numbers and lengths: there is no input for which it stops the program,
 * reads or writes outside what it was lent, or does not return.
 *
 * What C owes:
 * - Each pointer points to as many items as its length says, or one where it has no length. It is
 *   aligned, and not null even where the length is 0. What a call may write overlaps nothing else
 *   that the call was lent, and no other thread touches it meanwhile.
 * - There is stack for it: as measured on x86-64, 223 kilobytes for shore_run, 247 for
 *   shore_replay_board, 75 for shore_replay_full.
 * Calls from several threads at once are fine where their buffers are apart. */
#ifndef SHORE_H
#define SHORE_H

#include <stddef.h>
#include <stdint.h>

#ifdef __cplusplus
extern "C" {
#endif

/* Runs a script (docs/SCRIPT.md) on a fresh store over 512 zero words and the board book.
 *
 * The result is how many bytes of the report its rows take, from the first on; the rest of the
 * report is as it was. *stopped is 0, or the number of the line that was not run since fewer than
 * 64 bytes were free. */
size_t shore_run(const uint8_t *script, size_t script_length, uint8_t *report,
                 size_t report_length, uint64_t *stopped);

/* Makes calls on a fresh store over the caller's table, with the board book.
 *
 * The table is bytes: its whole blocks of 64 bytes, at most 64 of them, are the words, each in
 * eight bytes with the most significant first. Afterwards they are the words in place. Bytes
 * behind them are never altered.
 *
 * A call is four numbers: the script's letter (its ASCII code), and its fields in the script's
 * order. Numbers that the letter does not use are ignored.
 *   'b' thread | 'l' thread address | 's' thread address word | 'c' thread | 'a' thread |
 *   'm' thread board | 'd' board block
 * Calls are made in order: each whole group of four for which calls and answers both have room,
 * up to the first whose letter is none of these. The result is how many were made.
 *
 * An answer is four numbers, at the same place as its call.
 *   granted: 0, how many values there are (0, 1 or 2), the values, 0 where there is none
 *   refused: the layer's letter (its ASCII code), the number of the refusal, what it carries
 *            (docs/REFUSALS.md), 0
 * Numbers behind the last answer are as they were.
 *
 * Lengths are in items: bytes of the table, numbers of calls and answers. */
size_t shore_replay_board(uint8_t *table, size_t table_length, const uint64_t *calls,
                          size_t calls_length, uint64_t *answers, size_t answers_length);

/* The same with the full book. Only the figures that commits and aborts answer can differ. */
size_t shore_replay_full(uint8_t *table, size_t table_length, const uint64_t *calls,
                         size_t calls_length, uint64_t *answers, size_t answers_length);

#ifdef __cplusplus
}
#endif

#endif
