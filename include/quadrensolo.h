/* Quadrensolo: ground normal logic programs as clauses for a SAT solver, the check of the solver's answer, and filling out a proposed set of atoms.
 *
 * Build the library with `tools/build archive` and link target/staticlib/libexports.a. The archive is for x86-64 Linux, and it calls memcpy and memset
 * alone.
 *
 * For every function:
 * - A pointer and the length behind it name that many bytes. A null pointer goes only with length 0.
 * - Buffers that are written must not overlap each other or the inputs.
 * - Any bytes may be handed in: no input is undefined, if the pointers and lengths are right.
 * - A call keeps nothing, allocates nothing and may run beside others in several threads.
 * - Bytes of a buffer that a comment does not name stay as they were.
 *
 * The program text, the clause file, the answer, the rows of refusals and their spots are those of the specification (document 01, with Q-3 of document 02).
 * Atoms, variables and clauses count from 1, bytes from 0. */
#ifndef QUADRENSOLO_H
#define QUADRENSOLO_H

#include <stddef.h>
#include <stdint.h>

#ifdef __cplusplus
extern "C" {
#endif

/* What a call answers. Accepted: number and spot are 0, and a to d are what the function says, 0 for one that it does not use. No function uses d.
 * Refused: number is the row met, 1 to 18 but not 15, spot is where or how much, and a to d are 0. */
struct qs_reply {
    uint64_t number;
    uint64_t spot;
    uint64_t a;
    uint64_t b;
    uint64_t c;
    uint64_t d;
};

/* Reads a program text: a is V, the number of variables, and b is C, the number of clauses.
 * Refused: 1 overlong, 2 malformed, 3 too many atoms, 4 unknown atom, 5 unordered, 6 too many rules, 7 bodies full. */
struct qs_reply qs_read(const uint8_t *text, size_t text_len);

/* Line j of the text's clause file, with its line end, written into buf from byte `place` on: a is its length. Line 0 is "p cnf V C", line j is clause j.
 * No line passes 3,008 bytes.
 * Refused, and nothing is written: as qs_read; then 9 no such clause (spot C), 8 short buffer (spot the line's length). */
struct qs_reply qs_line(const uint8_t *text, size_t text_len, size_t j, size_t place, uint8_t *buf, size_t buf_len);

/* As many whole lines as fit buf, from line j on, written from byte 0 on: a is how many lines, at least 1, and b how many bytes. The next call goes on with
 * line j + a, until that is above C.
 * Refused, and nothing is written: as qs_line for line j at place 0. */
struct qs_reply qs_run(const uint8_t *text, size_t text_len, size_t j, uint8_t *buf, size_t buf_len);

/* Whether the solver's answer shows a stable model of the program: a is how many atoms are true, b the highest level, 0 if there is none, and c how many of
 * the variables 1 to V the answer leaves out. Those are read as false. Written are the assignment, V bytes of 0 or 1, and the levels, one byte for each atom,
 * 0 for a false one.
 * Refused: as qs_read; then 8 short buffer (of the assignment, spot V; of the levels, spot the number of atoms), 10 overlong answer, 11 malformed answer,
 * 12 no model offered, 13 stray variable, 14 repeated variable, 16 false clause. Refusals 13, 14 and 16 zero the first V bytes of the assignment; the others
 * write nothing. */
struct qs_reply qs_check(const uint8_t *text, size_t text_len, const uint8_t *answer, size_t answer_len, uint8_t *assignment, size_t assignment_len,
                         uint8_t *levels, size_t levels_len);

/* Whether the set, one byte of 0 or 1 for each atom, is a stable model of the program: a, b and what is written are as for qs_check.
 * Refused, and nothing is written: as qs_read; then 8 short buffer (as for qs_check), 17 bad set, 18 unfounded. */
struct qs_reply qs_fill(const uint8_t *text, size_t text_len, const uint8_t *set, size_t set_len, uint8_t *assignment, size_t assignment_len,
                        uint8_t *levels, size_t levels_len);

#ifdef __cplusplus
}
#endif

#endif
