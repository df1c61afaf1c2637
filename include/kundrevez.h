/*
 * Kundrevez for a host program in C: constants of chain lines and of wiring sheets.
 *
 * Link with libkundrevez.a. The calls allocate nothing, keep nothing, and write to nothing of the caller's;
 * they may be made from several threads at once. Bytes may have any value and need no terminator. A pointer is not
 * null, even where the length is 0, and the bytes at it do not change while a call runs.
 *
 * Each call answers the constant, which is from 1 to 2147483647, or the number of the refusal made negative.
 * Where the cause stands in the bytes, the place, is not told here.
 *
 *   -11   a chain line has more than 200 bytes, or breaks its form
 *   -12   a chain has more than 8 adders
 *   -13   a shift is above 30
 *   -14   a source is not lower than the adder that reads it
 *   -15   an operand, an adder or the output has a value outside 1 to 2147483647
 *   -16   an adder other than the last is read by none
 *   -20   the code is above 15
 *   -23   the code is idle
 *   -40   a sheet has more than 4096 bytes
 *   -41   a line of a sheet breaks its form or its order, is cut short or missing
 *   -42   a line of a sheet has a number out of its limits, or too many inputs
 *   -43   a port line names one input twice
 *   -44   a code line selects an input that its port lacks
 *   -45   a code line selects a row that breaks a rule of rows
 *   -46   a port line has an input that no row selects
 */
#ifndef KUNDREVEZ_H
#define KUNDREVEZ_H

#include <stddef.h>
#include <stdint.h>

#ifdef __cplusplus
extern "C" {
#endif

/* The constant of a chain line, which stands without its line feed; or -11 to -16, the first cause against it. */
int64_t kundrevez_chain_constant(const uint8_t *line, size_t length);

/*
 * The constant that a wiring sheet gives at a code from 0 to 15. The sheet is judged first, -40 to -46,
 * and then the code, -20 or -23.
 */
int64_t kundrevez_sheet_constant(const uint8_t *sheet, size_t length, size_t code);

#ifdef __cplusplus
}
#endif

#endif
