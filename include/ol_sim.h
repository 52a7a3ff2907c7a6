/* The relay's Lustre cycle for C and for languages that call C: link libol_sim_c.a, which `tools/build ol_sim_c` writes.
 *
 * A program in the form of docs/FORMAT.md is judged, started and stepped. The library keeps nothing between calls: the caller holds the file, the state and every
 * other buffer. It uses no heap, no file, no clock and no global data, so calls on different buffers may run in several threads. Of the C library it needs memcpy
 * and memset at most.
 *
 * Every function gives a number and a place.
 *   The number is the result: 0, or the fault's number (enum ol_sim_number).
 *   The place is written through the pointer place, at each call: 0 where the number is 0; for 1 to 14 and 22 an offset in the file; for 15 to 17 it is 0; for 18
 *   to 21 the index of the main node's equation at which the cycle stopped, counted from 0 in the file's sequence.
 * What is said here of numbers, places and bytes written is proved of the Rattle source (crates/ol_sim_c). The archive is for x86-64 Linux, with the System V
 * calling convention. All this holds for callers that keep these rules:
 *   - a pointer stands for as many bytes (entries) as the length behind it says; it is not NULL, also where the length is 0; entries of size_t are aligned;
 *   - place, and the pointers to lengths of ol_sim_lengths and ol_sim_admit, point to one size_t each, aligned, and are not NULL;
 *   - no buffer has more than PTRDIFF_MAX bytes;
 *   - what a call reads is initialised: file, old_state, inputs, and *state_len, which ol_sim_admit leaves as it was when it refuses;
 *   - what a call writes (order, state, new_state, values, place, lengths) does not overlap anything else that the same call is lent. So the old and the new
 *     state are two buffers, which a caller exchanges after each cycle;
 *   - nobody else writes what is lent while the call runs;
 *   - the floating-point environment is the one that a C program starts with: rounding to nearest, exceptions masked, neither flush-to-zero nor
 *     denormals-are-zero (MXCSR 1F80, up to its flags). Linking a program with -ffast-math may set the last two: link without it;
 *   - the stack has so many bytes left as enum ol_sim_stack says. A thread with less may crash.
 * No byte string makes a function fail, read out of its bounds or run for ever: files and states may come from anywhere. (Functions that call Functions, or
 * map them over arrays, can ask for exponential work: such a cycle ends, but nobody waits for it.)
 */
#ifndef OL_SIM_H
#define OL_SIM_H

#include <stddef.h>
#include <stdint.h>

#ifdef __cplusplus
extern "C" {
#endif

/* Lengths. A cell has nine bytes: a tag and a payload of 64 bits, big-endian. An array, of at most 32 elements, has a cell for each of them, the first element's
 * first, in the inputs, the values and the state, where a scalar has its one. */
enum ol_sim_length {
    OL_SIM_CELL = 9,
    OL_SIM_FILE_MAX = 32768,          /* the longest file that is admitted */
    OL_SIM_STATE_MAX = 32768,         /* the longest state */
    OL_SIM_INPUTS_MAX = 9216,         /* the longest inputs: the cells of 32 inputs of the main node, each an array of 32 */
    OL_SIM_VALUES_MAX = 32256,        /* the longest values: the cells of 32 inputs, 16 outputs and 64 locals, each an array of 32 */
    OL_SIM_EQUATIONS_MAX = 80         /* the equations of a node */
};

/* Bytes of stack that a call may take: the most that bench/stack measures (docs/PERFORMANCE.md has the figures), with a margin, since frames are the compiler's.
 * Nothing proves them; tests/header compares them with what is measured. A thread with less may crash. */
enum ol_sim_stack {
    OL_SIM_LENGTHS_STACK = 384 * 1024,
    OL_SIM_ADMIT_STACK = 384 * 1024,
    OL_SIM_ORDER_STACK = 32 * 1024,
    OL_SIM_START_STACK = 384 * 1024,
    OL_SIM_CYCLE_STACK = 6144 * 1024
};

/* The numbers. Of several faults the first by this order is told: 1; then 2 to 5 as they are met reading forward; then 6 to 10, 22, 11 to 17; then the first of 18 to
 * 21 that evaluation meets. */
enum ol_sim_number {
    OL_SIM_DONE = 0,            /* measured, admitted, ordered, started, answered */
    /* about the file; the place is the offset of the first faulted item's first byte */
    OL_SIM_FILE_TOO_LONG = 1,   /* the file has over 32,768 bytes; place 32768 */
    OL_SIM_FILE_LENGTH = 2,     /* the file ends early (place: its length), or bytes remain (place: the first of them) */
    OL_SIM_UNKNOWN_CODE = 3,    /* unknown code, Bool byte or enum number; of ol_sim_order and ol_sim_lengths also: no such node, place 0 */
    OL_SIM_COUNT = 4,           /* a count is outside its limits */
    OL_SIM_NESTING = 5,         /* an expression is nested deeper than 24 levels */
    OL_SIM_NAME_TWICE = 6,      /* a name stands twice in one enum, among the constants or in one node, or is of two sorts (variant, constant, variable) */
    OL_SIM_NAME_UNKNOWN = 7,    /* a name is used or defined and not declared */
    OL_SIM_DEFINED = 8,         /* an equation defines an input, a constant or a variant, or a name again */
    OL_SIM_CALL = 9,            /* a call or an iterator in a constant, or of a node that is not before this one; a call of an Imported node, with another arity, or of
                                   an Operator in a Function */
    OL_SIM_SEVERAL = 10,        /* a Tuple, or a call with several outputs, that is not a whole right side with that many names; several names with neither */
    OL_SIM_RING = 11,           /* equations read from one another in a ring; the place is the first equation that cannot be ordered */
    OL_SIM_CONSTANT = 12,       /* a constant fails or overflows */
    OL_SIM_STATE_TOO_LONG = 13, /* the state would have over 32,768 bytes; the place is the last node */
    OL_SIM_MAIN = 14,           /* the main (last) node is no Operator; the place is the last node */
    /* about what else is lent; the place is 0 */
    OL_SIM_STATE = 15,          /* the old state has another length or is ill formed */
    OL_SIM_INPUTS = 16,         /* the inputs have another length, or a cell is bad or not of its type's kind, range or enum */
    OL_SIM_BUFFER = 17,         /* a buffer to be written has another length */
    /* a cycle that was begun and stopped; the place is the main equation's index */
    OL_SIM_COLD_PRE = 18,       /* pre in the first cycle of its instance; a Function is always at its first */
    OL_SIM_OVERFLOW = 19,       /* a 64-bit overflow */
    OL_SIM_RANGE = 20,          /* a zero divisor or a shift count outside 0..63, where the operation takes both operands' kinds; an index outside its array */
    OL_SIM_KIND = 21,           /* any other failure: a value of a kind that the operation does not take, pre of anything but a variable or constant */
    /* about the file, like 1 to 14, and judged behind 10; the place is the offset of the expression */
    OL_SIM_SHAPE = 22           /* an array or a scalar in a place that does not take it, an array of another length than its name's; an iterator without an array,
                                   over unequal lengths, or of a node that it cannot take */
};

/* Whether a number of ol_sim_cycle is that of a stopped cycle: 18 to 21. It evaluates n once. */
#define OL_SIM_STOPPED(n) ((unsigned)(n) - OL_SIM_COLD_PRE <= (unsigned)(OL_SIM_KIND - OL_SIM_COLD_PRE))

/* The lengths that the buffers of a file need, and how many equations a node has; nodes count from 0, and node 0 is in every file. Answers 0, 1 to 14 and 22,
 * then 3 at place 0 for an absent node.
 * Writes *place; on 0 also *state_len, the length of the state, *inputs_len and *values_len, those of a cycle's inputs and of its values, in bytes, and *equations,
 * the node's number of equations. A refusal writes none of the four. */
uint8_t ol_sim_lengths(const uint8_t *file, size_t file_len, size_t node, size_t *place, size_t *state_len, size_t *inputs_len, size_t *values_len,
                       size_t *equations);

/* Judges a file. Answers 0, 1 to 14 and 22.
 * Writes *place; on 0 also *state_len, the length of the file's state. A refusal leaves *state_len as it was. */
uint8_t ol_sim_admit(const uint8_t *file, size_t file_len, size_t *place, size_t *state_len);

/* The order in which the equations of a node run; nodes count from 0. Answers 0, 1 to 5, 3 at place 0 for an absent node, 11, then 17 unless order_len is the
 * node's number of equations (ol_sim_lengths has it for an admitted file). It asks nothing else of the file, so it also serves files that ol_sim_admit refuses with 6
 * to 14 or 22.
 * Writes *place. On 0 order[k] is the index in the file of the equation that runs k-th, both from 0; otherwise order is not written. */
uint8_t ol_sim_order(const uint8_t *file, size_t file_len, size_t node, size_t *order, size_t order_len, size_t *place);

/* The fresh state of a file. Answers 0, 1 to 14 and 22, then 17 unless state_len is the length that ol_sim_lengths and ol_sim_admit report.
 * Writes *place. On 0 all of state is written; otherwise none of it. */
uint8_t ol_sim_start(const uint8_t *file, size_t file_len, uint8_t *state, size_t state_len, size_t *place);

/* One cycle: from the old state and the inputs (a cell for each input of the main node) to the new state and the values (a cell for each input, output and local
 * of the main node, in the file's sequence; an array's a cell for each element, in sequence). The file is judged at each call.
 * Answers 0 (answered), 1 to 14 and 22, 15, 16, then 17 unless new_len is the state's length and values_len that of the values (ol_sim_lengths has both): refused; 18 to
 * 21: stopped (OL_SIM_STOPPED).
 * Writes *place, and
 *   0            all of new_state and all of values;
 *   1 to 17, 22  nothing else: the cycle did not happen, and the old state is still the state;
 *   18, 20, 21   all of new_state: the main node's cells and its started byte as they were, the records of called Operators as the run left them; values is not written;
 *   19           all of new_state, a copy of the old state; values is not written.
 * After 0 and 18 to 21 the next cycle's old state is new_state. */
uint8_t ol_sim_cycle(const uint8_t *file, size_t file_len, const uint8_t *old_state, size_t old_len, const uint8_t *inputs, size_t inputs_len,
                     uint8_t *new_state, size_t new_len, uint8_t *values, size_t values_len, size_t *place);

#ifdef __cplusplus
}
#endif

#endif
