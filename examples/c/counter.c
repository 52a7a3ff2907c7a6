/* The counter of document 01, v1 = 0 -> pre v1 + 1, stepped from C: its lengths, its order, the start, five cycles, then what a caller meets when something is wrong.
 * examples/c/run builds and runs it. */
#include <inttypes.h>
#include <stdio.h>

#include "ol_cell.h"
#include "ol_sim.h"

static const uint8_t counter[] = {
    0x01,                                           /* format */
    0x00, 0x00, 0x01,                               /* no enum, no constant, one node */
    0x01, 0x00,                                     /* an Operator without inputs */
    0x01, 0x00, 0x01, 0x04,                         /* one output, v1: Int64 */
    0x00,                                           /* no local */
    0x01, 0x01, 0x00, 0x01,                         /* one equation, which defines v1 */
    0x09, 0x01, 0, 0, 0, 0, 0, 0, 0, 0,             /* 0 -> */
    0x06, 0x0A, 0x08, 0x04, 0x00, 0x01,             /* pre v1 + */
    0x01, 0, 0, 0, 0, 0, 0, 0, 1                    /* 1 */
};

/* Four programs like the counter with another right side, each of which stops its first cycle: one for each number of a stop. */
#define V1 0x01, 0x00, 0x00, 0x01, 0x01, 0x00, 0x01, 0x00, 0x01, 0x04, 0x00, 0x01, 0x01, 0x00, 0x01
static const uint8_t cold[] = {V1, 0x08, 0x04, 0x00, 0x01};
static const uint8_t overflowing[] = {V1, 0x06, 0x0A, 0x01, 0x7F, 0xFF, 0xFF, 0xFF, 0xFF, 0xFF, 0xFF, 0xFF, 0x01, 0, 0, 0, 0, 0, 0, 0, 1};
static const uint8_t divided[] = {V1, 0x06, 0x0D, 0x01, 0, 0, 0, 0, 0, 0, 0, 1, 0x01, 0, 0, 0, 0, 0, 0, 0, 0};
static const uint8_t negated[] = {V1, 0x05, 0x00, 0x01, 0, 0, 0, 0, 0, 0, 0, 1};

/* Two states, which are exchanged after each cycle; a relay has room for the longest. */
static uint8_t states[2][OL_SIM_STATE_MAX];

static int stepped(void) {
    uint8_t values[OL_SIM_VALUES_MAX];
    uint8_t none[1] = {0};
    size_t place, state_len, inputs_len, values_len, equations, order[OL_SIM_EQUATIONS_MAX];
    int now = 0;
    /* node 0 is the counter's only one, and its main one */
    if (ol_sim_lengths(counter, sizeof counter, 0, &place, &state_len, &inputs_len, &values_len, &equations) != OL_SIM_DONE)
        return 1;
    printf("admitted; bytes of the state %zu, of the inputs %zu, of the values %zu; equations %zu\n", state_len, inputs_len, values_len, equations);
    if (ol_sim_order(counter, sizeof counter, 0, order, equations, &place) != OL_SIM_DONE)
        return 1;
    printf("order: %zu\n", order[0]);
    if (ol_sim_start(counter, sizeof counter, states[now], state_len, &place) != OL_SIM_DONE)
        return 1;
    for (int cycle = 0; cycle < 5; cycle++) {
        /* there are no inputs: inputs_len is 0, and the pointer is not NULL */
        uint8_t told = ol_sim_cycle(counter, sizeof counter, states[now], state_len, none, inputs_len, states[1 - now], state_len, values, values_len, &place);
        /* answered or stopped: the new state is the state. Refused: the old one still is */
        if (told == OL_SIM_DONE || OL_SIM_STOPPED(told))
            now = 1 - now;
        if (told != OL_SIM_DONE)
            return 1;
        printf("cycle %d: v1 = %" PRId64 "\n", cycle, ol_cell_int(values));
    }
    /* nine bytes are no state of the counter: refused, and nothing is written */
    uint8_t number = ol_sim_cycle(counter, sizeof counter, states[now], 9, none, inputs_len, states[1 - now], state_len, values, values_len, &place);
    printf("a state of 9 bytes: %u at %zu; v1 is still %" PRId64 "\n", number, place, ol_cell_int(values));
    return number != OL_SIM_STATE;
}

/* Why a cycle stopped. */
static const char *reason(uint8_t number) {
    switch (number) {
    case OL_SIM_COLD_PRE:
        return "pre in a first cycle";
    case OL_SIM_OVERFLOW:
        return "a 64-bit overflow";
    case OL_SIM_RANGE:
        return "a zero divisor, or a shift count outside 0 to 63";
    case OL_SIM_KIND:
        return "a value of a kind that the operation does not take";
    default:
        return "not stopped";
    }
}

/* The first cycle of one of the four, each of which has one output and no inputs. */
static int stopped(const char *right_side, const uint8_t *file, size_t file_len, uint8_t wanted) {
    uint8_t values[OL_SIM_CELL];
    uint8_t none[1] = {0};
    size_t place, state_len = 0;
    if (ol_sim_admit(file, file_len, &place, &state_len) != OL_SIM_DONE)
        return 1;
    if (ol_sim_start(file, file_len, states[0], state_len, &place) != OL_SIM_DONE)
        return 1;
    uint8_t number = ol_sim_cycle(file, file_len, states[0], state_len, none, 0, states[1], state_len, values, sizeof values, &place);
    printf("v1 = %s: %u in equation %zu, %s\n", right_side, number, place, reason(number));
    return !OL_SIM_STOPPED(number) || number != wanted;
}

static int turned_back(void) {
    size_t place, state_len = 0;
    uint8_t number = ol_sim_admit(counter, sizeof counter - 1, &place, &state_len);
    printf("the file without its last byte: %u at %zu\n", number, place);
    if (number != OL_SIM_FILE_LENGTH)
        return 1;
    return stopped("pre v1", cold, sizeof cold, OL_SIM_COLD_PRE)
        || stopped("9223372036854775807 + 1", overflowing, sizeof overflowing, OL_SIM_OVERFLOW)
        || stopped("1 / 0", divided, sizeof divided, OL_SIM_RANGE)
        || stopped("not 1", negated, sizeof negated, OL_SIM_KIND);
}

int main(void) {
    return stepped() || turned_back();
}
