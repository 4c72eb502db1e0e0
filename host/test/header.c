/* Every call once through the header, as C11 and as C++. */
#include "einflyga.h"

#include <stdio.h>
#include <string.h>

#define MEMORY 64

static int failures = 0;

#define CHECK(condition) check((condition), #condition, __LINE__)

static void check(bool holds, const char *condition, int line) {
    if (!holds) {
        fprintf(stderr, "header.c:%d: %s does not hold\n", line, condition);
        failures++;
    }
}

static void write_at(uint16_t *state, uint16_t port, uint16_t value) {
    einflyga_write_pointer(state, port);
    CHECK(einflyga_answer_refusal(einflyga_write(state, value)) == EINFLYGA_CARRIED_OUT);
}

static uint16_t read_at(uint16_t *state, uint16_t port) {
    uint32_t answer;
    einflyga_write_pointer(state, port);
    answer = einflyga_read(state);
    CHECK(einflyga_answer_refusal(answer) == EINFLYGA_CARRIED_OUT);
    return einflyga_answer_value(answer);
}

/* Three words from 20h to 30h of memory by channel 1, an interrupt at the end. */
static void program_transfer(uint16_t *state) {
    write_at(state, EINFLYGA_PORT_CURRENT_A_UPPER(1), EINFLYGA_TAG_MEMORY | EINFLYGA_TAG_UP);
    write_at(state, EINFLYGA_PORT_CURRENT_A_LOWER(1), 0x20);
    write_at(state, EINFLYGA_PORT_CURRENT_B_UPPER(1), EINFLYGA_TAG_MEMORY | EINFLYGA_TAG_UP);
    write_at(state, EINFLYGA_PORT_CURRENT_B_LOWER(1), 0x30);
    write_at(state, EINFLYGA_PORT_CURRENT_COUNT(1), 3);
    write_at(state, EINFLYGA_PORT_VECTOR(1), 0x5A);
    write_at(state, EINFLYGA_PORT_MODE_LOW(1),
             EINFLYGA_MODE_TRANSFER_WORD | EINFLYGA_MODE_DEMAND_HOLD | EINFLYGA_MODE_INTERRUPT_ON_TC);
    write_at(state, EINFLYGA_PORT_CHAIN_UPPER(1), 0);
    write_at(state, EINFLYGA_PORT_CHAIN_LOWER(1), 0);
    write_at(state, EINFLYGA_PORT_COMMAND(1), EINFLYGA_COMMAND_SET_CIE(1));
    write_at(state, EINFLYGA_PORT_COMMAND(1), EINFLYGA_COMMAND_SET_SOFTWARE_REQUEST(1));
    /* The chain table at 0 is an empty reload word: Start Chain only makes the channel ready. */
    write_at(state, EINFLYGA_PORT_COMMAND(1), EINFLYGA_COMMAND_START_CHAIN(1));
}

static void transfer(void) {
    uint16_t state[EINFLYGA_WORDS];
    uint8_t memory[MEMORY] = {0};
    uint8_t io[1] = {0};
    uint32_t answer;
    uint64_t run;

    memcpy(memory + 0x20, "Am9516", 6);
    einflyga_fresh(state);
    program_transfer(state);
    answer = einflyga_step(state, false, memory, MEMORY, io, sizeof io);
    CHECK(einflyga_step_kind(answer) == EINFLYGA_DISABLED);
    write_at(state, EINFLYGA_PORT_MASTER_MODE, EINFLYGA_MASTER_ENABLE);
    answer = einflyga_step(state, false, memory, MEMORY, io, sizeof io);
    CHECK(einflyga_answer_refusal(answer) == EINFLYGA_CARRIED_OUT);
    CHECK(einflyga_step_kind(answer) == EINFLYGA_FETCHED);
    CHECK(einflyga_step_channel(answer) == 1);
    run = einflyga_run(state, 3, memory, MEMORY, io, sizeof io);
    answer = einflyga_run_last(run);
    CHECK(einflyga_run_steps(run) == 3);
    CHECK(einflyga_step_kind(answer) == EINFLYGA_UNIT);
    CHECK(einflyga_step_channel(answer) == 1);
    CHECK(einflyga_step_reasons(answer) == EINFLYGA_REASON_TC);
    CHECK(memcmp(memory + 0x30, "Am9516", 6) == 0);
    CHECK(memory[0x2F] == 0 && memory[0x36] == 0);
    CHECK(read_at(state, EINFLYGA_PORT_STATUS(1)) ==
          (EINFLYGA_STATUS_CIE | EINFLYGA_STATUS_IP | EINFLYGA_STATUS_NAC | EINFLYGA_STATUS_TC));

    answer = einflyga_acknowledge(state);
    CHECK(einflyga_answer_refusal(answer) == EINFLYGA_CARRIED_OUT);
    CHECK(einflyga_acknowledged_channel(answer) == 1);
    CHECK(einflyga_has_save(answer));
    CHECK(einflyga_answer_value(answer) == (EINFLYGA_SAVE_TC | 0x5A));
    write_at(state, EINFLYGA_PORT_COMMAND(1), EINFLYGA_COMMAND_CLEAR_IP(1));
    CHECK(einflyga_answer_refusal(einflyga_acknowledge(state)) == EINFLYGA_NOTHING_TO_ACKNOWLEDGE);
}

/* Changes of the upper address byte: A and then B leave their pages, a fetch wraps, both sides leave at once. */
static void upper_byte(void) {
    uint16_t state[EINFLYGA_WORDS];
    uint8_t memory[MEMORY] = {0};
    uint32_t answer;
    uint64_t run;

    einflyga_fresh(state);
    program_transfer(state);
    write_at(state, EINFLYGA_PORT_CURRENT_A_LOWER(1), 0xFFFE);
    write_at(state, EINFLYGA_PORT_CURRENT_B_UPPER(1), 0xFF00 | EINFLYGA_TAG_MEMORY | EINFLYGA_TAG_UP);
    write_at(state, EINFLYGA_PORT_CURRENT_B_LOWER(1), 0xFFFC);
    write_at(state, EINFLYGA_PORT_MASTER_MODE, EINFLYGA_MASTER_ENABLE);
    answer = einflyga_step(state, false, memory, MEMORY, NULL, 0);
    CHECK(einflyga_step_kind(answer) == EINFLYGA_FETCHED && einflyga_step_upper(answer) == 0);
    answer = einflyga_step(state, false, memory, MEMORY, NULL, 0);
    CHECK(einflyga_step_kind(answer) == EINFLYGA_UNIT && einflyga_step_upper(answer) == 1);
    run = einflyga_run(state, 1, memory, MEMORY, NULL, 0);
    CHECK(einflyga_run_steps(run) == 1 && einflyga_step_upper(einflyga_run_last(run)) == 1);
    CHECK(einflyga_step_channel(einflyga_run_last(run)) == 1 && einflyga_step_reasons(einflyga_run_last(run)) == 0);
    answer = einflyga_step(state, false, memory, MEMORY, NULL, 0);
    CHECK(einflyga_step_reasons(answer) == EINFLYGA_REASON_TC && einflyga_step_upper(answer) == 0);

    einflyga_fresh(state);
    program_transfer(state);
    write_at(state, EINFLYGA_PORT_CURRENT_A_LOWER(1), 0xFFFE);
    write_at(state, EINFLYGA_PORT_CURRENT_B_LOWER(1), 0xFFFE);
    write_at(state, EINFLYGA_PORT_CURRENT_COUNT(1), 1);
    write_at(state, EINFLYGA_PORT_CHAIN_UPPER(1), 0xFF00);
    write_at(state, EINFLYGA_PORT_CHAIN_LOWER(1), 0xFFFE);
    write_at(state, EINFLYGA_PORT_MASTER_MODE, EINFLYGA_MASTER_ENABLE);
    answer = einflyga_step(state, false, memory, MEMORY, NULL, 0);
    CHECK(einflyga_step_kind(answer) == EINFLYGA_FETCHED && einflyga_step_upper(answer) == 1);
    CHECK(read_at(state, EINFLYGA_PORT_CHAIN_UPPER(1)) == 0);

    memset(memory, 0, sizeof memory); /* B has wrapped to the table at 0 */
    einflyga_fresh(state);
    program_transfer(state);
    write_at(state, EINFLYGA_PORT_CURRENT_A_LOWER(1), 0xFFFE);
    write_at(state, EINFLYGA_PORT_CURRENT_B_LOWER(1), 0xFFFE);
    write_at(state, EINFLYGA_PORT_CURRENT_COUNT(1), 1);
    write_at(state, EINFLYGA_PORT_MASTER_MODE, EINFLYGA_MASTER_ENABLE);
    run = einflyga_run(state, 2, memory, MEMORY, NULL, 0);
    CHECK(einflyga_step_upper(einflyga_run_last(run)) == 2);
    CHECK(einflyga_step_reasons(einflyga_run_last(run)) == EINFLYGA_REASON_TC);
}

static const char *words_of_standstill(const uint16_t *state, uint32_t channel) {
    uint32_t answer = einflyga_why(state, channel, MEMORY, 0);
    CHECK(einflyga_answer_refusal(answer) == EINFLYGA_CARRIED_OUT);
    return einflyga_cause_words(einflyga_why_cause(answer));
}

static void pointer_line_and_reset(void) {
    uint16_t state[EINFLYGA_WORDS];

    einflyga_fresh(state);
    einflyga_write_pointer(state, 0x00FF);
    CHECK(einflyga_read_pointer(state) == 0x007E);
    CHECK(einflyga_answer_refusal(einflyga_read(state)) == EINFLYGA_NO_REGISTER);
    CHECK(einflyga_answer_refusal(einflyga_line(state, 2, true)) == EINFLYGA_CARRIED_OUT);
    CHECK(einflyga_answer_refusal(einflyga_line(state, 3, true)) == EINFLYGA_NO_CHANNEL);
    CHECK(einflyga_answer_refusal(einflyga_line(state, 257, true)) == EINFLYGA_NO_CHANNEL);
    CHECK(einflyga_answer_refusal(einflyga_line(state, UINT32_MAX, true)) == EINFLYGA_NO_CHANNEL);
    write_at(state, EINFLYGA_PORT_MASTER_MODE, EINFLYGA_MASTER_ENABLE);
    einflyga_reset(state);
    CHECK(read_at(state, EINFLYGA_PORT_MASTER_MODE) == 0);
    CHECK(read_at(state, EINFLYGA_PORT_STATUS(2)) ==
          (EINFLYGA_STATUS_CA | EINFLYGA_STATUS_NAC | EINFLYGA_STATUS_REQUEST_LINE));
}

/* Spaces of length 0: all bytes read FFh, so the chain loads a byte search of I/O by software request. */
static void no_spaces(void) {
    uint16_t state[EINFLYGA_WORDS];
    uint32_t answer;
    uint64_t run;

    einflyga_fresh(state);
    answer = einflyga_step(state, false, NULL, 0, NULL, 0);
    CHECK(einflyga_step_kind(answer) == EINFLYGA_DISABLED);
    write_at(state, EINFLYGA_PORT_CHAIN_LOWER(1), 0);
    write_at(state, EINFLYGA_PORT_COMMAND(1), EINFLYGA_COMMAND_START_CHAIN(1));
    write_at(state, EINFLYGA_PORT_MASTER_MODE, EINFLYGA_MASTER_ENABLE);
    run = einflyga_run(state, 100, NULL, 0, NULL, 0);
    /* 18 fetches, a unit that matches FFFFh and so ends, then a chain at FFFFFFh, which is odd. */
    CHECK(einflyga_run_steps(run) == 19);
    CHECK(einflyga_answer_refusal(einflyga_run_last(run)) == EINFLYGA_ODD_CHAIN);
    CHECK(read_at(state, EINFLYGA_PORT_STATUS(1)) & EINFLYGA_STATUS_MC);
    run = einflyga_run(state, EINFLYGA_LONGEST_RUN + 1, NULL, 0, NULL, 0);
    CHECK(einflyga_answer_refusal(einflyga_run_last(run)) == EINFLYGA_RUN_TOO_LONG);
}

static void put_words(uint8_t *at, const uint16_t *words, size_t length) {
    for (size_t i = 0; i < length; i++) {
        at[2 * i] = (uint8_t)(words[i] >> 8);
        at[2 * i + 1] = (uint8_t)words[i];
    }
}

/* A search of three words for the marker A5h, which is the low half of the second: steps until it ends, and the status. */
static void search_marker(uint16_t match_control, uint16_t steps, uint16_t status) {
    static const uint16_t frame[] = {0x1112, 0x13A5, 0x1415};
    const uint16_t table[] = {
        EINFLYGA_RELOAD_CURRENT_A | EINFLYGA_RELOAD_CURRENT_COUNT | EINFLYGA_RELOAD_PATTERN_AND_MASK | EINFLYGA_RELOAD_MODE,
        EINFLYGA_TAG_MEMORY | EINFLYGA_TAG_UP,
        0x20,
        3,
        0xA5A5,
        0x0000,
        (uint16_t)(match_control | EINFLYGA_MODE_HIGH_SOFTWARE_REQUEST),
        EINFLYGA_MODE_SEARCH_WORD | EINFLYGA_MODE_DEMAND_HOLD,
    };
    uint16_t state[EINFLYGA_WORDS];
    uint8_t memory[MEMORY] = {0};
    uint64_t run;

    put_words(memory, table, sizeof table / sizeof *table);
    put_words(memory + 0x20, frame, sizeof frame / sizeof *frame);
    einflyga_fresh(state);
    write_at(state, EINFLYGA_PORT_CHAIN_LOWER(1), 0);
    write_at(state, EINFLYGA_PORT_COMMAND(1), EINFLYGA_COMMAND_START_CHAIN(1));
    write_at(state, EINFLYGA_PORT_MASTER_MODE, EINFLYGA_MASTER_ENABLE);
    run = einflyga_run(state, 100, memory, MEMORY, NULL, 0);
    CHECK(einflyga_run_steps(run) == sizeof table / sizeof *table + steps);
    CHECK(read_at(state, EINFLYGA_PORT_STATUS(1)) == (EINFLYGA_STATUS_NAC | status));
}

/* Why channel 1 stands still, on the way to its first unit, each time in words. */
static void standstill(void) {
    static const enum einflyga_cause all[] = {
        EINFLYGA_CAUSE_NOTHING_WRONG, EINFLYGA_CAUSE_DISABLED,   EINFLYGA_CAUSE_OTHERS_CHAIN, EINFLYGA_CAUSE_NOTE,
        EINFLYGA_CAUSE_OTHERS_BUS,    EINFLYGA_CAUSE_CA,         EINFLYGA_CAUSE_SIP,          EINFLYGA_CAUSE_NAC,
        EINFLYGA_CAUSE_MASKED,        EINFLYGA_CAUSE_NO_REQUEST, EINFLYGA_CAUSE_ODD_CHAIN,    EINFLYGA_CAUSE_OPERATION,
        EINFLYGA_CAUSE_ODD_WORD,      EINFLYGA_CAUSE_OTHERS_TURN};
    uint16_t state[EINFLYGA_WORDS], before[EINFLYGA_WORDS];
    uint8_t memory[MEMORY] = {0};

    einflyga_fresh(state);
    CHECK(strcmp(words_of_standstill(state, 1), "disabled") == 0);
    write_at(state, EINFLYGA_PORT_MASTER_MODE, EINFLYGA_MASTER_ENABLE);
    CHECK(strcmp(words_of_standstill(state, 1), "CA") == 0);
    program_transfer(state);
    write_at(state, EINFLYGA_PORT_CHAIN_LOWER(1), 1);
    CHECK(strcmp(words_of_standstill(state, 1), "odd chain address") == 0);
    write_at(state, EINFLYGA_PORT_CHAIN_LOWER(1), 0);
    CHECK(strcmp(words_of_standstill(state, 1), "nothing wrong") == 0);
    CHECK(strcmp(words_of_standstill(state, 2), "CA") == 0);
    CHECK(einflyga_step_kind(einflyga_step(state, false, memory, MEMORY, NULL, 0)) == EINFLYGA_FETCHED);
    CHECK(strcmp(words_of_standstill(state, 2), "bus kept by the other channel") == 0);

    memcpy(before, state, sizeof before);
    CHECK(einflyga_answer_refusal(einflyga_why(state, 0, MEMORY, 0)) == EINFLYGA_NO_CHANNEL);
    CHECK(einflyga_why(state, 257, MEMORY, 0) == EINFLYGA_NO_CHANNEL);
    CHECK(memcmp(before, state, sizeof before) == 0);

    /* Every reason has words of its own. */
    for (size_t i = 0; i < sizeof all / sizeof *all; i++)
        for (size_t j = 0; j < i; j++)
            CHECK(strcmp(einflyga_cause_words(all[i]), einflyga_cause_words(all[j])) != 0);
    CHECK(strcmp(einflyga_cause_words((enum einflyga_cause)13), "no such reason") == 0);
}

int main(void) {
    transfer();
    upper_byte();
    standstill();
    pointer_line_and_reset();
    search_marker(EINFLYGA_MODE_HIGH_STOP_ON_MATCH, 3, EINFLYGA_STATUS_TC);
    search_marker(EINFLYGA_MODE_HIGH_STOP_ON_BYTE_MATCH, 2, EINFLYGA_STATUS_MCL | EINFLYGA_STATUS_MC);
    no_spaces();
    return failures != 0;
}
