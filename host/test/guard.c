/* Any words as state, and every call: nothing is touched outside what is lent. State and spaces stand against pages that cannot be
   touched, first at their ends and then at their beginnings, so that one byte too far, read or written, kills the program.
   A refused call leaves such words as they were. */
#define _DEFAULT_SOURCE
#include "einflyga.h"

#include <stdio.h>
#include <stdlib.h>
#include <string.h>
#include <sys/mman.h>

enum { PAGE = 4096, LONGEST = 2 * PAGE, ROUNDS = 20000 };

static uint64_t seed = 0x9516, steps;
static uint64_t refused[EINFLYGA_RUN_TOO_LONG + 1]; /* how often by each number */

static uint32_t random_number(void) {
    seed = seed * 6364136223846793005u + 1442695040888963407u;
    return (uint32_t)(seed >> 33);
}

/* Two pages between two that cannot be touched. */
static uint8_t *fenced(void) {
    uint8_t *pages = mmap(NULL, 4 * PAGE, PROT_NONE, MAP_PRIVATE | MAP_ANONYMOUS, -1, 0);
    if (pages == MAP_FAILED || mprotect(pages + PAGE, LONGEST, PROT_READ | PROT_WRITE) != 0) {
        perror("mmap");
        exit(EXIT_FAILURE);
    }
    return pages + PAGE;
}

static uint8_t *lend(uint8_t *pages, size_t length, bool at_the_end) {
    uint8_t *space = at_the_end ? pages + LONGEST - length : pages;
    for (size_t i = 0; i < length; i++)
        space[i] = (uint8_t)random_number();
    return space;
}

static size_t some_length(void) {
    static const size_t lengths[] = {0, 1, 2, 3, 255, 4097, LONGEST};
    return lengths[random_number() % (sizeof lengths / sizeof *lengths)];
}

/* A state that is likely to do something: enabled, addresses within reach, and else anything. */
static void some_state(uint16_t *state) {
    for (int i = 0; i < EINFLYGA_WORDS; i++)
        state[i] = (uint16_t)(random_number() % 3 ? random_number() : random_number() % 3);
    state[1] |= 1;
    if (random_number() % 2)
        state[2] = 0;
    for (int channel = 10; channel < EINFLYGA_WORDS; channel += 31)
        for (int upper = 0; upper < 4; upper += 2)
            state[channel + upper] &= 0xFF;
}

/* Why a channel stands still: refused exactly for another channel, and the words stay as they were, whatever they are. */
static void look(uint16_t *state, size_t memory_length, size_t io_length) {
    uint16_t before[EINFLYGA_WORDS];
    uint32_t channel = random_number() % 4 + random_number() % 2 * 256;
    memcpy(before, state, sizeof before);
    uint32_t answer = einflyga_why(state, channel, memory_length, io_length);
    bool is_channel = channel == 1 || channel == 2;
    if ((is_channel ? answer & 0xFF : answer ^ EINFLYGA_NO_CHANNEL) != 0 || memcmp(before, state, sizeof before) != 0) {
        fprintf(stderr, "a look at channel %u answered %X or changed the words\n", (unsigned)channel, (unsigned)answer);
        exit(EXIT_FAILURE);
    }
}

static void call_all(uint16_t *state, uint8_t *memory, size_t memory_length, uint8_t *io, size_t io_length) {
    einflyga_write_pointer(state, (uint16_t)random_number());
    einflyga_read_pointer(state);
    einflyga_read(state);
    einflyga_write(state, (uint16_t)random_number());
    einflyga_line(state, random_number() % 4, random_number() % 2);
    look(state, memory_length, io_length);
    einflyga_acknowledge(state);
    einflyga_step(state, random_number() % 2, memory, memory_length, io, io_length);
    steps += einflyga_run_steps(einflyga_run(state, random_number() % 300, memory, memory_length, io, io_length));
    if (random_number() % 16 == 0)
        einflyga_reset(state);
    if (random_number() % 16 == 0)
        einflyga_fresh(state);
}

/* One of the calls that can be refused, and what refused it, if it made no step. */
static enum einflyga_refusal call_one(int which, uint16_t *state, uint8_t *memory, size_t memory_length, uint8_t *io,
                                      size_t io_length) {
    uint32_t channel = random_number() % 4 + random_number() % 2 * 256;
    uint64_t run;
    switch (which) {
    case 0:
        return einflyga_answer_refusal(einflyga_write(state, (uint16_t)random_number()));
    case 1:
        return einflyga_answer_refusal(einflyga_line(state, channel, random_number() % 2));
    case 2:
        return einflyga_answer_refusal(einflyga_acknowledge(state));
    case 3:
        return einflyga_answer_refusal(einflyga_step(state, random_number() % 2, memory, memory_length, io, io_length));
    default:
        run = einflyga_run(state, random_number() % 8 ? 20 : EINFLYGA_LONGEST_RUN + 1, memory, memory_length, io,
                           io_length);
        return einflyga_run_steps(run) ? EINFLYGA_CARRIED_OUT : einflyga_answer_refusal(einflyga_run_last(run));
    }
}

/* Where the call is refused the words are as they were, bit for bit. */
static void refuse(int which, uint16_t *state, uint8_t *memory, size_t memory_length, uint8_t *io, size_t io_length) {
    uint16_t before[EINFLYGA_WORDS];
    some_state(state);
    if (random_number() % 2)
        state[0] = EINFLYGA_PORT_COMMAND(1);
    memcpy(before, state, sizeof before);
    enum einflyga_refusal number = call_one(which, state, memory, memory_length, io, io_length);
    refused[number]++;
    if (number != EINFLYGA_CARRIED_OUT && memcmp(before, state, sizeof before) != 0) {
        fprintf(stderr, "refusal %d changed the words\n", number);
        exit(EXIT_FAILURE);
    }
}

int main(void) {
    uint8_t *state_pages = fenced(), *memory_pages = fenced(), *io_pages = fenced();
    for (int round = 0; round < ROUNDS; round++) {
        bool at_the_end = round % 2;
        size_t memory_length = some_length(), io_length = some_length();
        uint16_t *state = (uint16_t *)(void *)lend(state_pages, 2 * EINFLYGA_WORDS, at_the_end);
        uint8_t *memory = lend(memory_pages, memory_length, at_the_end), *io = lend(io_pages, io_length, at_the_end);
        some_state(state);
        for (int again = 0; again < 4; again++)
            call_all(state, memory, memory_length, io, io_length);
        for (int which = 0; which < 5; which++)
            refuse(which, state, memory, memory_length, io, io_length);
    }
    for (int number = 1; number <= EINFLYGA_RUN_TOO_LONG; number++)
        if (refused[number] == 0) {
            fprintf(stderr, "no call was refused by %d\n", number);
            return EXIT_FAILURE;
        }
    printf("%llu steps in runs\n", (unsigned long long)steps);
    return steps < 100000; /* a state that never moves would show nothing */
}
