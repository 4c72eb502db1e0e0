/*
 * einflyga.h: the proved model of the AMD Am9516A DMA controller, for C and C++ hosts.
 *
 * The caller owns the state: 72 words, made by einflyga_fresh. It lends two byte spaces, memory and I/O, to a step
 * or a run. What the caller owes:
 *   - `state` points to EINFLYGA_WORDS words that no one else uses during the call;
 *   - each space is `length` bytes at its pointer; a space of length 0 may have any pointer, NULL too;
 *   - the two spaces do not overlap each other, nor the state.
 * No call keeps a pointer, allocates or blocks. Any words are safe as a state: a flag that is not 0 counts as 1, and a
 * channel or stage that is none of those below counts as 0.
 *
 * A word at even address E has byte E as its high half. A byte beyond a space's end reads FFh, and a write there is lost.
 */
#ifndef EINFLYGA_H
#define EINFLYGA_H

#include <stddef.h>
#include <stdint.h>
#ifndef __cplusplus
#include <stdbool.h>
#endif

#ifdef __cplusplus
extern "C" {
#endif

/*
 * The state, one field a word:
 *   0 pointer; 1 master mode
 *   2 chain under way (0 none, 1 or 2 its channel); 3 its stage (0 the reload word is next, 1 the table's entries)
 *   4 reload bits of the entries not wholly fetched; 5 the second word of an entry is next; 6 a new chain upper word
 *   7 kept bus (0 free, 1 or 2 its channel); 8 give-back note; 9 served last (0 none, 1 or 2)
 *   10 to 40 channel 1, 41 to 71 channel 2, each:
 *     +0 current A upper, +1 lower; +2 current B upper, +3 lower; +4 current count
 *     +5 base A upper, +6 lower; +7 base B upper, +8 lower; +9 base count; +10 pattern; +11 mask
 *     +12 mode high, +13 low; +14 chain upper, +15 lower; +16 CIE; +17 IP; +18 SIP; +19 vector; +20 interrupt save
 *     +21 CA; +22 NAC; +23 MCH; +24 MCL; +25 TC; +26 MC; +27 EOP; +28 request line; +29 stored change; +30 chain pending
 */
#define EINFLYGA_WORDS 72

/* The greatest budget of a run. */
#define EINFLYGA_LONGEST_RUN 65536

/* Ports, as the pointer names them; `channel` is 1 or 2. */
#define EINFLYGA_PORT(of_channel_2, channel) ((uint16_t)((of_channel_2) + ((channel) == 1 ? 2 : 0)))
#define EINFLYGA_PORT_MASTER_MODE 0x38
#define EINFLYGA_PORT_COMMAND(channel) EINFLYGA_PORT(0x2C, channel)        /* write only */
#define EINFLYGA_PORT_STATUS(channel) EINFLYGA_PORT(0x2C, channel)         /* read only */
#define EINFLYGA_PORT_CURRENT_A_UPPER(channel) EINFLYGA_PORT(0x18, channel)
#define EINFLYGA_PORT_CURRENT_A_LOWER(channel) EINFLYGA_PORT(0x08, channel)
#define EINFLYGA_PORT_CURRENT_B_UPPER(channel) EINFLYGA_PORT(0x10, channel)
#define EINFLYGA_PORT_CURRENT_B_LOWER(channel) EINFLYGA_PORT(0x00, channel)
#define EINFLYGA_PORT_CURRENT_COUNT(channel) EINFLYGA_PORT(0x30, channel)
#define EINFLYGA_PORT_BASE_A_UPPER(channel) EINFLYGA_PORT(0x1C, channel)
#define EINFLYGA_PORT_BASE_A_LOWER(channel) EINFLYGA_PORT(0x0C, channel)
#define EINFLYGA_PORT_BASE_B_UPPER(channel) EINFLYGA_PORT(0x14, channel)
#define EINFLYGA_PORT_BASE_B_LOWER(channel) EINFLYGA_PORT(0x04, channel)
#define EINFLYGA_PORT_BASE_COUNT(channel) EINFLYGA_PORT(0x34, channel)
#define EINFLYGA_PORT_PATTERN(channel) EINFLYGA_PORT(0x48, channel)
#define EINFLYGA_PORT_MASK(channel) EINFLYGA_PORT(0x4C, channel)
#define EINFLYGA_PORT_INTERRUPT_SAVE(channel) EINFLYGA_PORT(0x28, channel) /* read only */
#define EINFLYGA_PORT_VECTOR(channel) EINFLYGA_PORT(0x58, channel)
#define EINFLYGA_PORT_MODE_HIGH(channel) EINFLYGA_PORT(0x54, channel)      /* read only */
#define EINFLYGA_PORT_MODE_LOW(channel) EINFLYGA_PORT(0x50, channel)
#define EINFLYGA_PORT_CHAIN_UPPER(channel) EINFLYGA_PORT(0x24, channel)
#define EINFLYGA_PORT_CHAIN_LOWER(channel) EINFLYGA_PORT(0x20, channel)

/* Commands; `channel` is 1 or 2. IP is named only at its own channel's port, the others go to either port. */
#define EINFLYGA_COMMAND(of_channel_1, channel) ((uint16_t)((of_channel_1) + ((channel) == 1 ? 0 : 1)))
#define EINFLYGA_COMMAND_RESET 0x00
#define EINFLYGA_COMMAND_START_CHAIN(channel) EINFLYGA_COMMAND(0xA0, channel)
#define EINFLYGA_COMMAND_SET_SOFTWARE_REQUEST(channel) EINFLYGA_COMMAND(0x42, channel)
#define EINFLYGA_COMMAND_CLEAR_SOFTWARE_REQUEST(channel) EINFLYGA_COMMAND(0x40, channel)
#define EINFLYGA_COMMAND_SET_HARDWARE_MASK(channel) EINFLYGA_COMMAND(0x82, channel)
#define EINFLYGA_COMMAND_CLEAR_HARDWARE_MASK(channel) EINFLYGA_COMMAND(0x80, channel)
#define EINFLYGA_COMMAND_SET_CIE(channel) EINFLYGA_COMMAND(0x32, channel)
#define EINFLYGA_COMMAND_CLEAR_CIE(channel) EINFLYGA_COMMAND(0x30, channel)
#define EINFLYGA_COMMAND_SET_IP(channel) EINFLYGA_COMMAND(0x26, channel)
#define EINFLYGA_COMMAND_CLEAR_IP(channel) EINFLYGA_COMMAND(0x24, channel)
#define EINFLYGA_COMMAND_SET_CIE_AND_IP(channel) EINFLYGA_COMMAND(0x36, channel)
#define EINFLYGA_COMMAND_CLEAR_CIE_AND_IP(channel) EINFLYGA_COMMAND(0x34, channel)
#define EINFLYGA_COMMAND_SET_FLIP(channel) EINFLYGA_COMMAND(0x62, channel)
#define EINFLYGA_COMMAND_CLEAR_FLIP(channel) EINFLYGA_COMMAND(0x60, channel)

/* Master mode. */
#define EINFLYGA_MASTER_ENABLE 0x0001
#define EINFLYGA_MASTER_CPU_INTERLEAVE 0x0002
#define EINFLYGA_MASTER_WAIT_LINE 0x0004 /* stored only */
#define EINFLYGA_MASTER_NO_VECTOR 0x0008

/* Upper word of a current or base address; bits 15-8 are the upper address. */
#define EINFLYGA_TAG_NORMAL 0x0080
#define EINFLYGA_TAG_MEMORY 0x0040 /* clear: I/O */
#define EINFLYGA_TAG_UP 0x0000
#define EINFLYGA_TAG_DOWN 0x0008
#define EINFLYGA_TAG_HOLD 0x0010
#define EINFLYGA_TAG_WAITS_0 0x0000 /* waits are stored only; the chain upper word has them too */
#define EINFLYGA_TAG_WAITS_1 0x0002
#define EINFLYGA_TAG_WAITS_2 0x0004
#define EINFLYGA_TAG_WAITS_4 0x0006

/* Mode low: one operation, one request mode, and for each end reason what follows. */
#define EINFLYGA_MODE_TRANSFER_WORD 0x0000
#define EINFLYGA_MODE_TRANSFER_BYTE 0x0001
#define EINFLYGA_MODE_TRANSFER_FUNNEL 0x0008
#define EINFLYGA_MODE_TRANSFER_SEARCH_WORD 0x0004
#define EINFLYGA_MODE_TRANSFER_SEARCH_BYTE 0x0005
#define EINFLYGA_MODE_TRANSFER_SEARCH_FUNNEL 0x000C
#define EINFLYGA_MODE_SEARCH_WORD 0x000E
#define EINFLYGA_MODE_SEARCH_BYTE 0x000F
#define EINFLYGA_MODE_FLIP 0x0010 /* set: from B to A */
#define EINFLYGA_MODE_SINGLE 0x0000
#define EINFLYGA_MODE_DEMAND_HOLD 0x0020
#define EINFLYGA_MODE_DEMAND_RELEASE 0x0040
#define EINFLYGA_MODE_DEMAND_INTERLEAVE 0x0060
#define EINFLYGA_MODE_INTERRUPT_ON_TC 0x0080
#define EINFLYGA_MODE_INTERRUPT_ON_MC 0x0100
#define EINFLYGA_MODE_INTERRUPT_ON_EOP 0x0200
#define EINFLYGA_MODE_RELOAD_ON_TC 0x0400
#define EINFLYGA_MODE_RELOAD_ON_MC 0x0800
#define EINFLYGA_MODE_RELOAD_ON_EOP 0x1000
#define EINFLYGA_MODE_CHAIN_ON_TC 0x2000
#define EINFLYGA_MODE_CHAIN_ON_MC 0x4000
#define EINFLYGA_MODE_CHAIN_ON_EOP 0x8000

/*
 * Mode high; loaded by chaining. A word, funnelled too, is a match if both of its halves match their half of the pattern,
 * under STOP_ON_BYTE_MATCH if either does; for a byte the two are the same. A half whose mask bits are all 1 always matches,
 * so put a marker of one byte into both halves of the pattern.
 */
#define EINFLYGA_MODE_HIGH_STOP_ON_NO_MATCH 0x0000
#define EINFLYGA_MODE_HIGH_STOP_ON_MATCH 0x0002
#define EINFLYGA_MODE_HIGH_STOP_ON_BYTE_MATCH 0x0003
#define EINFLYGA_MODE_HIGH_DACK 0x0004 /* stored only */
#define EINFLYGA_MODE_HIGH_HARDWARE_MASK 0x0008
#define EINFLYGA_MODE_HIGH_SOFTWARE_REQUEST 0x0010

/* Reload word of a chain table; the entries follow in this order. */
#define EINFLYGA_RELOAD_CURRENT_A 0x0200 /* upper, lower */
#define EINFLYGA_RELOAD_CURRENT_B 0x0100 /* upper, lower */
#define EINFLYGA_RELOAD_CURRENT_COUNT 0x0080
#define EINFLYGA_RELOAD_BASE_A 0x0040 /* upper, lower */
#define EINFLYGA_RELOAD_BASE_B 0x0020 /* upper, lower */
#define EINFLYGA_RELOAD_BASE_COUNT 0x0010
#define EINFLYGA_RELOAD_PATTERN_AND_MASK 0x0008
#define EINFLYGA_RELOAD_VECTOR 0x0004
#define EINFLYGA_RELOAD_MODE 0x0002          /* high, low */
#define EINFLYGA_RELOAD_CHAIN_ADDRESS 0x0001 /* upper, lower */

/* Status. */
#define EINFLYGA_STATUS_CIE 0x8000
#define EINFLYGA_STATUS_IP 0x2000
#define EINFLYGA_STATUS_CA 0x1000
#define EINFLYGA_STATUS_NAC 0x0800
#define EINFLYGA_STATUS_WFB 0x0400
#define EINFLYGA_STATUS_SIP 0x0200
#define EINFLYGA_STATUS_HARDWARE_MASK 0x0040
#define EINFLYGA_STATUS_REQUEST_LINE 0x0020
#define EINFLYGA_STATUS_MCH 0x0010 /* the high half of the word compared last matched; of a byte, all sixteen bits */
#define EINFLYGA_STATUS_MCL 0x0008 /* the low half; of a byte, as MCH */
#define EINFLYGA_STATUS_MC 0x0004
#define EINFLYGA_STATUS_EOP 0x0002
#define EINFLYGA_STATUS_TC 0x0001

/* Interrupt save; bits 7-0 are the vector. */
#define EINFLYGA_SAVE_CHANNEL_2 0x8000
#define EINFLYGA_SAVE_REQUEST_LINE 0x4000
#define EINFLYGA_SAVE_MCH 0x2000
#define EINFLYGA_SAVE_MCL 0x1000
#define EINFLYGA_SAVE_CA 0x0800
#define EINFLYGA_SAVE_MC 0x0400
#define EINFLYGA_SAVE_EOP 0x0200
#define EINFLYGA_SAVE_TC 0x0100

/*
 * Why a call was refused. A refused call leaves every word and every byte that it is lent exactly as it was, whatever
 * they are; a run that a later step stops keeps the steps before.
 */
enum einflyga_refusal {
    EINFLYGA_CARRIED_OUT = 0,
    EINFLYGA_NO_REGISTER = 1,             /* no register at the pointer for this direction */
    EINFLYGA_BUS_IN_USE = 2,              /* a write, not Reset, while the bus is kept or a chain is under way */
    EINFLYGA_NO_COMMAND = 3,              /* command kind 6 or 7 */
    EINFLYGA_WRONG_PORT = 4,              /* IP named at the other channel's port */
    EINFLYGA_CHAIN_BARRED = 5,            /* Start Chain with CA or SIP set */
    EINFLYGA_ODD_CHAIN = 6,               /* first fetch of a chain from an odd address */
    EINFLYGA_NO_OPERATION = 7,            /* unit with a flyby or illegal operation */
    EINFLYGA_ODD_WORD = 8,                /* unit with a word side at an odd address */
    EINFLYGA_NOTHING_TO_ACKNOWLEDGE = 9,
    EINFLYGA_NO_CHANNEL = 10,             /* channel other than 1 or 2 */
    EINFLYGA_RUN_TOO_LONG = 11            /* run of more than 65,536 */
};

/* What a step did. */
enum einflyga_kind {
    EINFLYGA_DISABLED = 0,        /* nothing: not enabled */
    EINFLYGA_IDLE = 1,            /* nothing: no channel wants the bus */
    EINFLYGA_NOTE_GIVEN_BACK = 2, /* the give-back note was cleared */
    EINFLYGA_BUS_GIVEN_BACK = 3,  /* the channel that kept the bus gave it back */
    EINFLYGA_HOLDING = 4,         /* the channel keeps the bus without a request */
    EINFLYGA_FETCHED = 5,         /* the channel fetched one word of its chain */
    EINFLYGA_DROPPED = 6,         /* EOP ended the channel's chain */
    EINFLYGA_UNIT = 7,            /* the channel did one unit */
    EINFLYGA_ENDED = 8            /* EOP ended the operation of the holding channel */
};

/* Why a unit ended its operation; none of them where it goes on. */
#define EINFLYGA_REASON_TC 0x1
#define EINFLYGA_REASON_MC 0x2
#define EINFLYGA_REASON_EOP 0x4

/*
 * Why a channel stands still: the first of these that is true of the state, in this order, and nothing wrong where none is.
 * Numbers 13 to 15 are not used yet. A chain of the channel, pending or under way, passes over CA to NO_REQUEST,
 * OPERATION and ODD_WORD.
 */
enum einflyga_cause {
    EINFLYGA_CAUSE_NOTHING_WRONG = 0,  /* the next step without EOP fetches a word or does a unit for the channel */
    EINFLYGA_CAUSE_DISABLED = 1,       /* master mode does not enable the controller */
    EINFLYGA_CAUSE_OTHERS_CHAIN = 2,   /* a chain is under way on the other channel */
    EINFLYGA_CAUSE_NOTE = 3,           /* the next step gives the bus back */
    EINFLYGA_CAUSE_OTHERS_BUS = 4,     /* the other channel keeps the bus */
    EINFLYGA_CAUSE_CA = 5,             /* chain aborted: write the chain address, then Start Chain */
    EINFLYGA_CAUSE_SIP = 6,            /* a second interrupt waits: acknowledge */
    EINFLYGA_CAUSE_NAC = 7,            /* the operation has ended: Start Chain */
    EINFLYGA_CAUSE_MASKED = 8,         /* clearing the hardware mask would make the request active */
    EINFLYGA_CAUSE_NO_REQUEST = 9,     /* .. would not help */
    EINFLYGA_CAUSE_ODD_CHAIN = 10,     /* the first fetch of the chain would be refused by 6 */
    EINFLYGA_CAUSE_OPERATION = 11,     /* the unit would be refused by 7 */
    EINFLYGA_CAUSE_ODD_WORD = 12,      /* .. by 8 */
    EINFLYGA_CAUSE_OTHERS_TURN = 16    /* both want the bus, and the other comes first */
};

/* A fresh controller: all zeros, then reset. */
void einflyga_fresh(uint16_t state[EINFLYGA_WORDS]);

/* The reset line. */
void einflyga_reset(uint16_t state[EINFLYGA_WORDS]);

/* Writes the pointer, which keeps bits 1 to 6. */
void einflyga_write_pointer(uint16_t state[EINFLYGA_WORDS], uint16_t pointer);

/* Reads the pointer. */
uint16_t einflyga_read_pointer(const uint16_t state[EINFLYGA_WORDS]);

/* Writes the register at the pointer. Refusals 1 to 5. */
uint32_t einflyga_write(uint16_t state[EINFLYGA_WORDS], uint16_t value);

/* Reads the register at the pointer: einflyga_answer_value. Refusal 1. */
uint32_t einflyga_read(const uint16_t state[EINFLYGA_WORDS]);

/* Puts a channel's request line at a level. Refusal 10. */
uint32_t einflyga_line(uint16_t state[EINFLYGA_WORDS], uint32_t channel, bool active);

/* Acknowledges an interrupt: einflyga_acknowledged_channel, einflyga_has_save, einflyga_answer_value. Refusal 9. */
uint32_t einflyga_acknowledge(uint16_t state[EINFLYGA_WORDS]);

/* Does one step, with EOP given or not: einflyga_step_kind, _channel, _reasons and _upper. Refusals 6 to 8. */
uint32_t einflyga_step(uint16_t state[EINFLYGA_WORDS], bool eop, uint8_t *memory, size_t memory_length, uint8_t *io,
                       size_t io_length);

/*
 * Does up to `budget` steps without EOP; stops on a refusal, idle, disabled or holding. einflyga_run_last is the last
 * step's answer and einflyga_run_steps the number of steps before the one that stopped the run, or the whole budget.
 * Refusal 11; refusals 6 to 8 as a step's.
 */
uint64_t einflyga_run(uint16_t state[EINFLYGA_WORDS], uint32_t budget, uint8_t *memory, size_t memory_length,
                      uint8_t *io, size_t io_length);

/*
 * Says why a channel stands still, over spaces of these lengths: einflyga_why_cause. Changes nothing. Refusal 10.
 * No rule asks for the lengths yet.
 */
uint32_t einflyga_why(const uint16_t state[EINFLYGA_WORDS], uint32_t channel, size_t memory_length, size_t io_length);

/* The refusal of any answer but a run's. */
static inline enum einflyga_refusal einflyga_answer_refusal(uint32_t answer) {
    return (enum einflyga_refusal)(answer & 0xFF);
}

/* The register that was read, or the save word that an acknowledge gave. */
static inline uint16_t einflyga_answer_value(uint32_t answer) { return (uint16_t)(answer >> 16); }

/* The channel whose interrupt was acknowledged, 1 or 2. */
static inline unsigned einflyga_acknowledged_channel(uint32_t answer) { return answer >> 8 & 3; }

/* Whether the acknowledge gave a save word; master mode may say no vector. */
static inline bool einflyga_has_save(uint32_t answer) { return (answer >> 10 & 1) != 0; }

/* What a step did. */
static inline enum einflyga_kind einflyga_step_kind(uint32_t answer) {
    return (enum einflyga_kind)(answer >> 8 & 0xFF);
}

/* The channel of a step, 1 or 2; 0 for the kinds up to EINFLYGA_BUS_GIVEN_BACK. */
static inline unsigned einflyga_step_channel(uint32_t answer) { return answer >> 16 & 0xFF; }

/* The set of EINFLYGA_REASON_ bits of a unit. */
static inline unsigned einflyga_step_reasons(uint32_t answer) { return answer >> 24 & 7; }

/*
 * How often a unit, 0 to 2, or a fetch, 0 or 1, changed the upper byte (bits 23-16) of an address that it stepped; a wrap
 * past either end counts. Where a new chain address takes the old one's place nothing steps; nor does a reload from base.
 */
static inline unsigned einflyga_step_upper(uint32_t answer) { return answer >> 28 & 3; }

/* Why the channel stands still. */
static inline enum einflyga_cause einflyga_why_cause(uint32_t answer) {
    return (enum einflyga_cause)(answer >> 8 & 0xFF);
}

/* The reason in words, for a person. */
static inline const char *einflyga_cause_words(enum einflyga_cause cause) {
    switch (cause) {
    case EINFLYGA_CAUSE_NOTHING_WRONG:
        return "nothing wrong";
    case EINFLYGA_CAUSE_DISABLED:
        return "disabled";
    case EINFLYGA_CAUSE_OTHERS_CHAIN:
        return "chain under way on the other channel";
    case EINFLYGA_CAUSE_NOTE:
        return "give-back note";
    case EINFLYGA_CAUSE_OTHERS_BUS:
        return "bus kept by the other channel";
    case EINFLYGA_CAUSE_CA:
        return "CA";
    case EINFLYGA_CAUSE_SIP:
        return "SIP";
    case EINFLYGA_CAUSE_NAC:
        return "NAC";
    case EINFLYGA_CAUSE_MASKED:
        return "masked with the line active";
    case EINFLYGA_CAUSE_NO_REQUEST:
        return "no request";
    case EINFLYGA_CAUSE_ODD_CHAIN:
        return "odd chain address";
    case EINFLYGA_CAUSE_OPERATION:
        return "operation not carried";
    case EINFLYGA_CAUSE_ODD_WORD:
        return "odd word address";
    case EINFLYGA_CAUSE_OTHERS_TURN:
        return "other channel's turn";
    }
    return "no such reason";
}

/* A run's last answer, as a step's. */
static inline uint32_t einflyga_run_last(uint64_t answer) { return (uint32_t)answer; }

/* A run's number of steps. */
static inline uint32_t einflyga_run_steps(uint64_t answer) { return (uint32_t)(answer >> 32); }

#ifdef __cplusplus
}
#endif

#endif
