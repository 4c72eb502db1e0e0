/*
 * The camera's firmware. Channel 1 takes a frame from the sensor and then, by a chained table, the calibration from
 * its store; channel 2 searches the frame for the marker of a line; the CPU adds the calibration to that line.
 *
 * Ports, commands and words have their names from einflyga.h, whose macros the preprocessor takes in.
 */
#include "map.h"

/* The assembler knows no casts and no `?:`, so these two are said without. */
#undef EINFLYGA_PORT
#define EINFLYGA_PORT(of_channel_2, channel) ((of_channel_2) + 4 - 2 * (channel))
#undef EINFLYGA_COMMAND
#define EINFLYGA_COMMAND(of_channel_1, channel) ((of_channel_1) + (channel) - 1)

#define UPPER(place) (((place) >> 8) & 0xFF00)
#define LOWER(place) ((place) & 0xFFFF)

        .macro  set port, value                 /* writes a register of the controller */
        move.w  #\port, d0
        move.w  #\value, d1
        bsr     write
        .endm

        .macro  get port                        /* reads a register of the controller into d1 */
        move.w  #\port, d0
        bsr     read
        .endm

        .macro  address place, tag=0            /* two words of a table */
        .word   UPPER(\place) | \tag, LOWER(\place)
        .endm

        .macro  first_table channel, table      /* gives the channel its first table and lets it interrupt */
        set     EINFLYGA_PORT_CHAIN_UPPER(\channel), UPPER(\table)
        set     EINFLYGA_PORT_CHAIN_LOWER(\channel), LOWER(\table)
        set     EINFLYGA_PORT_COMMAND(\channel), EINFLYGA_COMMAND_SET_CIE(\channel)
        .endm

        .macro  start_chain channel
        set     EINFLYGA_PORT_COMMAND(\channel), EINFLYGA_COMMAND_START_CHAIN(\channel)
        .endm

        .macro  ended channel                   /* the handler: notes the save word and clears IP */
        movem.l d0-d1, -(sp)
        move.w  UDC_POINTER, -(sp)              /* the interrupt may fall between a pointer and its data */
        get     EINFLYGA_PORT_INTERRUPT_SAVE(\channel)
        move.w  d1, MAILBOX_SAVE(\channel)
        set     EINFLYGA_PORT_COMMAND(\channel), EINFLYGA_COMMAND_CLEAR_IP(\channel)
        move.w  (sp)+, UDC_POINTER
        movem.l (sp)+, d0-d1
        rte
        .endm

        .org    0
        .long   STACK, start

        .org    4 * VECTOR(1)
        .long   ended_1, ended_2

        .org    CODE
start:  move.w  #0x2000, sr                     /* interrupts of every level */
        clr.l   MAILBOX_SAVE(1)                 /* both channels' words */
        clr.l   MAILBOX_MARKER
        set     EINFLYGA_PORT_MASTER_MODE, EINFLYGA_MASTER_ENABLE
        first_table 1, FRAME_TABLE
        start_chain 1
        first_table 2, SEARCH_TABLE             /* while the frame comes in */

        lea     MAILBOX_SAVE(1), a0
        bsr     wait
        start_chain 2
        lea     MAILBOX_SAVE(2), a0
        bsr     wait
        move.w  MAILBOX_SAVE(2), d0
        andi.w  #EINFLYGA_SAVE_MC, d0           /* TC alone: there is no such marker */
        beq     done

        clr.l   d2
        get     EINFLYGA_PORT_CURRENT_A_UPPER(2)
        move.w  d1, d2
        clr.b   d2                              /* without its tag */
        lsl.l   #8, d2
        get     EINFLYGA_PORT_CURRENT_A_LOWER(2)
        move.w  d1, d2
        movea.l d2, a0                          /* the search has stepped past the marker, to the first leaf */
        subq.l  #2, d2
        move.l  d2, MAILBOX_MARKER

        lea     CALIBRATION, a1
        lea     LEAVES, a2
        moveq   #LINE_LEAVES - 1, d1
leaf:   move.w  (a0)+, d0
        add.w   (a1)+, d0
        move.w  d0, (a2)+
        dbra    d1, leaf
done:   stop    #0x2700                         /* for good: no interrupt is let in */

/* Sleeps until a handler has noted a save word at a0. */
wait:   move.w  #0x2700, sr                     /* so that no interrupt falls between the test and STOP */
        tst.w   (a0)
        bne     awake
        stop    #0x2000
        bra     wait
awake:  move.w  #0x2000, sr
        rts

/* Write d1 into the register at port d0, or read it from there. */
write:  move.w  d0, UDC_POINTER
        move.w  d1, UDC_DATA
        rts
read:   move.w  d0, UDC_POINTER
        move.w  UDC_DATA, d1
        rts

ended_1: ended  1
ended_2: ended  2

        .macro  frame_table next                /* channel 1: the frame, as the sensor asks; then the next table */
        .word   EINFLYGA_RELOAD_CURRENT_A | EINFLYGA_RELOAD_CURRENT_B | EINFLYGA_RELOAD_CURRENT_COUNT \
                | EINFLYGA_RELOAD_VECTOR | EINFLYGA_RELOAD_MODE | EINFLYGA_RELOAD_CHAIN_ADDRESS
        address SENSOR_DATA, EINFLYGA_TAG_HOLD
        address FRAME, EINFLYGA_TAG_MEMORY
        .word   FRAME_WORDS
        .word   VECTOR(1)
        .word   0                               /* no software request, and the request line is not masked */
        .word   EINFLYGA_MODE_TRANSFER_WORD | EINFLYGA_MODE_DEMAND_RELEASE | EINFLYGA_MODE_CHAIN_ON_TC
        address \next
        .endm

        .macro  calibration_table store         /* channel 1: the calibration, unasked, and an interrupt */
        .word   EINFLYGA_RELOAD_CURRENT_A | EINFLYGA_RELOAD_CURRENT_B | EINFLYGA_RELOAD_CURRENT_COUNT \
                | EINFLYGA_RELOAD_MODE
        address \store, EINFLYGA_TAG_MEMORY
        address CALIBRATION, EINFLYGA_TAG_MEMORY
        .word   LINE_LEAVES
        .word   EINFLYGA_MODE_HIGH_HARDWARE_MASK | EINFLYGA_MODE_HIGH_SOFTWARE_REQUEST
        .word   EINFLYGA_MODE_TRANSFER_WORD | EINFLYGA_MODE_DEMAND_HOLD | EINFLYGA_MODE_INTERRUPT_ON_TC
        .endm

        .org    FRAME_TABLE
        frame_table CALIBRATION_TABLE           /* both words of the chain address change */

        .org    SEARCH_TABLE                    /* channel 2: the marker, anywhere in the frame */
        .word   EINFLYGA_RELOAD_CURRENT_A | EINFLYGA_RELOAD_CURRENT_COUNT | EINFLYGA_RELOAD_PATTERN_AND_MASK \
                | EINFLYGA_RELOAD_VECTOR | EINFLYGA_RELOAD_MODE
        address FRAME, EINFLYGA_TAG_MEMORY
        .word   FRAME_WORDS
        .word   MARKER + SEARCHED_LINE, MARKER_MASK
        .word   VECTOR(2)
        .word   EINFLYGA_MODE_HIGH_STOP_ON_MATCH | EINFLYGA_MODE_HIGH_HARDWARE_MASK \
                | EINFLYGA_MODE_HIGH_SOFTWARE_REQUEST
        .word   EINFLYGA_MODE_SEARCH_WORD | EINFLYGA_MODE_DEMAND_HOLD \
                | EINFLYGA_MODE_INTERRUPT_ON_TC | EINFLYGA_MODE_INTERRUPT_ON_MC

/*
 * The decoy: last season's tables. The frame table stands 010000h above this season's, so a controller that uses the
 * new upper chain word before it has the lower one fetches the lower one from it, and goes on to the old calibration.
 */
        .org    OLD_FRAME_TABLE
        frame_table OLD_CALIBRATION_TABLE

        .org    CALIBRATION_TABLE
        calibration_table CALIBRATION_STORE

        .org    OLD_CALIBRATION_TABLE
        calibration_table OLD_CALIBRATION_STORE
