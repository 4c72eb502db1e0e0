/* Where everything stands; read by the firmware and by the board. */
#ifndef MAP_H
#define MAP_H

/* The CPU's addresses; up to MEMORY_BYTES they are the controller's memory addresses too. */
#define MEMORY_BYTES 0x040000
#define CODE 0x000400
#define FRAME_TABLE 0x001000
#define SEARCH_TABLE 0x001100
#define FRAME 0x003000
#define CALIBRATION 0x003100
#define LEAVES 0x003200
#define MAILBOX 0x003300
#define STACK 0x004000
#define OLD_FRAME_TABLE 0x011000
#define CALIBRATION_TABLE 0x012000
#define OLD_CALIBRATION_TABLE 0x013000
#define CALIBRATION_STORE 0x014000
#define OLD_CALIBRATION_STORE 0x015000
#define UDC 0xFE0000
#define UDC_POINTER (UDC + 0)
#define UDC_DATA (UDC + 2)

/* The controller's I/O addresses. */
#define IO_BYTES 0x20
#define SENSOR_DATA 0x10

/* A line is a marker and a word a leaf, in hundredths of a degree; the calibration has a word for each leaf. */
#define LINES 4
#define LINE_LEAVES 7
#define LINE_WORDS (1 + LINE_LEAVES)
#define FRAME_WORDS (LINES * LINE_WORDS)

/* A marker is A5h, four flags and the number of its line; in a mask, 1 means that the bit may be anything. */
#define MARKER 0xA500
#define MARKER_MASK 0x00F0
#define SEARCHED_LINE 3

/* The CPU's vectors and level for the controller's interrupts. */
#define VECTOR(channel) (0x3F + (channel))
#define INTERRUPT_LEVEL 5

/* What the firmware leaves: the save word of each channel's interrupt, and the marker's address or 0. */
#define MAILBOX_SAVE(channel) (MAILBOX + 2 * (channel) - 2)
#define MAILBOX_MARKER (MAILBOX + 4)

#endif
