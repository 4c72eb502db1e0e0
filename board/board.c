/*
 * The board: a 68000 on Unicorn, the proved Am9516A as its DMA controller, a leaf temperature sensor at the request
 * line of channel 1. It runs the firmware image that it is given and tells the fate of every word.
 */
#include <stdarg.h>
#include <stdio.h>
#include <stdlib.h>
#include <unicorn/unicorn.h>

#include "einflyga.h"
#include "map.h"

/* The words of the controller's state that the board looks at; einflyga.h lists them all. */
enum { CHAIN_UNDER_WAY = 2, CHAIN_STAGE = 3, KEPT_BUS = 7, CHANNEL_1 = 10, CHANNEL_2 = 41 };
enum { CHAIN_UPPER = 14, CHAIN_LOWER = 15, CIE = 16, IP = 17, SIP = 18 };

/* Blocks in a burst of the CPU, turns between two words of the sensor, turns until the board gives up. */
enum { BURST = 1, SENSOR_PAUSE = 3, PATIENCE = 5000 };

/* The CPU has a page for the controller and one for an instruction of the board's own; see take_interrupt. */
enum { PAGE = 0x1000, STUB = 0xFF0000 };

static _Alignas(PAGE) uint8_t memory[MEMORY_BYTES]; /* the CPU and the controller share it */
static uint8_t io[IO_BYTES];
static uint16_t udc[EINFLYGA_WORDS];
static uc_engine *cpu;
static unsigned blocks;    /* begun in this burst */
static uint32_t block_end; /* where the latest one ends */
static bool stopped;       /* the CPU is in STOP */
static struct {
    unsigned taken, pause;
    bool line;
} sensor;

/* For the account. */
static unsigned tables, fetched, from_decoy, units, given_back, interrupts, faults;
static uint16_t saves[2];

static _Noreturn void fail(const char *format, ...) {
    va_list values;
    va_start(values, format);
    vprintf(format, values);
    va_end(values);
    putchar('\n');
    exit(EXIT_FAILURE);
}

static void carried_out(uint32_t answer, const char *call) {
    if (einflyga_answer_refusal(answer) != EINFLYGA_CARRIED_OUT)
        fail("%s refused: %u (pointer %02X)", call, einflyga_answer_refusal(answer), einflyga_read_pointer(udc));
}

static void must(uc_err error) {
    if (error != UC_ERR_OK)
        fail("Unicorn: %s", uc_strerror(error));
}

/* Ends a line of the account. */
static void expect(bool right) {
    puts(right ? "" : "  WRONG");
    faults += !right;
}

static uint16_t word_at(const uint8_t *space, uint32_t place) {
    return (uint16_t)(space[place] << 8 | space[place + 1]);
}

static uint32_t long_at(const uint8_t *space, uint32_t place) {
    return (uint32_t)word_at(space, place) << 16 | word_at(space, place + 2);
}

static void put_word(uint8_t *space, uint32_t place, uint16_t word) {
    space[place] = (uint8_t)(word >> 8);
    space[place + 1] = (uint8_t)word;
}

/* The sensor. */

static uint16_t sensor_word(unsigned number) {
    unsigned line = number / LINE_WORDS, column = number % LINE_WORDS;
    return (uint16_t)(column == 0 ? MARKER + 0x50 + line + 1 : 2040 + 31 * line + 8 * column);
}

static uint16_t calibration_word(unsigned leaf) { return (uint16_t)(3 * leaf - 12); }

/* Last season's calibration is two degrees above this season's. */
static void fill_stores(void) {
    for (unsigned leaf = 0; leaf < LINE_LEAVES; leaf++) {
        put_word(memory, CALIBRATION_STORE + 2 * leaf, calibration_word(leaf));
        put_word(memory, OLD_CALIBRATION_STORE + 2 * leaf, (uint16_t)(calibration_word(leaf) + 200));
    }
}

static void set_line(bool active) {
    sensor.line = active;
    carried_out(einflyga_line(udc, 1, active), "request line");
}

/* Puts the next word into I/O space and asks for it to be taken. */
static void sensor_ready(void) {
    if (sensor.line || sensor.taken == FRAME_WORDS)
        return;
    if (sensor.pause > 0) {
        sensor.pause--;
        return;
    }
    put_word(io, SENSOR_DATA, sensor_word(sensor.taken));
    set_line(true);
}

static void sensor_taken(void) {
    set_line(false);
    sensor.taken++;
    sensor.pause = SENSOR_PAUSE;
}

/* The controller. */

static uint32_t chain_address(unsigned channel) {
    const uint16_t *words = udc + (channel == 1 ? CHANNEL_1 : CHANNEL_2);
    return (uint32_t)(words[CHAIN_UPPER] >> 8) << 16 | words[CHAIN_LOWER];
}

/* The first word of a table is its reload word. */
static void tell_fetch(unsigned channel, bool first, uint32_t place) {
    static const uint32_t right[] = {FRAME_TABLE, CALIBRATION_TABLE, SEARCH_TABLE};
    fetched++;
    from_decoy += place / PAGE == OLD_FRAME_TABLE / PAGE || place / PAGE == OLD_CALIBRATION_TABLE / PAGE;
    if (!first)
        return;
    printf("table       channel %u, %06X", channel, place);
    expect(tables < 3 && place == right[tables]);
    tables++;
}

static void step(void) {
    bool first = udc[CHAIN_STAGE] == 0;
    uint32_t places[] = {chain_address(1), chain_address(2)};
    uint32_t answer = einflyga_step(udc, false, memory, sizeof memory, io, sizeof io);
    unsigned channel = einflyga_step_channel(answer);

    carried_out(answer, "step");
    switch (einflyga_step_kind(answer)) {
    case EINFLYGA_FETCHED:
        tell_fetch(channel, first, places[channel - 1]);
        break;
    case EINFLYGA_UNIT:
        units++;
        if (channel == 1 && sensor.line) /* the unit that the sensor asked for */
            sensor_taken();
        break;
    case EINFLYGA_BUS_GIVEN_BACK:
        given_back++;
        break;
    default:
        break;
    }
}

/* The CPU has the bus only while the controller neither keeps it nor fetches a table. */
static bool bus_is_free(void) { return udc[KEPT_BUS] == 0 && udc[CHAIN_UNDER_WAY] == 0; }

/* It stays active after the acknowledge, until the firmware clears IP. */
static bool interrupt_line(void) {
    const uint16_t *one = udc + CHANNEL_1, *two = udc + CHANNEL_2;
    return (one[CIE] && (one[IP] || one[SIP])) || (two[CIE] && (two[IP] || two[SIP]));
}

static uint64_t read_register(uc_engine *engine, uint64_t offset, unsigned size, void *unused) {
    (void)engine, (void)unused;
    if (size != 2)
        fail("the controller is read by %u bytes", size);
    if (offset == UDC_POINTER - UDC)
        return einflyga_read_pointer(udc);
    uint32_t answer = einflyga_read(udc);
    carried_out(answer, "read");
    return einflyga_answer_value(answer);
}

static void write_register(uc_engine *engine, uint64_t offset, unsigned size, uint64_t value, void *unused) {
    (void)engine, (void)unused;
    if (size != 2)
        fail("the controller is written by %u bytes", size);
    if (offset == UDC_POINTER - UDC)
        einflyga_write_pointer(udc, (uint16_t)value);
    else
        carried_out(einflyga_write(udc, (uint16_t)value), "write");
}

/* The CPU. */

static uint32_t get(int name) {
    uint32_t value = 0;
    must(uc_reg_read(cpu, name, &value));
    return value;
}

static void set(int name, uint32_t value) { must(uc_reg_write(cpu, name, &value)); }

static unsigned interrupt_mask(void) { return get(UC_M68K_REG_SR) >> 8 & 7; }

/* A burst is of blocks: only between them are Unicorn's condition codes and PC settled. */
static void on_block(uc_engine *engine, uint64_t place, uint32_t size, void *unused) {
    (void)unused;
    block_end = (uint32_t)place + size;
    if (blocks++ == BURST)
        must(uc_emu_stop(engine));
}

/* STOP, which ends a block, ends the burst too; the next one would go on behind it. */
static void burst(void) {
    blocks = 0;
    must(uc_emu_start(cpu, get(UC_M68K_REG_PC), UINT32_MAX, 0, 0));
    stopped = get(UC_M68K_REG_PC) == block_end && word_at(memory, block_end - 4) == 0x4E72;
}

/* Unicorn leaves RTE, its exception 100h, to the host; the firmware makes no other. */
static void on_exception(uc_engine *engine, uint32_t number, void *unused) {
    uint32_t stack = get(UC_M68K_REG_A7);
    uint8_t frame[6];
    (void)engine, (void)unused;
    if (number != 0x100)
        fail("CPU exception %u at %06X", number, get(UC_M68K_REG_PC));
    must(uc_mem_read(cpu, stack, frame, sizeof frame));
    set(UC_M68K_REG_A7, stack + sizeof frame);
    set(UC_M68K_REG_SR, word_at(frame, 0));
    set(UC_M68K_REG_PC, long_at(frame, 2));
}

static void open_cpu(void) {
    static const uint8_t push_sr[] = {0x40, 0xE7}; /* MOVE.W SR,-(A7) */
    uc_hook hook;
    must(uc_open(UC_ARCH_M68K, UC_MODE_BIG_ENDIAN, &cpu));
    must(uc_ctl_set_cpu_model(cpu, UC_CPU_M68K_M68000));
    must(uc_mem_map_ptr(cpu, 0, sizeof memory, UC_PROT_ALL, memory));
    must(uc_mmio_map(cpu, UDC, PAGE, read_register, NULL, write_register, NULL));
    must(uc_mem_map(cpu, STUB, PAGE, UC_PROT_ALL));
    must(uc_mem_write(cpu, STUB, push_sr, sizeof push_sr));
    must(uc_hook_add(cpu, &hook, UC_HOOK_BLOCK, __extension__(void *) on_block, NULL, 0, MEMORY_BYTES - 1));
    must(uc_hook_add(cpu, &hook, UC_HOOK_INTR, __extension__(void *) on_exception, NULL, 0, UINT32_MAX));
    set(UC_M68K_REG_SR, 0x2700);
    set(UC_M68K_REG_A7, long_at(memory, 0));
    set(UC_M68K_REG_PC, long_at(memory, 4));
}

static void tell_interrupt(unsigned channel, uint16_t save) {
    printf("interrupt   channel %u, vector %02X, save word %04X", channel, save & 0xFFu, save);
    saves[channel - 1] = save;
    interrupts++;
    expect(channel == interrupts && (save & 0xFF) == VECTOR(channel));
}

/* What a 68000 does at an interrupt, and Unicorn does not: acknowledge, push PC and SR, go where the vector says. */
static void take_interrupt(void) {
    uint32_t answer = einflyga_acknowledge(udc);
    uint32_t stack = get(UC_M68K_REG_A7) - 4, from = get(UC_M68K_REG_PC);
    uint16_t save = einflyga_answer_value(answer);
    uint8_t pushed[4];

    carried_out(answer, "acknowledge");
    tell_interrupt(einflyga_acknowledged_channel(answer), save);
    put_word(pushed, 0, (uint16_t)(from >> 16));
    put_word(pushed, 2, (uint16_t)from);
    must(uc_mem_write(cpu, stack, pushed, sizeof pushed));
    set(UC_M68K_REG_A7, stack);
    must(uc_emu_start(cpu, STUB, STUB + 2, 0, 0)); /* the CPU pushes SR itself: the board sees no condition codes */
    set(UC_M68K_REG_SR, 0x2000 | INTERRUPT_LEVEL << 8);
    set(UC_M68K_REG_PC, long_at(memory, 4 * (save & 0xFFu)));
    stopped = false;
}

/* Steps of the controller and bursts of the CPU in turn, until the firmware stops for good. */
static void run_board(void) {
    for (unsigned turn = 0; !stopped || interrupt_mask() < 7; turn++) {
        if (turn == PATIENCE)
            fail("the firmware does not stop");
        sensor_ready();
        step();
        if (!bus_is_free())
            continue;
        if (interrupt_line() && interrupt_mask() < INTERRUPT_LEVEL)
            take_interrupt();
        if (!stopped)
            burst();
    }
}

/* The account. */

/* Compares words in memory with those that they should be; answers how many differ. */
static unsigned compare(const char *name, uint32_t place, const uint16_t *words, unsigned count) {
    unsigned missing = 0;
    for (unsigned at = 0; at < count; at++) {
        uint16_t found = word_at(memory, place + 2 * at);
        if (found != words[at]) {
            printf("%-12s%04X at %06X, not %04X\n", name, found, place + 2 * at, words[at]);
            missing++;
        }
    }
    printf("%-12s%u of %u words at %06X\n", name, count - missing, count, place);
    return missing;
}

static unsigned tell_words(void) {
    uint16_t words[LINE_WORDS];
    unsigned missing = 0;
    for (unsigned line = 0; line < LINES; line++) {
        char name[16];
        snprintf(name, sizeof name, "line %u", line + 1);
        for (unsigned column = 0; column < LINE_WORDS; column++)
            words[column] = sensor_word(line * LINE_WORDS + column);
        missing += compare(name, FRAME + 2 * line * LINE_WORDS, words, LINE_WORDS);
    }
    for (unsigned leaf = 0; leaf < LINE_LEAVES; leaf++)
        words[leaf] = calibration_word(leaf);
    return missing + compare("calibration", CALIBRATION, words, LINE_LEAVES);
}

static void tell_search(void) {
    unsigned first = (SEARCHED_LINE - 1) * LINE_WORDS;
    uint32_t marker = long_at(memory, MAILBOX_MARKER);
    bool right = true;
    printf("marker      of line %u at %06X", SEARCHED_LINE, marker);
    expect(marker == FRAME + 2 * first);
    printf("leaves     ");
    for (unsigned leaf = 0; leaf < LINE_LEAVES; leaf++) {
        uint16_t degrees = word_at(memory, LEAVES + 2 * leaf);
        printf(" %u.%02u", degrees / 100, degrees % 100);
        right &= degrees == (uint16_t)(sensor_word(first + 1 + leaf) + calibration_word(leaf));
    }
    expect(right);
}

static void tell_controller(void) {
    uint16_t noted[] = {word_at(memory, MAILBOX_SAVE(1)), word_at(memory, MAILBOX_SAVE(2))};
    printf("firmware    noted save words %04X and %04X", noted[0], noted[1]);
    expect(interrupts == 2 && noted[0] == saves[0] && noted[1] == saves[1]);
    printf("decoy       %u words fetched at %06X and %06X", from_decoy, OLD_FRAME_TABLE, OLD_CALIBRATION_TABLE);
    expect(tables == 3 && from_decoy == 0);
    printf("steps       %u words fetched, %u units, %u times the bus given back\n", fetched, units, given_back);
}

int main(int count, char **arguments) {
    FILE *image = count == 2 ? fopen(arguments[1], "rb") : NULL;
    if (image == NULL || fread(memory, 1, sizeof memory, image) == 0)
        fail("usage: board FIRMWARE");
    fclose(image);
    fill_stores();
    einflyga_fresh(udc);
    open_cpu();
    run_board();
    uc_close(cpu);

    unsigned missing = tell_words();
    tell_search();
    tell_controller();
    if (missing > 0)
        printf("%u of %u words did not arrive\n", missing, FRAME_WORDS + LINE_LEAVES);
    else if (faults > 0)
        printf("all %u words arrived, but see WRONG above\n", FRAME_WORDS + LINE_LEAVES);
    else
        printf("all %u words arrived\n", FRAME_WORDS + LINE_LEAVES);
    return missing > 0 || faults > 0 ? EXIT_FAILURE : EXIT_SUCCESS;
}
