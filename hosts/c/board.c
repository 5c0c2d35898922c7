/* A small firmware on the board's memory: a marked key, and an interrupt that comes from the tape. */
#include <inttypes.h>
#include <stdio.h>
#include <string.h>

#include "manik.h"

enum { MEMORY = 65536, IBASE = 0x100, KEY_AT = 0xff00, STEPS = 20 };
enum { SFR_IBASE = 4, SFR_HWDBG = 6 };

/* PSW bits: interrupts enabled, and line 2. */
#define IE (UINT32_C(1) << 5)
#define LINE_2 (UINT32_C(1) << 22)

/* Start, at 0. It sums a key word again and again until line 2 has called, then it looks into the sum. */
static const uint8_t start[] = {
    0x40, 0x14, /* 0000  ldrpc r1,16     the key's address, from the word at 0x10 */
    0x80, 0x21, /* 0002  ldr r2,0,r1     a key word: r2 is marked */
    0x27, 0x32, /* 0004  xor r3,r2       so is the sum in r3 */
    0x30, 0x50, /* 0006  cmpeqi r5,0     has line 2 never called? */
    0xef, 0xfd, /* 0008  sjt 2           then on */
    0x30, 0x30, /* 000a  cmpeqi r3,0     is the sum 0? TF is marked, as r3 is */
    0xef, 0xfb, /* 000c  sjt 2           the run stops here: the key would show */
    0xf4, 0x00, /* 000e  sj 14 */
    0x00, 0x00, 0xff, 0x00, /* 0010  the key's address */
};

/* The handler of the six lines, at IBASE with low byte 12. */
static const uint8_t handler[] = {
    0x60, 0x51, /* 010c  addi r5,1       counts the calls */
    0x1e, 0x02, /* 010e  jsfr sfr2       returns to IPC */
};

static const char key[] = "NOTARY KEY STATE";
enum { KEY = sizeof key - 1 };

static uint8_t state[MANIK_STATE_SIZE], memory[MEMORY], marks[MANIK_MARKS_ROOM(MEMORY)];

static uint32_t get_word(size_t at)
{
    const uint8_t *b = state + at;
    return (uint32_t)b[0] << 24 | (uint32_t)b[1] << 16 | (uint32_t)b[2] << 8 | (uint32_t)b[3];
}

static void put_word(size_t at, uint32_t x)
{
    for (size_t i = 0; i < 4; i++)
        state[at + i] = (uint8_t)(x >> (24 - 8 * i));
}

/* All other bytes are zero and unmarked. A build's image would come by fread. */
static void set_up(void)
{
    memcpy(memory, start, sizeof start);
    memcpy(memory + IBASE + 12, handler, sizeof handler);
    memcpy(memory + KEY_AT, key, KEY);
    /* One bit for each byte of memory: the key's are 1. */
    for (size_t at = KEY_AT; at < KEY_AT + KEY; at++)
        marks[at / 8] |= (uint8_t)(1 << at % 8);
    put_word(MANIK_AT_PSW, IE | LINE_2);
    put_word(MANIK_AT_SFR1 + 4 * (SFR_IBASE - 1), IBASE);
    put_word(MANIK_AT_SFR1 + 4 * (SFR_HWDBG - 1), 3);
}

/* The program counter and every register that is marked or not zero; a marked one as stars. */
static void show(void)
{
    printf("pc\t%08" PRIx32 "\n", get_word(MANIK_AT_PC));
    for (size_t n = 0; n < 16; n++) {
        uint32_t value = get_word(MANIK_AT_REGISTERS + 4 * n);
        if (state[MANIK_AT_MARKS + n])
            printf("r%zu\t********\n", n);
        else if (value != 0)
            printf("r%zu\t%08" PRIx32 "\n", n, value);
    }
}

/* One tape byte for each step, bit i for line i. */
static void run(const uint8_t tape[STEPS])
{
    uint64_t steps;
    uint32_t reply = manik_run(state, sizeof state, memory, sizeof memory, marks, sizeof marks, tape, STEPS, STEPS, &steps);
    printf("reply %" PRIu32 ", steps %" PRIu64 "\n", reply, steps);
    show();
}

int main(void)
{
    uint8_t tape[STEPS] = { 0 };
    set_up();
    run(tape);
    /* The next call goes on from there. Line 2 is high in its fifth step. */
    tape[4] = 1 << 2;
    run(tape);
    return 0;
}
