/* Runs document 01's whole example through the C library, then two calls that are refused and one whose record is out of shape. */
#include <inttypes.h>
#include <stdio.h>
#include <stdlib.h>
#include <string.h>

#include "manik.h"

enum { MEMORY = 16, BUDGET = 3, SFR_HWDBG = 6 };

struct machine {
    uint8_t state[MANIK_STATE_SIZE];
    uint8_t memory[MEMORY];
    uint8_t marks[MANIK_MARKS_ROOM(MEMORY)];
    uint64_t steps;
};

static uint32_t get_word(const uint8_t *state, size_t at)
{
    const uint8_t *b = state + at;
    return (uint32_t)b[0] << 24 | (uint32_t)b[1] << 16 | (uint32_t)b[2] << 8 | (uint32_t)b[3];
}

static void put_word(uint8_t *state, size_t at, uint32_t x)
{
    for (size_t i = 0; i < 4; i++)
        state[at + i] = (uint8_t)(x >> (24 - 8 * i));
}

/* The fresh state, and memory with movi r1,16; add r1,r1; sj 4, a jump to itself. */
static struct machine fresh(void)
{
    static const uint8_t program[] = { 0x71, 0x10, 0x21, 0x11, 0xf4, 0x00 };
    struct machine m;
    memset(&m, 0, sizeof m);
    put_word(m.state, MANIK_AT_SFR1 + 4 * (SFR_HWDBG - 1), 3);
    memcpy(m.memory, program, sizeof program);
    return m;
}

static uint32_t run(struct machine *m, size_t memory_size)
{
    static const uint8_t tape[BUDGET] = { 0 };
    return manik_run(m->state, sizeof m->state, m->memory, memory_size, m->marks, MANIK_MARKS_ROOM(memory_size), tape, sizeof tape, BUDGET, &m->steps);
}

static void expect(int fact, const char *what)
{
    if (!fact) {
        printf("wrong: %s\n", what);
        exit(EXIT_FAILURE);
    }
}

static void expect_unchanged(const struct machine *now, const struct machine *before)
{
    expect(now->steps == 0, "steps");
    expect(memcmp(now->state, before->state, sizeof now->state) == 0, "state");
    expect(memcmp(now->memory, before->memory, sizeof now->memory) == 0, "memory");
    expect(memcmp(now->marks, before->marks, sizeof now->marks) == 0, "marks");
}

static void whole_example(void)
{
    struct machine m = fresh();
    uint32_t reply = run(&m, MEMORY);
    uint32_t pc = get_word(m.state, MANIK_AT_PC);
    uint32_t r1 = get_word(m.state, MANIK_AT_REGISTERS + 4 * 1);
    printf("reply\t%" PRIu32 "\nsteps\t%" PRIu64 "\npc\t%08" PRIx32 "\nr1\t%08" PRIx32 "\n", reply, m.steps, pc, r1);
    expect(reply == MANIK_BUDGET, "reply");
    expect(m.steps == 3, "steps");
    expect(pc == 4, "pc");
    expect(r1 == 0x20, "r1");
}

/* Six bytes of memory are no multiple of 4. */
static void refused(void)
{
    struct machine before = fresh();
    struct machine m = before;
    m.steps = 7;
    uint32_t reply = run(&m, 6);
    printf("refused\t%" PRIu32 "\n", reply);
    expect(reply == MANIK_MEMORY_LENGTH, "reply of a refusal");
    expect_unchanged(&m, &before);
}

/* The marks of twelve bytes of memory end in the middle of the second mark byte: bit 3 is the last byte's, bit 4 is past the end. */
static void past_the_end(void)
{
    struct machine before = fresh();
    before.marks[1] = 1 << 3;
    struct machine m = before;
    expect(run(&m, 12) == MANIK_BUDGET, "reply with the last byte marked");
    before.marks[1] = 1 << 4;
    m = before;
    m.steps = 7;
    uint32_t reply = run(&m, 12);
    printf("refused\t%" PRIu32 "\n", reply);
    expect(reply == MANIK_MARK_PAST_END, "reply of a bit past the end");
    expect_unchanged(&m, &before);
}

/* The record's marks are bytes of 0 or 1. */
static void out_of_shape(void)
{
    struct machine before = fresh();
    before.state[MANIK_AT_MARKS] = 2;
    struct machine m = before;
    m.steps = 7;
    uint32_t reply = run(&m, MEMORY);
    printf("no record\t%" PRIu32 "\n", reply);
    expect(reply == MANIK_NO_RECORD, "reply where there is no record");
    expect_unchanged(&m, &before);
}

int main(void)
{
    whole_example();
    refused();
    past_the_end();
    out_of_shape();
    return EXIT_SUCCESS;
}
