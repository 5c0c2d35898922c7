/*
 * Pushvratem: a proved reference model of the MANIK core, as a C library.
 *
 * tools/library makes the library for x86-64 Linux, four archives in target/staticlib: libabi.a has manik_run, libabi_show.a has
 * manik_show, libabi_list.a has manik_list, and libabi_asm.a has manik_assemble. docs/HOSTS.md shows programs with it. It needs
 * nothing but itself, and libabi_list.a and libabi_asm.a the C library's memset and memcpy: it calls no other function, keeps nothing
 * between calls, and reads and writes only what a call lends it.
 * So calls on different buffers may run in different threads at the same time.
 *
 * "The rules" below are document 01's, which docs/MANIK.md restates. What manik_run answers is the definition `called` of
 * crates/abi/specs/Call.antt, what manik_show answers is `show_of` of crates/abi_show/specs/Show.antt, what manik_list answers is
 * `listed_of` of crates/listing/specs/Lent.antt, and what manik_assemble answers is `assembled_of` of
 * crates/asm/specs/Assemble.antt; each function is proved equal to its definition for every input.
 */
#ifndef MANIK_H
#define MANIK_H

#include <stddef.h>
#include <stdint.h>

#ifdef __cplusplus
extern "C" {
#endif

/*
 * The state is a record of 160 bytes. A word is 4 bytes, the highest first. A mark or a flag of the record is one byte, 0 or 1.
 * The fresh state is all zero, but for HWDBG (SFR 6), which is 3.
 */
#define MANIK_STATE_SIZE 160

#define MANIK_AT_REGISTERS 0 /* r0 to r15, a word each */
#define MANIK_AT_MARKS 64    /* their marks, a byte each */
#define MANIK_AT_PC 80       /* the program counter, a word */
#define MANIK_AT_PSW 84      /* PSW, a word */
#define MANIK_AT_TF_MARK 88  /* the mark of TF */
#define MANIK_AT_CY_MARK 89  /* the mark of CY */
#define MANIK_AT_PENDING 90  /* the flag "timer pending" */
                             /* 91: zero */
#define MANIK_AT_SFR1 92     /* SFR 1 to 10, a word each: RA, IPC, TIMER, IBASE, USREG, HWDBG, BP0, BP1, WP0, WP1 */
#define MANIK_AT_CYCLES 132  /* the cycle count, modulo 2^32, a word */
                             /* 136 to 159: zero */

/*
 * The marks of memory are bits: one for each byte of memory, lowest address in the lowest bit. mem[a] is marked if bit a % 8 of
 * marks[a / 8] is 1. So the mark slice has (mem_len + 7) / 8 bytes. Where mem_len is no multiple of 8, the upper four bits of the
 * last mark byte are past the memory's end, and are 0.
 *
 * Hosts written for a library that took a byte for each mark must follow: a mark slice as long as memory gets reply 2.
 */
#define MANIK_MARKS_ROOM(mem_len) (((mem_len) + 7) / 8)

/* What manik_run returns: the rules' reply numbers, and 0. */
enum manik_reply {
    MANIK_NO_RECORD = 0,       /* `state` is no record: see manik_run */
    MANIK_MEMORY_LENGTH = 1,   /* memory length is 0, above 65,536, or no multiple of 4 */
    MANIK_MARK_LENGTH = 2,     /* mark slice of another length than the memory length divided by 8, rounded up */
    MANIK_MARK_PAST_END = 3,   /* a set bit past the memory's end */
    MANIK_FORM = 4,            /* state out of form: odd program counter; PSW bit 12 set; HWDBG bits 0, 1 not both set or a bit
                                  of 9 to 31 set; timer pending with TIMER not 0 */
    MANIK_TAPE_LENGTH = 5,     /* tape shorter than the budget */
    MANIK_TAPE_BYTE = 6,       /* a byte above 63 among the first "budget" tape bytes */
    MANIK_BUDGET = 10,         /* budget used up */
    MANIK_FETCH_MARKED = 12,   /* instruction fetch from a marked byte */
    MANIK_NO_INSTRUCTION = 13, /* bits that are no instruction */
    MANIK_MARKED_OPERAND = 14  /* a marked operand where none may be */
};

/*
 * Runs at most `budget` steps.
 *
 *   state   the record; read, and written back
 *   mem     the memory image; its address 0 is mem[0]
 *   marks   a bit for each byte of memory, MANIK_MARKS_ROOM(mem_len) bytes; read, and written back
 *   tape    the interrupt lines, a byte for each step, bit i for line i
 *   steps   takes the number of completed steps
 *
 * Returns one of enum manik_reply.
 *
 *   0         `state` has another length than 160, a mark or flag byte above 1, or a byte that is not zero where zero stands.
 *             *steps is 0, and nothing else changes.
 *   1 to 6    the run was refused. *steps is 0, and nothing else changes.
 *   10 to 14  the run ended. *steps, state, mem and marks are what the completed steps made; the step that stopped changed
 *             nothing. The record is one that the next call takes.
 *
 * There is no 11: an access outside memory does not end a run. It is a bus error, an entry at IBASE with low byte 16, and its
 * step is completed. Each completed step adds its cost to the cycle count of the record.
 *
 * The caller sees to what no contract can say in C: every pointer is valid for its length and not null, even where the length
 * is 0; `steps` is aligned; state, mem, marks and *steps overlap neither each other nor the tape.
 */
uint32_t manik_run(uint8_t *state, size_t state_len,
                   uint8_t *mem, size_t mem_len,
                   uint8_t *marks, size_t marks_len,
                   const uint8_t *tape, size_t tape_len,
                   uint64_t budget, uint64_t *steps);

/* A line is a record of 12 bytes. A word is 4 bytes, the highest first. */
#define MANIK_LINE_SIZE 12
#define MANIK_LINE_AT_PC 0      /* the program counter before the step, a word */
#define MANIK_LINE_AT_ADDRESS 4 /* the data address after alignment, a word, also where it is outside memory; 0 where there is none */
#define MANIK_LINE_AT_HAS 8     /* 1 where there is a data address, else 0 */
#define MANIK_LINE_AT_ENTRY 9   /* 's' swint, 'd' debug, 't' timer, 'e' external, 'b' bus error, or '-' for none, a character */
#define MANIK_LINE_AT_DETAIL 10 /* a swint's operand; a debug entry's hits: 1 breakpoint, 2 WP0, 4 WP1, added; the external line's
                                   number; of a bus error the bit of PSW that it sets: 15 of a fetch, 14 of data; else 0 */
                                /* 11: zero */

/*
 * Says what the next step would show, without making it: what manik_run with a budget of 1 and a tape of this one byte would do.
 *
 *   state   the record
 *   mem     the memory image
 *   marks   its marks, as for manik_run
 *   lines   the interrupt lines of the step, bit i for line i
 *   line    takes the line
 *
 * Returns 1 where the step would be completed, and `line` is its record. Returns 0 where it would stop or the run would be refused, where
 * `state` is no record, and where line_len is not MANIK_LINE_SIZE; then `line` does not change. Nothing else changes.
 *
 * The caller sees to what no contract can say in C: every pointer is valid for its length and not null, even where the length
 * is 0; line overlaps none of the others.
 */
uint32_t manik_show(const uint8_t *state, size_t state_len,
                    const uint8_t *mem, size_t mem_len,
                    const uint8_t *marks, size_t marks_len,
                    uint8_t lines, uint8_t *line, size_t line_len);

/* A buffer of this length has room for the listing of a range of so many bytes, whatever they are. */
#define MANIK_LISTING_ROOM(bytes) (24 * (bytes))

/* What manik_list returns: 0, and document 02's refusal numbers. */
enum manik_listed {
    MANIK_LISTED = 0,  /* the listing is written */
    MANIK_RANGE = 20,  /* the image is over 65,536 bytes, or the range is outside it, odd or reversed */
    MANIK_NO_ROOM = 21 /* the listing is longer than the buffer */
};

/*
 * Lists an image: a line for each instruction from the address `start` to before `end`, in the written form of docs/MANIK.md.
 *
 *   image    the memory image; its address 0 is image[0]
 *   start    the address of the first line; even
 *   end      where the range ends: even, not below `start`, and not above the image's length
 *   out      takes the listing
 *   written  takes its length; no zero byte stands behind it
 *
 * Returns one of enum manik_listed.
 *
 *   0         *written bytes, from out[0] on, are the listing, and no other byte of the buffer changes.
 *   20        the range cannot be listed. *written is 0, and the buffer does not change.
 *   21        the range can be listed, but the buffer is too short. *written is 0, and the buffer does not change.
 *
 * A buffer of MANIK_LISTING_ROOM(end - start) bytes never gets a 21, and the image is gone through once. With a shorter one it
 * is gone through twice, first for the listing's length.
 *
 * The caller sees to what no contract can say in C: both buffers are valid for their lengths and no pointer is null, even where
 * the length is 0; `written` is aligned; out and *written overlap neither each other nor the image.
 */
uint32_t manik_list(const uint8_t *image, size_t image_len,
                    size_t start, size_t end,
                    uint8_t *out, size_t out_len,
                    size_t *written);

/* What manik_assemble returns: 0, and document 02's refusal numbers. */
enum manik_assembled {
    MANIK_ASSEMBLED = 0,        /* the text is assembled */
    MANIK_START = 29,           /* start odd or past the image */
    MANIK_UNKNOWN_FORM = 30,    /* unknown form */
    MANIK_PARENTHESES = 31,     /* ninth parenthesis */
    MANIK_UNKNOWN_LABEL = 32,   /* unknown label */
    MANIK_LABEL_TWICE = 33,     /* label written twice */
    MANIK_TOO_MANY_LABELS = 34, /* too many labels */
    MANIK_VALUE = 35,           /* value that doesn't fit its place */
    MANIK_IMAGE_FULL = 36       /* no room in the image */
};

/*
 * Assembles a text into an image, from the address `start` on. docs/ASSEMBLER.md has the language.
 *
 * A line is a label or nothing, a mnemonic, and operands in the written form of docs/MANIK.md, a tab at each gap and a newline at
 * its end; `word` and `half` are data. An immediate is an expression of numbers and labels with +, -, * and parentheses.
 *
 *   text   the lines; none is fine
 *   start  the address of the first line: even, and not above the image's length
 *   image  the memory image; its address 0 is image[0]
 *   line   takes the number of lines, or the line that is refused, counted from 1
 *   end    takes the address after the last byte
 *
 * Returns one of enum manik_assembled.
 *
 *   0         *line is the number of lines. The bytes from image[start] to before image[*end] are what the lines say, and no
 *             other byte of the image changes.
 *   29        the text cannot begin at `start`. *line and *end are 0, and the image does not change.
 *   30 to 36  line *line is the first that is refused, for this reason and for none with a lower number. *end is 0, and the
 *             image does not change.
 *
 * A line takes 2 bytes, or 4 if it is jf, jt, j, jl or word. So an image with 4 bytes for each line behind `start` never gets a
 * 36.
 *
 * The caller sees to what no contract can say in C: both buffers are valid for their lengths and no pointer is null, even where
 * the length is 0; `line` and `end` are aligned; image, *line and *end overlap neither each other nor the text.
 */
uint32_t manik_assemble(const uint8_t *text, size_t text_len,
                        size_t start,
                        uint8_t *image, size_t image_len,
                        size_t *line, size_t *end);

#ifdef __cplusplus
}
#endif

#endif
