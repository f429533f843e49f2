/*
 * Pommerzil: a proved model of a 64-bit MIPS core with CHERI capabilities, as a library for C.
 *
 * Three functions, over numbers and buffers that you lend:
 *
 *     pommerzil_run      reads a start book and runs it
 *     pommerzil_read     reads a start book: its registers, its RAM, its tags
 *     pommerzil_write    writes the start book of registers, RAM and tags
 *
 * Each returns one number: 0, how the run stopped, or why your input was refused (the table below). Each answers every
 * input, with nothing left open: whatever the bytes and the lengths are, the number returned and every byte of every
 * buffer afterwards are those of a short definition (Exported, Handing and Taking in crates/pages/specs), and that is
 * proved for all of them. So is what is said below of the numbers returned and of the room for a book
 * (crates/header/specs).
 *
 * What you owe, since nothing can check it: a pointer and the length after it describe memory that is yours to lend, and a
 * buffer that a function writes (not const) overlaps no other buffer of the same call. Nothing else: there is no wrong
 * book, no wrong length and no wrong budget. A length may be 0; the pointer before it is then not followed, and may be NULL.
 *
 * The library allocates nothing, keeps nothing from one call to the next, has no global state and makes no system call. All
 * buffers stay yours. Calls in different threads do not know of each other. A call takes less than 32 KiB of stack: that
 * was measured, and is not proved.
 *
 * To build it, on x86-64 Linux (examples/c has a whole program):
 *
 *     (cd crates/pommerzil && rt lib)
 *     cc -I include main.c crates/pommerzil/out/libpommerzil.a
 */
#ifndef POMMERZIL_H
#define POMMERZIL_H

#include <stddef.h>
#include <stdint.h>

#ifdef __cplusplus
extern "C" {
#endif

/*
 * The memory of the model. Flash is at the addresses 0 to flash_bytes-1, RAM from 1,048,576 on. Both have 0 to 65,536
 * bytes, a multiple of 32. RAM is cut into lines of 32 bytes, and each line has one tag byte, 1 if the line holds a
 * capability and 0 if it holds data: so tags_bytes is ram_bytes / 32. Numbers in memory are big-endian.
 */
#define POMMERZIL_RAM_BASE 1048576
#define POMMERZIL_MEMORY_MOST 65536
#define POMMERZIL_LINE 32

/*
 * The number that each function returns.
 *
 *   run     0 to 8, 20, 22, 30 to 34, 36
 *   read    0, 20, 22, 30 to 34, 36
 *   write   0, 20, 21, 22, 30 to 34, 36
 *
 * The model has two more: 24, a field past its width, and 35, a jump pending or a cause set. Bytes laid out as here cannot
 * say such a machine.
 */
enum {
    POMMERZIL_DONE = 0, /* a run made every step that the budget asked for; a book was accepted; a book was written */

    /* How a run stopped. The step that stopped it left no trace in RAM and tags. */
    POMMERZIL_CAPABILITY = 1,       /* a capability exception: the answer's cause says which, its register says whose */
    POMMERZIL_MISALIGNED = 2,       /* a load, a fetch or a jump target at an address that is no multiple of its size */
    POMMERZIL_STORE_MISALIGNED = 3, /* a store at such an address */
    POMMERZIL_RESERVED = 4,         /* a word that is no instruction of the model */
    POMMERZIL_NOWHERE = 5,          /* an access or a fetch that lies neither in flash nor in RAM */
    POMMERZIL_INTO_FLASH = 6,       /* a store into flash */
    POMMERZIL_JUMP_IN_SLOT = 7,     /* a branch or a jump right after one that is taken, in its delay slot */
    POMMERZIL_BREAK = 8,            /* BREAK */

    /* Why a book was refused: 20, then 30, then the first faulty record, which is tested for 31, 32, 34, 22 and 33 in this
       order. A refused book changes no byte of RAM or tags. pommerzil_write tests its registers so, then RAM and tags for 20,
       21 and 22. */
    POMMERZIL_SIZES = 20,    /* the size of flash or RAM is not allowed, or the tags are not one for each line */
    POMMERZIL_TAG_BYTE = 21, /* a tag byte is above 1 */
    POMMERZIL_TOP = 22,      /* a tagged capability, of a register or of a RAM line, has base + length above 2^64 */
    POMMERZIL_VERSION = 30,  /* the book has no byte, or its first byte is not 1 */
    POMMERZIL_CUT = 31,      /* a record is cut, empty, or not as long as its kind is */
    POMMERZIL_KIND = 32,     /* a record of a kind other than 1, 2 and 3 */
    POMMERZIL_ORDER = 33,    /* a record whose kind, or number or address within its kind, does not rise */
    POMMERZIL_FIELD = 34,    /* a field out of its range, or an address that is no line of this RAM */

    /* A buffer is too short for what belongs into it. Nothing at all was changed. */
    POMMERZIL_NO_ROOM = 36
};

/*
 * The answer of a run: five numbers, which are the bench's line.
 */
#define POMMERZIL_ANSWER_NUMBERS 5

enum {
    POMMERZIL_STOP = 0,     /* what pommerzil_run returned */
    POMMERZIL_CAUSE = 1,    /* after stop 1 the cause code, below; otherwise 0 */
    POMMERZIL_REGISTER = 2, /* after stop 1 the capability register at fault, 255 for PCC or none; otherwise 0 */
    POMMERZIL_PLACE = 3,    /* the PC of the stopped instruction (PCC's offset); 0 after stop 0 and after a refusal */
    POMMERZIL_STEPS = 4     /* how many steps were completed */
};

/*
 * Cause codes of a capability exception. A missing permission is 0x10 and the permission's number.
 */
enum {
    POMMERZIL_CAUSE_LENGTH = 0x01, /* outside of the capability's range */
    POMMERZIL_CAUSE_TAG = 0x02,    /* no tag: the register holds data and no capability */
    POMMERZIL_CAUSE_SEAL = 0x03,   /* sealed, where an unsealed one is wanted, or the reverse */
    POMMERZIL_CAUSE_TYPE = 0x04,   /* another otype than is wanted */
    POMMERZIL_CAUSE_CALL = 0x05,   /* CCall */
    POMMERZIL_CAUSE_RETURN = 0x06, /* CReturn */
    POMMERZIL_CAUSE_USER = 0x08,   /* CCheckPerm: a user-defined permission is missing */
    POMMERZIL_CAUSE_PERMISSION = 0x10
};

/*
 * Permission numbers: the permission of number n is bit n of a capability's permissions, bit 0 the lowest.
 */
enum {
    POMMERZIL_GLOBAL = 0,
    POMMERZIL_EXECUTE = 1,
    POMMERZIL_LOAD = 2,
    POMMERZIL_STORE = 3,
    POMMERZIL_LOAD_CAPABILITY = 4,
    POMMERZIL_STORE_CAPABILITY = 5,
    POMMERZIL_STORE_LOCAL = 6,
    POMMERZIL_SEAL = 7,
    POMMERZIL_ACCESS_EPCC = 10,
    POMMERZIL_ACCESS_KDC = 11,
    POMMERZIL_ACCESS_KCC = 12,
    POMMERZIL_ACCESS_KR1C = 13,
    POMMERZIL_ACCESS_KR2C = 14
};

/*
 * Reads a start book and runs it, for at most `budget` steps.
 *
 * The book sets every register, all of RAM and all tags (what it does not name is zero and untagged), whatever RAM and
 * tags held before. Then the machine steps until the budget is used up or an instruction stops it. RAM and tags hold what
 * the run left. The first five numbers of `answer` are the answer; numbers past them stay as they were.
 *
 * A refused book is not run: the answer is its number and four zeros, and RAM and tags are as they came. Fewer than five
 * numbers in `answer`: returns POMMERZIL_NO_ROOM, and nothing is read or changed.
 *
 *     uint64_t answer[POMMERZIL_ANSWER_NUMBERS];
 *     uint8_t stop = pommerzil_run(book, book_bytes, flash, flash_bytes, ram, sizeof ram, tags, sizeof tags, 1000,
 *                                  answer, POMMERZIL_ANSWER_NUMBERS);
 *     if (stop == POMMERZIL_BREAK)
 *         printf("BREAK at %" PRIu64 " after %" PRIu64 " steps\n", answer[POMMERZIL_PLACE], answer[POMMERZIL_STEPS]);
 */
uint8_t pommerzil_run(const uint8_t *book, size_t book_bytes,
                      const uint8_t *flash, size_t flash_bytes,
                      uint8_t *ram, size_t ram_bytes,
                      uint8_t *tags, size_t tags_bytes,
                      uint32_t budget,
                      uint64_t *answer, size_t answer_numbers);

/*
 * Registers, as pommerzil_read hands them out and pommerzil_write takes them: a start book that holds registers and no
 * line of RAM. The one that is handed out names every register, zero or not, so each stands at a fixed place. Numbers are
 * big-endian.
 *
 *   byte 0                             1, the version
 *   POMMERZIL_CAPABILITY_AT(n)         38 bytes: capability register n, 0 to 31, and PCC at n = 32
 *       +0   2 bytes   36, how many bytes follow
 *       +2   1         1, the kind
 *       +3   1         n
 *       +4   1         tag, 0 or 1
 *       +5   1         sealed, 0 or 1
 *       +6   1         spare
 *       +7   3         otype
 *       +10  4         permissions, of which the top bit is 0
 *       +14  8         base
 *       +22  8         length
 *       +30  8         offset; PCC's offset is the PC
 *   POMMERZIL_GENERAL_AT(n)            12 bytes: general register n, 1 to 31 (register 0 is always 0)
 *       +0   2 bytes   10, how many bytes follow
 *       +2   1         2, the kind
 *       +3   1         n
 *       +4   8         value
 */
#define POMMERZIL_PCC 32
#define POMMERZIL_CAPABILITY_AT(n) (1 + 38 * (n))
#define POMMERZIL_GENERAL_AT(n) (1255 + 12 * ((n) - 1))
#define POMMERZIL_REGISTERS_BYTES 1627

/*
 * Reads a start book for a flash of `flash_bytes` bytes (the flash itself is not looked at).
 *
 * Returns 0 for an accepted book: RAM and tags are as it sets them, and the first POMMERZIL_REGISTERS_BYTES bytes of
 * `registers` are its registers, as above; bytes past them stay as they were. Otherwise returns why the book is refused:
 * RAM and tags are as they came, and every register is handed out as zero and untagged. Fewer than
 * POMMERZIL_REGISTERS_BYTES bytes in `registers`: returns POMMERZIL_NO_ROOM, and nothing is read or changed.
 */
uint8_t pommerzil_read(const uint8_t *book, size_t book_bytes,
                       size_t flash_bytes,
                       uint8_t *ram, size_t ram_bytes,
                       uint8_t *tags, size_t tags_bytes,
                       uint8_t *registers, size_t registers_bytes);

/*
 * A buffer of so many bytes has room for every book of a RAM of `ram_bytes` bytes.
 */
#define POMMERZIL_BOOK_BYTES(ram_bytes) (1627 + (ram_bytes) / 32 * 44)

/*
 * Writes the start book of these registers, RAM and tags: it names exactly the registers with a field that is not zero and
 * the lines that are tagged or not all zero, in order.
 *
 * `registers` may be what pommerzil_read handed out, which is taken for exactly the machine that was read, or the same with
 * fields changed, or any other book that names registers alone: a register that it does not name is zero and untagged. A
 * book with a line of RAM is refused with POMMERZIL_FIELD.
 *
 * Returns 0 where the book was written: from byte 0 of `book` on, `*written` bytes; bytes past them stay as they were.
 * Otherwise returns the first refusal, of the registers, then 20, 21 and 22 of RAM and tags, then POMMERZIL_NO_ROOM; every
 * byte of `book` is then as it was and `*written` is 0. RAM, tags and registers are not changed.
 */
uint8_t pommerzil_write(const uint8_t *registers, size_t registers_bytes,
                        const uint8_t *ram, size_t ram_bytes,
                        const uint8_t *tags, size_t tags_bytes,
                        uint8_t *book, size_t book_bytes,
                        size_t *written);

#ifdef __cplusplus
}
#endif

#endif
