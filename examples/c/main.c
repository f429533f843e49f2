/*
 * Runs a start book as the bench does, prints its line and what the line says, then takes the book apart and writes it again.
 *
 *     ./main                   the shortest book, the single byte 01, and no flash
 *     ./main BOOK FLASH        two files
 */
#include "pommerzil.h"

#include <inttypes.h>
#include <stdio.h>
#include <string.h>

enum { RAM_BYTES = 32768, FILE_MOST = 65536, BUDGET = 1000 };

static uint8_t book[FILE_MOST + 1], flash[FILE_MOST + 1];
static uint8_t ram[RAM_BYTES], tags[RAM_BYTES / POMMERZIL_LINE];
static uint8_t registers[POMMERZIL_REGISTERS_BYTES];
static uint8_t again[POMMERZIL_BOOK_BYTES(RAM_BYTES)];

static const char *meaning(uint64_t number)
{
    switch (number) {
    case POMMERZIL_DONE: return "every step of the budget was made";
    case POMMERZIL_CAPABILITY: return "capability exception";
    case POMMERZIL_MISALIGNED: return "load, fetch or jump target misaligned";
    case POMMERZIL_STORE_MISALIGNED: return "store misaligned";
    case POMMERZIL_RESERVED: return "reserved word";
    case POMMERZIL_NOWHERE: return "in neither memory";
    case POMMERZIL_INTO_FLASH: return "store into flash";
    case POMMERZIL_JUMP_IN_SLOT: return "branch or jump while one is pending";
    case POMMERZIL_BREAK: return "BREAK";
    case POMMERZIL_SIZES: return "refused: a size of flash, RAM or tags";
    case POMMERZIL_TAG_BYTE: return "refused: a tag byte above 1";
    case POMMERZIL_TOP: return "refused: a tagged capability ends past 2^64";
    case POMMERZIL_VERSION: return "refused: no byte, or a version other than 1";
    case POMMERZIL_CUT: return "refused: a record is cut, empty or of another length";
    case POMMERZIL_KIND: return "refused: a record of an unknown kind";
    case POMMERZIL_ORDER: return "refused: records out of order";
    case POMMERZIL_FIELD: return "refused: a field out of range";
    case POMMERZIL_NO_ROOM: return "refused: a buffer is too short";
    default: return "no number of this library";
    }
}

static const char *cause_meaning(uint64_t cause)
{
    switch (cause) {
    case POMMERZIL_CAUSE_LENGTH: return "out of range";
    case POMMERZIL_CAUSE_TAG: return "no tag";
    case POMMERZIL_CAUSE_SEAL: return "seal";
    case POMMERZIL_CAUSE_TYPE: return "type";
    case POMMERZIL_CAUSE_CALL: return "CCall";
    case POMMERZIL_CAUSE_RETURN: return "CReturn";
    case POMMERZIL_CAUSE_USER: return "user-defined permission";
    case POMMERZIL_CAUSE_PERMISSION + POMMERZIL_GLOBAL: return "no permission Global";
    case POMMERZIL_CAUSE_PERMISSION + POMMERZIL_EXECUTE: return "no permission to execute";
    case POMMERZIL_CAUSE_PERMISSION + POMMERZIL_LOAD: return "no permission to load";
    case POMMERZIL_CAUSE_PERMISSION + POMMERZIL_STORE: return "no permission to store";
    case POMMERZIL_CAUSE_PERMISSION + POMMERZIL_LOAD_CAPABILITY: return "no permission to load capabilities";
    case POMMERZIL_CAUSE_PERMISSION + POMMERZIL_STORE_CAPABILITY: return "no permission to store capabilities";
    case POMMERZIL_CAUSE_PERMISSION + POMMERZIL_STORE_LOCAL: return "no permission to store local capabilities";
    case POMMERZIL_CAUSE_PERMISSION + POMMERZIL_SEAL: return "no permission to seal";
    default: return "no permission for one of C27 to C31";
    }
}

/* A big-endian number of `count` bytes. */
static uint64_t number_at(const uint8_t *bytes, int count)
{
    uint64_t n = 0;
    for (int i = 0; i < count; i++)
        n = n << 8 | bytes[i];
    return n;
}

/* How many bytes a file has, at most one more than the bench reads; none of one that cannot be opened. */
static size_t read_file(const char *path, uint8_t *bytes)
{
    FILE *file = fopen(path, "rb");
    if (!file)
        return 0;
    size_t n = fread(bytes, 1, FILE_MOST + 1, file);
    fclose(file);
    return n;
}

static void run(size_t book_bytes, size_t flash_bytes)
{
    uint64_t answer[POMMERZIL_ANSWER_NUMBERS] = {POMMERZIL_SIZES, 0, 0, 0, 0};
    if (book_bytes <= FILE_MOST && flash_bytes <= FILE_MOST)
        pommerzil_run(book, book_bytes, flash, flash_bytes, ram, sizeof ram, tags, sizeof tags, BUDGET, answer,
                      POMMERZIL_ANSWER_NUMBERS);
    printf("%" PRIu64 " %" PRIu64 " %" PRIu64 " %" PRIu64 " %" PRIu64 "\n", answer[POMMERZIL_STOP],
           answer[POMMERZIL_CAUSE], answer[POMMERZIL_REGISTER], answer[POMMERZIL_PLACE], answer[POMMERZIL_STEPS]);
    printf("%s", meaning(answer[POMMERZIL_STOP]));
    if (answer[POMMERZIL_STOP] == POMMERZIL_CAPABILITY) {
        printf(", %s, ", cause_meaning(answer[POMMERZIL_CAUSE]));
        if (answer[POMMERZIL_REGISTER] == 255)
            printf("PCC or no register");
        else
            printf("C%" PRIu64, answer[POMMERZIL_REGISTER]);
    }
    if (POMMERZIL_CAPABILITY <= answer[POMMERZIL_STOP] && answer[POMMERZIL_STOP] <= POMMERZIL_BREAK)
        printf(", at PC %" PRIu64, answer[POMMERZIL_PLACE]);
    if (answer[POMMERZIL_STOP] <= POMMERZIL_BREAK)
        printf(", after %" PRIu64 " steps", answer[POMMERZIL_STEPS]);
    printf("\n");
}

static void print_capability(int n)
{
    const uint8_t *c = registers + POMMERZIL_CAPABILITY_AT(n);
    if (!number_at(c + 4, 1))
        return;
    if (n == POMMERZIL_PCC)
        printf("PCC");
    else
        printf("C%d", n);
    printf(" base %" PRIu64 " length %" PRIu64 " offset %" PRIu64 " permissions 0x%08" PRIx64 "%s\n",
           number_at(c + 14, 8), number_at(c + 22, 8), number_at(c + 30, 8), number_at(c + 10, 4),
           number_at(c + 5, 1) ? " sealed" : "");
}

/* The tagged capabilities that a book gives, and the same book written anew. */
static void take_apart(size_t book_bytes, size_t flash_bytes)
{
    size_t written;
    uint8_t refusal = pommerzil_read(book, book_bytes, flash_bytes, ram, sizeof ram, tags, sizeof tags, registers,
                                     sizeof registers);
    if (refusal != POMMERZIL_DONE)
        return;
    for (int n = 0; n <= POMMERZIL_PCC; n++)
        print_capability(n);
    pommerzil_write(registers, sizeof registers, ram, sizeof ram, tags, sizeof tags, again, sizeof again, &written);
    if (written == book_bytes && memcmp(book, again, written) == 0)
        printf("written again, it is the same %zu bytes\n", written);
    else
        printf("written again, it has %zu bytes: records that say nothing are left out\n", written);
}

int main(int argc, char **argv)
{
    size_t book_bytes = 1, flash_bytes = 0;
    book[0] = 1;
    if (argc == 3) {
        book_bytes = read_file(argv[1], book);
        flash_bytes = read_file(argv[2], flash);
    } else if (argc != 1) {
        fprintf(stderr, "usage: %s [BOOK FLASH]\n", argv[0]);
        return 2;
    }
    run(book_bytes, flash_bytes);
    take_apart(book_bytes, flash_bytes);
    return 0;
}
