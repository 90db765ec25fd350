/* Checks the book in the file that is named, runs it for at most 10,000 steps, and prints both answers and the cells of the term reached: the desk
   program's lines, and one more with the run's mark, the greatest size of any term on the way. */

#include <inttypes.h>
#include <stdio.h>
#include <stdlib.h>

#include "cerealbank.h"

/* A book has at most 32,768 bytes: a longer file is refused, whatever follows the first byte too many. */
static uint8_t book[32769];
static uint8_t work[CEREALBANK_WORK];

static void print_answer(uint64_t answer)
{
    uint32_t tag = CEREALBANK_TAG(answer), value = CEREALBANK_VALUE(answer);

    if (tag >= 1 && tag <= CEREALBANK_LAST_REFUSAL)
        printf("refused %" PRIu32 " %" PRIu32 "\n", tag, value);
    else if (tag == CEREALBANK_ACCEPTED)
        printf("accepted %" PRIu32 "\n", value);
    else if (tag == CEREALBANK_TO_VALUE)
        printf("value %" PRIu32 "\n", value);
    else if (tag == CEREALBANK_SPENT)
        printf("spent %" PRIu32 "\n", value);
    else if (tag == CEREALBANK_NO_ROOM)
        printf("room %" PRIu32 "\n", value);
    else {
        fprintf(stderr, "unknown answer 0x%" PRIx64 "\n", answer);
        exit(1);
    }
}

/* A line a cell, up to the trailer: its number, kind, label and the fields a, b and c, which are little-endian. */
static void print_cells(void)
{
    const uint8_t *cell = work;

    for (int number = 0; cell[0] != 0xF0; number++, cell += 8)
        printf("%d %d %d %d %d %d\n", number, cell[0], cell[1], cell[2] + 256 * cell[3], cell[4] + 256 * cell[5],
               cell[6] + 256 * cell[7]);
}

int main(int argc, char **argv)
{
    if (argc != 2) {
        fprintf(stderr, "usage: book FILE\n");
        return 1;
    }
    FILE *file = fopen(argv[1], "rb");
    if (file == NULL) {
        fprintf(stderr, "%s cannot be opened\n", argv[1]);
        return 1;
    }
    size_t length = fread(book, 1, sizeof book, file);
    if (ferror(file)) {
        fprintf(stderr, "%s cannot be read\n", argv[1]);
        return 1;
    }
    fclose(file);

    uint64_t answer = cerealbank_check(book, length, work, sizeof work);
    print_answer(answer);
    if (CEREALBANK_TAG(answer) == CEREALBANK_ACCEPTED) {
        answer = cerealbank_run(book, length, work, sizeof work, 10000);
        print_answer(answer);
        printf("mark %" PRIu32 "\n", CEREALBANK_MARK(answer));
        print_cells();
    }
    return 0;
}
