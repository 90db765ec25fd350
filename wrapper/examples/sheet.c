/* Asks of the book in the file that is named whether it is a settings sheet. Prints the size of its type and the steps that it takes to its value, or
   why it is refused. The book is not run. */

#include <inttypes.h>
#include <stdio.h>

#include "cerealbank.h"

/* A book has at most 32,768 bytes: a longer file is refused, whatever follows the first byte too many. */
static uint8_t book[32769];
static uint8_t work[CEREALBANK_WORK];

int main(int argc, char **argv)
{
    if (argc != 2) {
        fprintf(stderr, "usage: sheet FILE\n");
        return 1;
    }
    FILE *file = fopen(argv[1], "rb");
    if (file == NULL) {
        fprintf(stderr, "%s cannot be opened\n", argv[1]);
        return 1;
    }
    size_t length = fread(book, 1, sizeof book, file);
    if (ferror(file)) {
        fprintf(stderr, "%s cannot be read\n", argv[1]);
        return 1;
    }
    fclose(file);

    uint64_t answer = cerealbank_sheet(book, length, work, sizeof work);
    uint32_t tag = CEREALBANK_TAG(answer), value = CEREALBANK_VALUE(answer);
    if (tag == CEREALBANK_ACCEPTED)
        printf("accepted %" PRIu32 "\nsteps %" PRIu32 "\n", value, CEREALBANK_STEPS(answer));
    else
        printf("refused %" PRIu32 " %" PRIu32 "\n", tag, value);
    return 0;
}
