/* Previews the join of the part in the second file to the project in the first, and joins them. Prints of both calls which book the answer means, the
   answer, and the bytes of an accepted joint, and then its cells. Both files stay as they are. */

#include <inttypes.h>
#include <stdio.h>
#include <stdlib.h>

#include "cerealbank.h"

static uint8_t project[CEREALBANK_PROJECT];
/* A book has at most 32,768 bytes: a longer file is refused, whatever follows the first byte too many. */
static uint8_t part[32769];
static uint8_t work[CEREALBANK_WORK];

/* How many bytes a file has, and one more if there are more than there is room for. */
static size_t bytes_of(const char *name, uint8_t *to, size_t room)
{
    FILE *file = fopen(name, "rb");
    if (file == NULL) {
        fprintf(stderr, "%s cannot be opened\n", name);
        exit(1);
    }
    size_t length = fread(to, 1, room, file);
    if (length == room && fgetc(file) != EOF)
        length++;
    if (ferror(file)) {
        fprintf(stderr, "%s cannot be read\n", name);
        exit(1);
    }
    fclose(file);
    return length;
}

static const char *book_of(uint64_t answer)
{
    switch (CEREALBANK_WHICH(answer)) {
    case CEREALBANK_OF_PROJECT:
        return "project";
    case CEREALBANK_OF_PART:
        return "part";
    case CEREALBANK_OF_JOINT:
        return "joint";
    }
    fprintf(stderr, "unknown answer 0x%" PRIx64 "\n", answer);
    exit(1);
}

static void print_answer(const char *call, uint64_t answer)
{
    uint32_t tag = CEREALBANK_TAG(answer), value = CEREALBANK_VALUE(answer);
    if (tag == CEREALBANK_ACCEPTED)
        printf("%s: %s accepted %" PRIu32 ", %" PRIu32 " bytes\n", call, book_of(answer), value, CEREALBANK_BYTES(answer));
    else
        printf("%s: %s refused %" PRIu32 " %" PRIu32 "\n", call, book_of(answer), tag, value);
}

/* A line a cell, up to the trailer: its number, kind, label and the fields a, b and c, which are little-endian. */
static void print_cells(uint32_t bytes)
{
    for (uint32_t at = 0; at + 8 < bytes; at += 8) {
        const uint8_t *cell = project + at;
        printf("%" PRIu32 " %d %d %d %d %d\n", at / 8, cell[0], cell[1], cell[2] + 256 * cell[3], cell[4] + 256 * cell[5],
               cell[6] + 256 * cell[7]);
    }
}

int main(int argc, char **argv)
{
    if (argc != 3) {
        fprintf(stderr, "usage: join PROJECT PART\n");
        return 1;
    }
    size_t length = bytes_of(argv[1], project, sizeof project);
    size_t part_length = bytes_of(argv[2], part, sizeof part);
    if (part_length > sizeof part)
        part_length = sizeof part;

    /* The project is as it was after a preview. A join writes the joint over it, or leaves it as it was. */
    print_answer("preview", cerealbank_preview(project, sizeof project, length, part, part_length, work, sizeof work));
    uint64_t answer = cerealbank_join(project, sizeof project, length, part, part_length, work, sizeof work);
    print_answer("join", answer);
    print_cells(CEREALBANK_BYTES(answer));
    return 0;
}
