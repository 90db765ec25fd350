/* Checks, runs and joins folder books, says before a join what it would say, and of a settings sheet how many steps it takes. The numbers of a
   version 1 book have 32 bits, those of a version 2 book 48. docs/FORMAT.md gives a book's format and what every answer means. */

#ifndef CEREALBANK_H
#define CEREALBANK_H

#include <stddef.h>
#include <stdint.h>

#ifdef __cplusplus
extern "C" {
#endif

/* The length that a work buffer must have; any other is refusal 1. */
#define CEREALBANK_WORK 65536

/* The length that a project's lent bytes must have, that of a book of 4,095 cells; any other is refusal 2 of the project. */
#define CEREALBANK_PROJECT 32768

/* The bytes of stack that suffice for a call, whatever the book: at least a quarter more than the deepest books of every shape were measured
   to take. */
#define CEREALBANK_STACK 1150976

/* An answer: its value in bits 0 to 31, its tag in bits 32 to 39. Bits 40 to 63 are for a second figure, which a run, a join, a preview and the
   sheet call have; of a check they are zero. */
#define CEREALBANK_VALUE(answer) ((uint32_t)(answer))
#define CEREALBANK_TAG(answer) ((uint32_t)((uint64_t)(answer) >> 32 & 255))
#define CEREALBANK_SECOND(answer) ((uint32_t)((uint64_t)(answer) >> 40))

/* The second figure of a run that is not refused: its mark, the greatest size of any term so far, the first and the one reached included. It is at
   most 4,095; a term for which there was no room does not count. Of a refusal it is zero. */
#define CEREALBANK_MARK(answer) CEREALBANK_SECOND(answer)

/* The second figure of an accepted sheet: the steps that it takes to its value, no more and no fewer. They are at most 4,094. Of a refusal it is
   zero. */
#define CEREALBANK_STEPS(answer) CEREALBANK_SECOND(answer)

/* The second figure of a join: the book that its answer means in bits 40 to 47, and in bits 48 to 63 how many bytes hold the joint, 0 when
   refused. A preview has the same: as many bytes would hold the joint. */
#define CEREALBANK_WHICH(answer) ((uint32_t)((uint64_t)(answer) >> 40 & 255))
#define CEREALBANK_BYTES(answer) ((uint32_t)((uint64_t)(answer) >> 48))
#define CEREALBANK_OF_PROJECT 1
#define CEREALBANK_OF_PART 2
#define CEREALBANK_OF_JOINT 3

/* The tags 1 to 31 are refusals, by number; the value is the cell. 1 to 17 are in use, 16 by a join or its preview, 17 by the sheet call:
   docs/FORMAT.md. */
#define CEREALBANK_LAST_REFUSAL 31
/* A check or the sheet call accepted the book, or a join or its preview the joint; the value is the size of its type. */
#define CEREALBANK_ACCEPTED 32
/* A run came to a value, took as many steps as its limit allows, or had no room for the next term; the value is the steps taken. */
#define CEREALBANK_TO_VALUE 33
#define CEREALBANK_SPENT 34
#define CEREALBANK_NO_ROOM 35

/* The calls read the books' bytes, and write the work buffer's, a join also the project's, and nothing else but their stack. What a call writes
   must not overlap anything else that it is lent. So the project and the part of a preview, which it only reads, may overlap. */

/* Checks a book: accepted with its type encoded as a book of its own, of the same version, at the start of the work buffer and zeros past it,
   or refused with a zeroed work buffer. Refusal 1 touches nothing. */
uint64_t cerealbank_check(const uint8_t *book, size_t book_len, uint8_t *work, size_t work_len);

/* Runs a book for at most limit steps: refused as a check refuses it, or stopped, with the steps taken, the mark, and the term reached left as a check
   leaves the type. */
uint64_t cerealbank_run(const uint8_t *book, size_t book_len, uint8_t *work, size_t work_len, uint32_t limit);

/* Joins a part to the project that the first length of the project's lent bytes hold; lent are CEREALBANK_PROJECT bytes. The project is checked,
   then the part, then the joint. Accepted, the joint is written over the project's lent bytes, the rest zero, and the work buffer is left as a
   check of it leaves it. A refusal names its book, changes no lent byte of the project, and leaves the work buffer as a check with that refusal
   does. */
uint64_t cerealbank_join(uint8_t *project, size_t project_len, size_t length, const uint8_t *part, size_t part_len, uint8_t *work,
                         size_t work_len);

/* Says what cerealbank_join would say, and joins nothing: the answer, with the book that is meant and the byte count, is the one that the join
   would give on a copy of the project, and the work buffer is left as it would leave it. Not a byte of the project is written. */
uint64_t cerealbank_preview(const uint8_t *project, size_t project_len, size_t length, const uint8_t *part, size_t part_len, uint8_t *work,
                            size_t work_len);

/* Says of a settings sheet how many steps it takes to its value, and runs nothing. A sheet is a book whose root, with nothing shared, has no
   variable, function, fixpoint or choice in it; its annotations, applications, field reads and sums are counted. Accepted, its type is left as a
   check leaves it. A run of the sheet says value after precisely that many steps, spent with a lower limit, and never no room. A book that is no
   sheet is refused with 17 and the root's cell, whether or not it has a type, and the work buffer is zeroed; any other is refused as a check
   refuses it. */
uint64_t cerealbank_sheet(const uint8_t *book, size_t book_len, uint8_t *work, size_t work_len);

#ifdef __cplusplus
}
#endif

#endif
