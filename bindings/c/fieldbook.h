/*
 * Woodland carbon from a field book, for C and C++: totalling a book, reading and writing its commands, and the single
 * figures, by the proved library. `./build fieldbook` writes it to target/staticlib/libfieldbook.a, for x86-64
 * Linux. The repository's README says how a book is coded and what the figures mean.
 *
 * Each function answers 0, or the number of a refusal, and puts what it found into the numbers that the caller lends.
 * Of a refusal they are all 0, unless something else is said. Any values of the numbers are answered or refused.
 * fieldbook_square_root alone answers nothing, since it refuses nothing.
 *
 * Two things are asked of the caller: no pointer is NULL, also where its length is 0; and what is lent to be written
 * overlaps nothing else that is lent to the same call. No function keeps a pointer, allocates or has a state, so
 * several threads may call them at once.
 */
#ifndef FIELDBOOK_H
#define FIELDBOOK_H

#include <stddef.h>
#include <stdint.h>

#ifdef __cplusplus
extern "C" {
#endif

/* The version of this header, the Rust crate and the book's format together; CHANGELOG.md has what raises it. */
#define FIELDBOOK_VERSION_MAJOR 3
#define FIELDBOOK_VERSION_MINOR 0
#define FIELDBOOK_VERSION_PATCH 1
#define FIELDBOOK_VERSION "3.0.1"

/*
 * How many units of a mean diameter there are to the cm: it is in HUNDREDTHS of a cm, 700 TO 10000.
 *
 * THE UNIT CHANGED WITH 3.0.0. Up to 2.0.0 it was tenths of a cm, 70 to 1000. Of numbers in tenths, 70 to 699 are
 * refused with 6 now, BUT 700 TO 1000 ARE TAKEN AS 7 TO 10 CM. Make them of centimetres, by this number. A SHEET THAT
 * WAS KEPT FROM BEFORE HAS TENTHS, and nothing in it says so.
 */
enum { FIELDBOOK_UNITS_TO_CM = 100 };

/* The numbers of the refusals. */
enum {
    FIELDBOOK_ACCEPTED = 0,
    FIELDBOOK_AT_END = 1,           /* there are no more bytes; of a book, its end (07) is missing */
    FIELDBOOK_UNKNOWN_BYTE = 2,     /* no command has this byte */
    FIELDBOOK_CUT_SHORT = 3,        /* the operands are cut short */
    FIELDBOOK_NO_ROOM = 4,          /* too few bytes from there; no book gets it */
    FIELDBOOK_ENDED = 5,            /* the book has ended: bytes after 07 */
    FIELDBOOK_OPERAND = 6,          /* an operand is outside its range */
    FIELDBOOK_ALREADY_GIVEN = 7,    /* already given: species, factor, line of stratum and species, its small trees */
    FIELDBOOK_UNDECLARED = 8,       /* the species is not declared */
    FIELDBOOK_LINE_OPEN = 9,        /* a line is open */
    FIELDBOOK_NO_LINE = 10,         /* no line is open */
    FIELDBOOK_LIMIT = 11,           /* 32 lines are opened, or the line would have too many measured or height trees */
    FIELDBOOK_NO_HEIGHT_TREE = 12,  /* no height tree */
    FIELDBOOK_TARIFF = 13,          /* the tariff is outside 1 to 50 */
    FIELDBOOK_NO_FACTOR = 14,       /* no factor at the line's mean diameter, cut to whole cm: of 59.96 cm at 59 */
    FIELDBOOK_TOO_MANY_TREES = 15,  /* more than 1,000,000 estimated trees of one sort, measured or small */
    FIELDBOOK_SHORT_SHEET = 16,     /* the sheet has fewer than 800 bytes */
    FIELDBOOK_PLOTS_ABOVE_AREA = 17 /* the plots' area q is above the net area p: are the two exchanged? */
};

/* The bytes of a row, and the fewest of a sheet: room for 32 rows. */
enum { FIELDBOOK_ROW_BYTES = 25, FIELDBOOK_SHEET_BYTES = 800 };

/* What stands where in the answer of fieldbook_total. */
enum {
    FIELDBOOK_TOTAL_ROWS,  /* how many rows stand in the sheet */
    FIELDBOOK_TOTAL_TREES, /* the estimated trees of all rows, measured and small, in hundredths */
    FIELDBOOK_TOTAL_LOW,   /* in grams of carbon dioxide */
    FIELDBOOK_TOTAL_HIGH,
    FIELDBOOK_TOTAL_PLACE, /* of a refusal: the place of the command, in bytes from 0; else 0 */
    FIELDBOOK_TOTAL_NUMBERS
};

/* What stands where in the answer of fieldbook_sheet_row. */
enum {
    FIELDBOOK_ROW_STRATUM,
    FIELDBOOK_ROW_SPECIES,
    FIELDBOOK_ROW_TARIFF, /* 0 where no tree was measured; so is the mean diameter */
    FIELDBOOK_ROW_D,      /* the mean diameter of the measured trees, in HUNDREDTHS of a cm: SINCE 3.0.0 */
    FIELDBOOK_ROW_TREES,  /* the estimated trees, measured and small, in hundredths */
    FIELDBOOK_ROW_LOW,    /* in milligrams of oven-dry biomass */
    FIELDBOOK_ROW_HIGH,
    FIELDBOOK_ROW_NUMBERS
};

/*
 * A command is nine numbers: its byte, its operands in the order of the book, and 0 for each that it does not have.
 *
 *     01 species          id, crown group, root group, gravity, c1, c2, c3, c4 (two's complement of 64 bits: int64_t)
 *     02 factor           cm, factor
 *     03 open a line      stratum, species, p, q (net area and plot area: q at most p)
 *     04 measured trees   class, count
 *     05 height tree      cm, tenths of a metre
 *     06 close the line
 *     07 end of the book
 *     08 small trees      carbon of one in milligrams, count
 */
enum {
    FIELDBOOK_SPECIES = 1,
    FIELDBOOK_FACTOR = 2,
    FIELDBOOK_OPEN = 3,
    FIELDBOOK_MEASURED = 4,
    FIELDBOOK_HEIGHT = 5,
    FIELDBOOK_CLOSE = 6,
    FIELDBOOK_END = 7,
    FIELDBOOK_SMALL = 8,
    FIELDBOOK_COMMAND_NUMBERS = 9
};

/* What stands where in the answer of a figure that is a low and a high. */
enum { FIELDBOOK_LOW, FIELDBOOK_HIGH, FIELDBOOK_ENDS };

/* Totals a book into a sheet of 800 bytes or more: the rows stand from its first byte on, and no other bytes change.
   Where the book is refused, the sheet is as it was, and the answer is 0 but for the place. The order of 04, 05 and 08
   inside a line is free: it changes neither whether the book is accepted nor, then, any number or byte. 0 trees mean that
   the book records no measured and no small tree, and the low and the high are equal exactly then. */
uint8_t fieldbook_total(const uint8_t *book, size_t book_length, uint8_t *sheet, size_t sheet_length,
                        uint64_t answer[FIELDBOOK_TOTAL_NUMBERS]);

/* The i-th row of a sheet, counted from 0. FIELDBOOK_AT_END where the sheet ends before the row does. */
uint8_t fieldbook_sheet_row(const uint8_t *sheet, size_t sheet_length, size_t i,
                            uint64_t answer[FIELDBOOK_ROW_NUMBERS]);

/* The command at a place of a book, and the place after it. Declines 1, 2, 3; then *next is `at`. */
uint8_t fieldbook_read(const uint8_t *book, size_t book_length, size_t at, uint64_t answer[FIELDBOOK_COMMAND_NUMBERS],
                       size_t *next);

/* Writes a command into a buffer from a place on, and answers the place after it in *next. Declines 2 where no command
   has that byte; 6 where an operand does not fit its bytes, or one that the command does not have is not 0; 4 where the
   buffer has too few bytes from there. Then the buffer is as it was, and *next is `at`. */
uint8_t fieldbook_write(uint8_t *buffer, size_t buffer_length, size_t at,
                        const uint64_t command[FIELDBOOK_COMMAND_NUMBERS], size_t *next);

/*
 * The figures. Each declines 6 where an operand is outside its range, and the single tariff then 13.
 *
 *     c1 to c4   constants of a species in units of 10^-7   d               mean diameter in HUNDREDTHS of a cm,
 *     cm         10 to 100                                                  700 TO 10000: SINCE 3.0.0
 *     tenths     of a metre, 1 to 600                       factor          in hundredths, 100 to 200
 *     tariff     1 to 50                                    gravity         in hundredths, 1 to 100
 *                                                           crown, root     groups, 0 to 7 and 0 to 5
 */

/* The tariff of a height tree, 1 to 50. */
uint8_t fieldbook_single_tariff(int32_t c1, int32_t c2, int32_t c3, int32_t c4, uint64_t cm, uint64_t tenths,
                                uint64_t *answer);

/* The tariff of a line: the sum of its single tariffs, and their number, 1 to 1,000. */
uint8_t fieldbook_line_tariff(uint64_t sum, uint64_t number, uint64_t *answer);

/* The mean diameter in HUNDREDTHS of a cm, SINCE 3.0.0: 1 to 1,000,000 measured trees, and the sum of their classes
   squared. */
uint8_t fieldbook_mean(uint64_t n, uint64_t squares, uint64_t *answer);

/* The estimated trees in hundredths: measured trees or small ones, up to 1,000,000; p and q, 1 to 100,000,000. Here q
   may be above p, as in no line of a book. */
uint8_t fieldbook_trees(uint64_t n, uint64_t p, uint64_t q, uint64_t *answer);

/* One tree's stem, crown and root, and all three, in milligrams of oven-dry biomass. */
uint8_t fieldbook_stem(uint64_t tariff, uint64_t d, uint64_t factor, uint64_t gravity, uint64_t answer[FIELDBOOK_ENDS]);
uint8_t fieldbook_crown(uint64_t group, uint64_t d, uint64_t answer[FIELDBOOK_ENDS]);
uint8_t fieldbook_root(uint64_t group, uint64_t d, uint64_t answer[FIELDBOOK_ENDS]);
uint8_t fieldbook_tree(uint64_t tariff, uint64_t d, uint64_t factor, uint64_t gravity, uint64_t crown, uint64_t root,
                       uint64_t answer[FIELDBOOK_ENDS]);

/* The measured trees of a row, in milligrams of oven-dry biomass: so many estimated trees in hundredths, up to
   100,000,000, of such a tree. */
uint8_t fieldbook_row(uint64_t trees, uint64_t tariff, uint64_t d, uint64_t factor, uint64_t gravity, uint64_t crown,
                      uint64_t root, uint64_t answer[FIELDBOOK_ENDS]);

/* The small trees of a row, in milligrams of oven-dry biomass: so many of them, estimated, in hundredths, up to
   100,000,000, and the carbon of one in milligrams, 1 to 4,294,967,295. */
uint8_t fieldbook_small_trees(uint64_t number, uint64_t carbon, uint64_t answer[FIELDBOOK_ENDS]);

/* A project in grams of carbon dioxide: the sums of its rows' lows and highs in milligrams, each up to
   1,676,976,733,973,595,601, and of their trees. */
uint8_t fieldbook_project(uint64_t low, uint64_t high, uint64_t trees, uint64_t answer[FIELDBOOK_ENDS]);

/* The greatest root whose square is not above x, and that square: the search that a tree's root is worked with. Every x
   has one. */
void fieldbook_square_root(uint64_t x, uint64_t *root, uint64_t *square);

#ifdef __cplusplus
}
#endif

#endif
