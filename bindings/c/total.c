/*
 * Totals the book in a file, and prints its rows and the project as the program `sheet` does. With -d before the book,
 * each row has its mean diameter in cm after its figures, 0.00 where no tree was measured. The exit status is 0 where it
 * is totalled, 1 where it is refused, and 2 where the file cannot be read or the text not be written. From the
 * repository's root:
 *
 *     ./build fieldbook
 *     gcc -std=c99 -I bindings/c bindings/c/total.c target/staticlib/libfieldbook.a -o target/total
 *     target/total examples/listing.book
 */
#include "fieldbook.h"

#include <errno.h>
#include <inttypes.h>
#include <stdio.h>
#include <stdlib.h>
#include <string.h>

typedef struct {
    uint8_t *bytes;
    size_t length;
    size_t room;
} Book;

/* Room for at least one more byte: 0 where there is none to be had. */
static int make_room(Book *book) {
    if (book->length < book->room)
        return 1;
    size_t room = 2 * book->room + 4096;
    uint8_t *bytes = realloc(book->bytes, room);
    if (bytes == NULL)
        return 0;
    book->bytes = bytes;
    book->room = room;
    return 1;
}

/* Reads a file to its end: 0 where that fails, and errno says why. Even an empty book has an address that is not NULL. */
static int read_book(const char *name, Book *book) {
    FILE *file = fopen(name, "rb");
    if (file == NULL)
        return 0;
    int good;
    while ((good = make_room(book)) && !feof(file) && !ferror(file))
        book->length += fread(book->bytes + book->length, 1, book->room - book->length, file);
    good = good && !ferror(file);
    int why = errno;
    fclose(file);
    errno = why;
    return good;
}

/* Trees to two places, then a low and a high. */
static void print_figures(uint64_t trees, uint64_t low, uint64_t high) {
    printf("%" PRIu64 ".%02" PRIu64 " %" PRIu64 " %" PRIu64, trees / 100, trees % 100, low, high);
}

/* A mean diameter in cm, to two places. */
static void print_mean(uint64_t d) {
    printf(" %" PRIu64 ".%02" PRIu64, d / FIELDBOOK_UNITS_TO_CM, d % FIELDBOOK_UNITS_TO_CM);
}

/* Totalling laid the row there, so it is not refused. */
static void print_row(const uint8_t *sheet, size_t i, int with_mean) {
    uint64_t row[FIELDBOOK_ROW_NUMBERS];
    fieldbook_sheet_row(sheet, FIELDBOOK_SHEET_BYTES, i, row);
    printf("%" PRIu64 " %" PRIu64 " ", row[FIELDBOOK_ROW_STRATUM], row[FIELDBOOK_ROW_SPECIES]);
    print_figures(row[FIELDBOOK_ROW_TREES], row[FIELDBOOK_ROW_LOW], row[FIELDBOOK_ROW_HIGH]);
    if (with_mean)
        print_mean(row[FIELDBOOK_ROW_D]);
    printf("\n");
}

static int print_book(const Book *book, int with_means) {
    uint8_t sheet[FIELDBOOK_SHEET_BYTES] = {0};
    uint64_t totals[FIELDBOOK_TOTAL_NUMBERS];
    uint8_t refusal = fieldbook_total(book->bytes, book->length, sheet, sizeof sheet, totals);
    if (refusal != FIELDBOOK_ACCEPTED) {
        printf("refused %u at %" PRIu64 "\n", refusal, totals[FIELDBOOK_TOTAL_PLACE]);
        return 1;
    }
    for (size_t i = 0; i < totals[FIELDBOOK_TOTAL_ROWS]; i++)
        print_row(sheet, i, with_means);
    printf("project ");
    print_figures(totals[FIELDBOOK_TOTAL_TREES], totals[FIELDBOOK_TOTAL_LOW], totals[FIELDBOOK_TOTAL_HIGH]);
    printf("\n");
    return 0;
}

int main(int count, char **arguments) {
    Book book = {NULL, 0, 0};
    int with_means = count == 3 && strcmp(arguments[1], "-d") == 0;
    if (count != 2 && !with_means) {
        fprintf(stderr, "usage: total [-d] BOOK\n");
        return 2;
    }
    const char *name = arguments[count - 1];
    if (!read_book(name, &book)) {
        fprintf(stderr, "%s: %s\n", name, strerror(errno));
        return 2;
    }
    int status = print_book(&book, with_means);
    free(book.bytes);
    /* What was printed may still wait in a buffer. */
    if (fclose(stdout) != 0) {
        fprintf(stderr, "standard output: %s\n", strerror(errno));
        return 2;
    }
    return status;
}
