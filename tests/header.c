/*
 * Every function of bindings/c/fieldbook.h, called as the header has it, in C and in C++: document 01's marked lines
 * and its listing, the saplings of the protocol's Appendix 6, areas that are exchanged, square roots, the unit of a mean
 * diameter, and the version. The status is 0 where all hold.
 */
#include "fieldbook.h"

#include <stdio.h>
#include <string.h>

static int status = 0;

static void holds(int condition, const char *what) {
    if (!condition) {
        printf("        %s\n", what);
        status = 1;
    }
}

/* The first command of document 01's listing, the oak. */
static const uint8_t oak[] = {0x01, 0x03, 0x07, 0x05, 0x38, 0x03, 0x81, 0xac, 0xb0, 0x01, 0x33,
                              0x0d, 0x78, 0xff, 0xff, 0x2a, 0x04, 0xff, 0xff, 0x1f, 0xcb};

/* 289 saplings, each of 0.0015756 t of carbon. */
static const uint8_t saplings[] = {0x08, 0x00, 0x18, 0x0a, 0xb0, 0x00, 0x00, 0x01, 0x21};

/* The text is the three numbers. */
static void version(void) {
    char text[64];
    snprintf(text, sizeof text, "%d.%d.%d", FIELDBOOK_VERSION_MAJOR, FIELDBOOK_VERSION_MINOR, FIELDBOOK_VERSION_PATCH);
    holds(strcmp(FIELDBOOK_VERSION, text) == 0, "the version");
}

static int are(const uint64_t ends[FIELDBOOK_ENDS], uint64_t low, uint64_t high) {
    return ends[FIELDBOOK_LOW] == low && ends[FIELDBOOK_HIGH] == high;
}

static void tariffs_and_trees(void) {
    uint64_t x;
    holds(fieldbook_single_tariff(58830000, 20123000, -54780, -57397, 17, 106, &x) == 0 && x == 26, "(a)");
    holds(fieldbook_single_tariff(58830000, 20123000, -54780, -57397, 17, 600, &x) == FIELDBOOK_TARIFF && x == 0, "13");
    holds(fieldbook_line_tariff(235, 9, &x) == 0 && x == 26, "(c)");
    holds(fieldbook_mean(400, 19881, &x) == 0 && x == 705, "(d)");
    holds(fieldbook_mean(40000, 1985280, &x) == 0 && x == 704, "(d), just below the border");
    holds(fieldbook_mean(40000, 1985281, &x) == 0 && x == 705, "(d), at the border");
    holds(fieldbook_mean(1, 48, &x) == FIELDBOOK_OPERAND && x == 0, "6");
    holds(fieldbook_trees(4, 6, 1, &x) == 0 && x == 2400, "the listing's trees");
    holds(fieldbook_trees(1, 1, 200, &x) == 0 && x == 1, "a two-hundredth of a tree");
    holds(fieldbook_trees(1, 1, 201, &x) == 0 && x == 0, "less than that");
}

/* The unit of a mean diameter is what the library answers for a tree of so many cm, and what it takes. */
static void units_to_cm(void) {
    const uint64_t least = 7 * FIELDBOOK_UNITS_TO_CM, most = 100 * FIELDBOOK_UNITS_TO_CM;
    uint64_t x, ends[2];
    holds(fieldbook_mean(1, 49, &x) == 0 && x == least, "(e)");
    for (uint64_t cm = 7; cm <= 100; cm++)
        holds(fieldbook_mean(1, cm * cm, &x) == 0 && x == cm * FIELDBOOK_UNITS_TO_CM, "a tree of whole cm");
    holds(fieldbook_mean(25, 89881, &x) == 0 && x == 59 * FIELDBOOK_UNITS_TO_CM + 96, "59.96 cm");
    holds(fieldbook_crown(7, least, ends) == 0 && are(ends, 2087794, 2087795), "7 cm");
    holds(fieldbook_crown(7, most, ends) == 0 && are(ends, 955429636, 955429637), "100 cm");
    holds(fieldbook_crown(7, least - 1, ends) == FIELDBOOK_OPERAND && are(ends, 0, 0), "less than 7 cm");
    holds(fieldbook_crown(7, most + 1, ends) == FIELDBOOK_OPERAND && are(ends, 0, 0), "more than 100 cm");
}

/* The oak of the listing: 60 cm, and 12 m high. */
static void biomass(void) {
    const uint64_t cm = FIELDBOOK_UNITS_TO_CM, d = 60 * cm;
    uint64_t t, stem[2], crown[2], root[2], tree[2], row[2], project[2];
    holds(fieldbook_crown(7, 50 * cm + cm / 10, crown) == 0 && crown[FIELDBOOK_LOW] == 273306566, "(i)");
    holds(fieldbook_root(5, 10 * cm, root) == 0 && are(root, 7178370, 7178371), "(f)");
    holds(fieldbook_single_tariff(58830000, 20123000, -54780, -57397, 60, 120, &t) == 0, "the listing's tariff");
    holds(fieldbook_row(2400, t, d, 101, 56, 7, 5, row) == 0 && are(row, 50288870208, 50288870425), "(j)");
    holds(fieldbook_project(row[0], row[1], 2400, project) == 0 && are(project, 92196262, 92196263), "the project");
    holds(fieldbook_stem(t, d, 101, 56, stem) == 0 && fieldbook_crown(7, d, crown) == 0, "stem and crown");
    holds(fieldbook_root(5, d, root) == 0 && fieldbook_tree(t, d, 101, 56, 7, 5, tree) == 0, "root and tree");
    holds(are(tree, stem[0] + crown[0] + root[0], stem[1] + crown[1] + root[1]), "the parts of the tree");
    holds(fieldbook_row(100, t, d, 101, 56, 7, 5, row) == 0 && are(row, tree[0], tree[1] + 1), "a row of one tree");
}

/* They stand on 0.1 of 24 ha. The greatest carbon is that of four bytes. */
static void small_trees(void) {
    uint64_t number, ends[2];
    holds(fieldbook_trees(289, 240000, 1000, &number) == 0 && number == 6936000, "the saplings");
    holds(fieldbook_small_trees(number, 1575600, ends) == 0 && are(ends, 218567232000, 218567232001), "their biomass");
    holds(fieldbook_small_trees(0, UINT32_MAX, ends) == 0 && are(ends, 0, 0), "no small trees");
    holds(fieldbook_small_trees(100000001, 1, ends) == FIELDBOOK_OPERAND && are(ends, 0, 0), "6, the number");
    holds(fieldbook_small_trees(100, 0, ends) == FIELDBOOK_OPERAND && are(ends, 0, 0), "6, the carbon");
}

/* Of the ends of 64 bits, and around a square. */
static void square_roots(void) {
    const uint64_t greatest = UINT32_MAX;
    const uint64_t roots[][3] = {{0, 0, 0}, {8, 2, 4}, {9, 3, 9}, {UINT64_MAX, greatest, greatest * greatest}};
    for (size_t i = 0; i < sizeof roots / sizeof *roots; i++) {
        uint64_t root, square;
        fieldbook_square_root(roots[i][0], &root, &square);
        holds(root == roots[i][1] && square == roots[i][2], "a square root");
    }
}

static void commands(void) {
    const int64_t wanted[] = {FIELDBOOK_SPECIES, 3, 7, 5, 56, 58830000, 20123000, -54780, -57397};
    uint64_t command[FIELDBOOK_COMMAND_NUMBERS];
    uint8_t buffer[sizeof oak + 2] = {0};
    size_t next;
    holds(fieldbook_read(oak, sizeof oak, 0, command, &next) == 0 && next == sizeof oak, "reading");
    for (int i = 0; i < FIELDBOOK_COMMAND_NUMBERS; i++)
        holds((int64_t)command[i] == wanted[i], "a number of the command");
    holds(fieldbook_write(buffer, sizeof buffer, 1, command, &next) == 0 && next == sizeof oak + 1, "writing");
    holds(memcmp(buffer + 1, oak, sizeof oak) == 0, "the bytes");
    holds(fieldbook_write(buffer, sizeof buffer, 3, command, &next) == FIELDBOOK_NO_ROOM && next == 3, "4");
    holds(fieldbook_read(oak, sizeof oak - 1, 0, command, &next) == FIELDBOOK_CUT_SHORT && next == 0, "3");
    holds(fieldbook_read(saplings, sizeof saplings, 0, command, &next) == 0 && next == sizeof saplings, "reading 08");
    holds(command[0] == FIELDBOOK_SMALL && command[1] == 1575600 && command[2] == 289 && command[3] == 0, "08");
}

static void books(void) {
    const uint8_t end[] = {FIELDBOOK_END, FIELDBOOK_END};
    uint8_t sheet[FIELDBOOK_SHEET_BYTES] = {0, 0, 7};
    uint64_t totals[FIELDBOOK_TOTAL_NUMBERS], row[FIELDBOOK_ROW_NUMBERS];
    holds(fieldbook_total(end, 1, sheet, sizeof sheet, totals) == FIELDBOOK_ACCEPTED, "the empty book");
    holds(fieldbook_total(end, 2, sheet, sizeof sheet, totals) == FIELDBOOK_ENDED, "5");
    holds(totals[FIELDBOOK_TOTAL_PLACE] == 1 && totals[FIELDBOOK_TOTAL_ROWS] == 0, "the place");
    holds(fieldbook_total(end, 1, sheet, sizeof sheet - 1, totals) == FIELDBOOK_SHORT_SHEET, "16");
    holds(fieldbook_sheet_row(sheet, FIELDBOOK_ROW_BYTES, 0, row) == 0 && row[FIELDBOOK_ROW_TARIFF] == 7, "a row");
    holds(fieldbook_sheet_row(sheet, FIELDBOOK_ROW_BYTES, 1, row) == FIELDBOOK_AT_END, "1");
}

/* 24 oaks of 60 cm and one of 59, and a height tree: their mean is 59.96 cm. */
static const uint8_t oaks[] = {0x03, 0x01, 0x03, 0x00, 0x00, 0x00, 0x01, 0x00, 0x00, 0x00, 0x01, 0x04, 0x3c, 0x00,
                               0x18, 0x04, 0x3b, 0x00, 0x01, 0x05, 0x3c, 0x00, 0x78, 0x06, 0x07};

/* Totals a book of these oaks, with the factor at so many cm alone, and reads the first row of the sheet. */
static uint8_t total_of_oaks(uint8_t cm, uint64_t totals[FIELDBOOK_TOTAL_NUMBERS], uint64_t row[FIELDBOOK_ROW_NUMBERS]) {
    const uint8_t factor[] = {FIELDBOOK_FACTOR, cm, 101};
    uint8_t book[sizeof oak + sizeof factor + sizeof oaks], sheet[FIELDBOOK_SHEET_BYTES] = {0};
    memcpy(book, oak, sizeof oak);
    memcpy(book + sizeof oak, factor, sizeof factor);
    memcpy(book + sizeof oak + sizeof factor, oaks, sizeof oaks);
    uint8_t refusal = fieldbook_total(book, sizeof book, sheet, sizeof sheet, totals);
    fieldbook_sheet_row(sheet, sizeof sheet, 0, row);
    return refusal;
}

/* The factor is the one at 59 cm. */
static void mean_of_a_row(void) {
    uint64_t totals[FIELDBOOK_TOTAL_NUMBERS], row[FIELDBOOK_ROW_NUMBERS];
    holds(total_of_oaks(59, totals, row) == FIELDBOOK_ACCEPTED, "the factor at 59 cm");
    holds(row[FIELDBOOK_ROW_D] == 59 * FIELDBOOK_UNITS_TO_CM + 96, "the mean diameter of a row");
    holds(row[FIELDBOOK_ROW_LOW] == 52317593250 && row[FIELDBOOK_ROW_HIGH] == 52317593476, "its low and high");
    holds(total_of_oaks(60, totals, row) == FIELDBOOK_NO_FACTOR, "14");
    holds(totals[FIELDBOOK_TOTAL_PLACE] == 47 && row[FIELDBOOK_ROW_D] == 0, "the place of 14");
}

/* A line of the oak, of 5,000 and 250 square metres: the net area is the first of the two. */
static void areas(void) {
    const uint64_t good[FIELDBOOK_COMMAND_NUMBERS] = {FIELDBOOK_OPEN, 1, 3, 5000, 250};
    const uint64_t exchanged[FIELDBOOK_COMMAND_NUMBERS] = {FIELDBOOK_OPEN, 1, 3, 250, 5000};
    const uint8_t close_and_end[] = {FIELDBOOK_CLOSE, FIELDBOOK_END};
    uint8_t book[sizeof oak + 11 + sizeof close_and_end], sheet[FIELDBOOK_SHEET_BYTES] = {0};
    uint64_t totals[FIELDBOOK_TOTAL_NUMBERS];
    size_t next;
    memcpy(book, oak, sizeof oak);
    memcpy(book + sizeof oak + 11, close_and_end, sizeof close_and_end);
    holds(fieldbook_write(book, sizeof book, sizeof oak, good, &next) == 0, "an opening");
    holds(fieldbook_total(book, sizeof book, sheet, sizeof sheet, totals) == FIELDBOOK_ACCEPTED, "plots in the wood");
    holds(totals[FIELDBOOK_TOTAL_ROWS] == 1 && totals[FIELDBOOK_TOTAL_TREES] == 0, "a line without trees");
    holds(totals[FIELDBOOK_TOTAL_LOW] == totals[FIELDBOOK_TOTAL_HIGH], "equal figures");
    holds(fieldbook_write(book, sizeof book, sizeof oak, exchanged, &next) == 0, "the areas exchanged");
    holds(fieldbook_total(book, sizeof book, sheet, sizeof sheet, totals) == FIELDBOOK_PLOTS_ABOVE_AREA, "17");
    holds(totals[FIELDBOOK_TOTAL_PLACE] == sizeof oak && totals[FIELDBOOK_TOTAL_ROWS] == 0, "the place of 17");
}

int main(void) {
    version();
    tariffs_and_trees();
    units_to_cm();
    biomass();
    small_trees();
    square_roots();
    commands();
    books();
    mean_of_a_row();
    areas();
    return status;
}
