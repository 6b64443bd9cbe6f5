/*
 * Every call of the library once, on document 01's given case: one point of rubber in the middle of 2 by 2 by 2 cubes, with the
 * skin halfway along its fourteen edges. What it prints is held against example.out in the gate.
 */
#include <stdio.h>
#include <stdlib.h>
#include <string.h>

#include "yakuemi.h"

enum { SIZE = 2, POINTS = 35, MIDDLE = 13 };

static int16_t samples[POINTS];
static uint8_t cuts[7 * POINTS];
static uint8_t state[POINTS];

/* The fourteen edges of the middle point: the offsets of their cut bytes. */
static const size_t crossed[] = {30, 71, 84, 91, 92, 93, 94, 95, 96, 97, 192, 200, 208, 216};

static void given_case(void)
{
    for (size_t p = 0; p < POINTS; p++)
        samples[p] = p == MIDDLE ? 5 : -5;
    for (size_t i = 0; i < sizeof crossed / sizeof *crossed; i++)
        cuts[crossed[i]] = 128;
}

static struct yakuemi_filled fill_banded(uint32_t band, uint32_t *rows, size_t length)
{
    return yakuemi_fill(SIZE, SIZE, SIZE, band, samples, POINTS, cuts, sizeof cuts, state, sizeof state, rows, length);
}

/* Without a noise band. */
static struct yakuemi_filled fill(uint32_t *rows, size_t length)
{
    return fill_banded(0, rows, length);
}

static void print_filled(const char *what, struct yakuemi_filled f)
{
    printf("%s: answer %u, T %lu, M %lu, place %lu\n", what, (unsigned)f.number, (unsigned long)f.rows, (unsigned long)f.moved,
           (unsigned long)f.place);
}

static void print_place(uint32_t id)
{
    struct yakuemi_placed p = yakuemi_place(SIZE, SIZE, SIZE, cuts, sizeof cuts, state, sizeof state, id);
    printf("place of id %lu: answer %u, (%u, %u, %u)\n", (unsigned long)id, (unsigned)p.number, (unsigned)p.x, (unsigned)p.y,
           (unsigned)p.z);
}

/* Millimetres per step of a place, for cubes with a side of 2 mm: a power of two, so the places in millimetres are exact. */
static const double unit = 2.0 / 512.0;

static void print_place_mm(uint32_t id, double mm)
{
    struct yakuemi_placed_mm p = yakuemi_place_mm(SIZE, SIZE, SIZE, cuts, sizeof cuts, state, sizeof state, id, mm);
    printf("place of id %lu at %g mm a step: answer %u, (%.17g, %.17g, %.17g)\n", (unsigned long)id, mm, (unsigned)p.number, p.point.x,
           p.point.y, p.point.z);
}

static void print_first_row(const char *what, const uint32_t *rows)
{
    printf("%s: %lu %lu %lu %lu\n", what, (unsigned long)rows[0], (unsigned long)rows[1], (unsigned long)rows[2],
           (unsigned long)rows[3]);
}

/* Asks for T with no room at all, then lends a table of just that length. */
static int fill_and_print(void)
{
    uint32_t none = 0;
    struct yakuemi_filled asked = fill(&none, 0);
    print_filled("no room", asked);
    uint32_t *rows = malloc(4 * (size_t)asked.rows * sizeof *rows);
    if (rows == NULL)
        return EXIT_FAILURE;
    print_filled("filled", fill(rows, 4 * (size_t)asked.rows));
    print_first_row("first row", rows);
    for (int i = 0; i < 4; i++)
        print_place(rows[i]);
    for (int i = 0; i < 4; i++)
        print_place_mm(rows[i], unit);
    free(rows);
    return EXIT_SUCCESS;
}

static void print_mended(const char *what, uint32_t band, size_t points)
{
    struct yakuemi_mended m = yakuemi_mend(SIZE, SIZE, SIZE, band, samples, points, cuts, sizeof cuts);
    printf("%s: answer %u, filled in %lu, cleared %lu\n", what, (unsigned)m.number, (unsigned long)m.filled, (unsigned long)m.cleared);
}

/*
 * Noise bands. All samples are 5 or -5: out of a band of 4, but in a band of 5. There nothing is left to fill, and every cut byte is a
 * stray; mending with the same band clears them. The band comes before the rim too: a sample of 1 there is a fault only without one.
 */
static void print_bands(void)
{
    uint32_t rows[96];
    print_filled("band 4", fill_banded(4, rows, 96));
    print_filled("band 5", fill_banded(5, rows, 96));
    print_mended("mended with band 5", 5, POINTS);
    print_filled("band 5", fill_banded(5, rows, 96));
    print_place(POINTS + 91);
    samples[27] = 1;
    print_filled("band 5, sample 27 is 1", fill_banded(5, rows, 96));
    print_filled("band 0, sample 27 is 1", fill_banded(0, rows, 96));
    print_filled("band 32768", fill_banded(32768, rows, 96));
    print_mended("mended with band 32768", 32768, POINTS);
    given_case();
}

/* What a viewer colours: the points that lie on the skin, by the state table. A sample of 0 on the rim, and a cut near point 14. */
static void print_skin(void)
{
    uint32_t rows[96];
    samples[27] = 0;
    cuts[192] = 0;
    cuts[91] = 193;
    print_filled("sample 27 is 0, byte 91 is 193", fill(rows, 96));
    for (size_t p = 0; p < POINTS; p++)
        if (state[p] != 0)
            printf("point %lu lies on the skin, %s\n", (unsigned long)p, state[p] == YAKUEMI_ON_SKIN ? "unmoved" : "moved");
    print_place(27);
    given_case();
}

/* The same block with one thing wrong at a time; each is put right again. */
static void print_refusals(void)
{
    uint32_t rows[96];
    cuts[91] = 0;
    print_filled("byte 91 is zero", fill(rows, 96));
    cuts[91] = 128;
    cuts[0] = 7;
    print_filled("byte 0 is 7", fill(rows, 96));
    cuts[0] = 0;
    samples[27] = 1;
    print_filled("sample 27 is 1", fill(rows, 96));
    samples[27] = -5;
    print_filled("room for 95 numbers", fill(rows, 95));
    cuts[91] = 63;
    print_filled("byte 91 is 63", fill(rows, 96));
    print_place(MIDDLE);
    print_place(8 * POINTS);
    print_place_mm(MIDDLE, unit);
    print_place_mm(MIDDLE, 0.0);
}

/* Writes a block file of the given case, two bytes a sample and one run for each of eight groups of edges; answers its length. */
static size_t write_file(uint8_t *file)
{
    static const uint8_t runs[8][2] = {{30, 1}, {71, 1}, {84, 1}, {91, 7}, {192, 1}, {200, 1}, {208, 1}, {216, 1}};
    size_t end = 0;
    for (int i = 0; i < 3; i++)
        file[end++] = SIZE;
    for (size_t p = 0; p < POINTS; p++) {
        file[end++] = (uint8_t)(samples[p] & 255);
        file[end++] = samples[p] < 0 ? 255 : 0;
    }
    file[end++] = 8;
    file[end++] = 0;
    for (int i = 0; i < 8; i++) {
        const uint8_t run[6] = {runs[i][0], 0, 0, 0, runs[i][1], 0};
        for (int k = 0; k < 6; k++)
            file[end++] = run[k];
    }
    for (int i = 0; i < 14; i++)
        file[end++] = 128;
    return end;
}

static void print_read(const char *what, const uint8_t *file, size_t length, size_t room)
{
    struct yakuemi_read r = yakuemi_read(file, length, samples, room, cuts, sizeof cuts);
    printf("%s: answer %u, %u by %u by %u cubes, end %lu\n", what, (unsigned)r.number, (unsigned)r.nx, (unsigned)r.ny, (unsigned)r.nz,
           (unsigned long)r.end);
}

/* The block again, from a file: whole, cut short, and with too little room. */
static void print_readings(void)
{
    static uint8_t file[256];
    given_case();
    size_t length = write_file(file);
    memset(samples, 0, sizeof samples);
    memset(cuts, 0, sizeof cuts);
    print_read("a file cut short", file, length - 1, POINTS);
    print_read("room for 34 samples", file, length, POINTS - 1);
    print_read("a file", file, length, POINTS);
    uint32_t rows[96];
    print_filled("filled from it", fill(rows, 96));
}

/* The block as an old export: three bytes are missing, and byte 182 stands where no edge is. */
static void print_mending(void)
{
    uint32_t rows[96];
    given_case();
    cuts[91] = cuts[94] = cuts[216] = 0;
    cuts[182] = 7;
    print_filled("an old export", fill(rows, 96));
    print_mended("mended with 34 samples", 0, POINTS - 1);
    print_mended("mended", 0, POINTS);
    printf("byte 91 is %u, byte 182 is %u\n", (unsigned)cuts[91], (unsigned)cuts[182]);
    print_mended("mended again", 0, POINTS);
    print_filled("filled", fill(rows, 96));
}

static struct yakuemi_numbered number(uint32_t *rows, size_t length, uint32_t *nodes, size_t room)
{
    return yakuemi_nodes(SIZE, SIZE, SIZE, cuts, sizeof cuts, state, sizeof state, rows, length, nodes, room);
}

static void print_numbered(const char *what, struct yakuemi_numbered n)
{
    printf("%s: answer %u, nodes %lu, place %lu\n", what, (unsigned)n.number, (unsigned long)n.nodes, (unsigned long)n.place);
}

/* Asks for the nodes with no room at all, then lends a table of just that length, and puts the ids back. */
static int number_and_print(void)
{
    uint32_t rows[96], none = 0;
    given_case();
    print_filled("filled", fill(rows, 96));
    struct yakuemi_numbered asked = number(rows, 96, &none, 0);
    print_numbered("no room for nodes", asked);
    uint32_t *nodes = malloc(4 * (size_t)asked.nodes * sizeof *nodes);
    if (nodes == NULL)
        return EXIT_FAILURE;
    print_numbered("numbered", number(rows, 96, nodes, 4 * (size_t)asked.nodes));
    for (size_t k = 0; k < 3; k++)
        printf("node %lu: id %lu, (%lu, %lu, %lu)\n", (unsigned long)k, (unsigned long)nodes[4 * k], (unsigned long)nodes[4 * k + 1],
               (unsigned long)nodes[4 * k + 2], (unsigned long)nodes[4 * k + 3]);
    print_first_row("first row", rows);
    for (size_t i = 0; i < 96; i++)
        rows[i] = nodes[4 * rows[i]];
    print_first_row("its ids again", rows);
    free(nodes);
    return EXIT_SUCCESS;
}

/* No rows at all; then rows and node tables that are refused: one thing wrong at a time, then several at once. */
static void print_numbering_refusals(void)
{
    uint32_t rows[96], nodes[60];
    fill(rows, 96);
    print_numbered("no rows, no room", number(rows, 0, nodes, 0));
    print_numbered("95 numbers of rows", number(rows, 95, nodes, 60));
    print_numbered("room for 59 numbers", number(rows, 96, nodes, 59));
    const uint32_t id = rows[50];
    rows[50] = 8 * POINTS;
    print_numbered("entry 50 is 280", number(rows, 96, nodes, 60));
    rows[50] = id;
    rows[7] = 12;
    state[12] = YAKUEMI_ON_SKIN + 1;
    print_numbered("entry 7 is 12, whose state byte is 16", number(rows, 96, nodes, 60));
    rows[50] = 8 * POINTS;
    print_numbered("both, no room", number(rows, 96, nodes, 0));
    print_numbered("both, no room, 95 numbers of rows", number(rows, 95, nodes, 0));
    state[12] = 0;
}

int main(void)
{
    struct yakuemi_measures m = yakuemi_measures(SIZE, SIZE, SIZE);
    printf("measures: answer %u, points %lu, lattice %lu\n", (unsigned)m.number, (unsigned long)m.points,
           (unsigned long)m.tetrahedra);
    m = yakuemi_measures(SIZE, SIZE, 65);
    printf("a size of 65: answer %u, points %lu, lattice %lu\n", (unsigned)m.number, (unsigned long)m.points,
           (unsigned long)m.tetrahedra);
    given_case();
    if (fill_and_print() != EXIT_SUCCESS)
        return EXIT_FAILURE;
    print_bands();
    print_skin();
    print_refusals();
    print_readings();
    print_mending();
    if (number_and_print() != EXIT_SUCCESS)
        return EXIT_FAILURE;
    print_numbering_refusals();
    return EXIT_SUCCESS;
}
