/*
 * Yakuemi: fills scanned rubber with tetrahedra, proved.
 *
 * The block. Sizes nx, ny, nz count cubes, each 1 to 64. The lattice points are the cubes' corners and their centres; N is the count
 * of both (yakuemi_measures). The corner at i, j, k cubes from the origin has number i + (nx+1)(j + (ny+1)k); the centre of the cube with that
 * lowest corner has number (nx+1)(ny+1)(nz+1) + i + nx(j + ny k). From a point, edges lead in seven directions, here in half cubes, where
 * a point is at the other end:
 *
 *   0 (+2,0,0)   1 (0,+2,0)   2 (0,0,+2)   3 (+1,+1,+1)   4 (-1,+1,+1)   5 (+1,-1,+1)   6 (-1,-1,+1)
 *
 * A block's tables, and those that filling writes:
 *
 *   samples   N      signed, one a point: above zero in rubber, below zero in air; on the skin if in the band, as zero always is
 *   cuts      7N     the edge from point p in direction d (0 to 6) has byte 7p+d: how many 256ths along from p the skin crosses it;
 *                    1 to 255 exactly where one end's sample is above zero and the other's below and neither is in the band, else 0
 *   state     N      written: 1 to 14 if the point moved, d+1 onto the cut of its edge in direction d, d+8 onto that of the edge that
 *                    leads to it in direction d; YAKUEMI_ON_SKIN, 15, if it is in the band: it lies on the skin unmoved; 0 for any
 *                    other. Points have their turns in ascending number; of the cuts too near it whose other end has not moved a
 *                    point takes the nearest, and of those as near the one with the lower byte here
 *   rows      4T     written: the tetrahedra, four ids a row; an id is p for a point, N+7p+d for the cut of an edge. Between the ids
 *                    in use are holes; yakuemi_nodes makes node numbers of them, which have none
 *
 * A row a b c d has a positive volume: (b-a) x (c-a) . (d-a) is above zero, as VTK, Gmsh and Abaqus want it.
 *
 * The band. Scanners flicker: in plain air some samples come out a little above zero. So filling and mending take a band, a number from
 * 0 to 32767, and a sample whose size is at most the band counts as zero: its point is in the band and lies on the skin. (-32768 has size
 * 32768 and is in no band.) A point in the band never moves, may stand on the rim, and has no cut beside it, as the skin runs through the
 * point itself. The cut bytes of a scanner that knows of no band have some too many then: yakuemi_mend with the same band clears them.
 * Take the largest size that the flicker has, 3 if it goes from -3 to 3; or 0 for none: then only zeros are in the band. Too large a band
 * spoils the part: rubber whose samples are in it is left out, so that thin walls vanish, and elsewhere the skin is drawn to lattice
 * points.
 *
 * So a corner of a row lies on the skin if it is a cut (an id of N or more), a point that moved (its state byte is 1 to 14) or a point in
 * the band (its state byte is 15): exactly if it is a cut or its state byte is not 0. A face that belongs to one row only has three such
 * corners.
 *
 * Tables. A table is a pointer and its length in entries, not in bytes. The pointer must be valid for that many entries, aligned
 * for its type, and not null even where the length is 0 (nothing is read or written through it then). Tables that are lent to one
 * call must not overlap. That is all that is asked: whatever sizes, bands, lengths, contents, ids and units are handed in, the call
 * ends with an answer, touches nothing but the tables it was lent, keeps nothing, allocates nothing and uses no global state, so calls
 * on different tables may run at the same time.
 *
 * Answers. Every call answers a struct by value. Its number is 0, or one of the refusals below.
 */
#ifndef YAKUEMI_H
#define YAKUEMI_H

#include <stddef.h>
#include <stdint.h>

#ifdef __cplusplus
extern "C" {
#endif

/* The state byte of a point that lies on the skin unmoved. A byte from 1 to 14 is a move. */
enum { YAKUEMI_ON_SKIN = 15 };

/* The numbers of the answers. */
enum yakuemi_number {
    YAKUEMI_DONE = 0,     /* carried out */
    YAKUEMI_SIZE = 1,     /* a size is outside 1 to 64 */
    YAKUEMI_SAMPLES = 2,  /* not N samples */
    YAKUEMI_CUTS = 3,     /* the cut table has not 7N bytes */
    YAKUEMI_STATE = 4,    /* the state table has not N bytes */
    YAKUEMI_RIM = 5,      /* a rim point's sample is above the band: a corner on the block's outside, or the centre of an outer cube */
    YAKUEMI_GAP = 6,      /* a cut byte is zero where one end's sample is above zero and the other's below, neither in the band */
    YAKUEMI_STRAY = 7,    /* a cut byte is not zero where the ends' samples are not so, or where no edge is */
    YAKUEMI_CORNER = 8,   /* the id names no corner of a row */
    YAKUEMI_CODE = 9,     /* the point's state byte is not believable */
    YAKUEMI_TABLE = 10,   /* the table to be written is too short: it holds fewer than four numbers a row, or a node */
    YAKUEMI_FILE = 11,    /* a malformed block file */
    YAKUEMI_ROOM = 12,    /* a lent table is too short for the block in the file */
    YAKUEMI_UNIT = 13,    /* the unit is not a number from 1/1048576 to 16 */
    YAKUEMI_BAND = 14,    /* the band is above 32767 */
    YAKUEMI_ROWS = 15     /* the row table's length is not a multiple of four */
};

/* The measures of a block. */
struct yakuemi_measures {
    uint32_t number;
    uint64_t points;     /* N */
    uint64_t tetrahedra; /* the lattice tetrahedra; none gives more than three rows */
};

/*
 * How long the tables of a block of nx by ny by nz cubes must be.
 *
 * Answers 0 with both counts, or YAKUEMI_SIZE with both 0.
 */
struct yakuemi_measures yakuemi_measures(uint32_t nx, uint32_t ny, uint32_t nz);

/* The answer of reading a block file. */
struct yakuemi_read {
    uint32_t number;
    uint32_t nx, ny, nz; /* the block's sizes */
    uint64_t end;        /* where in the bytes the file ends */
};

/*
 * Reads a block file from the start of some bytes.
 *
 * A block file is three size bytes; N samples of two bytes, two's complement; a count of runs, two bytes; for each run an offset in
 * the cut table, four bytes, and a length, two; then the bytes of the runs. Numbers have their low byte first. Cut bytes
 * that no run lists are zero.
 *
 * Lengths: at least N samples and 7N cuts, for the sizes in the file. 536769 and 3757383 suffice for every file.
 *
 * Answers 0 with the sizes and the end: the first N samples and the first 7N cuts are written, and what follows them stays as it was.
 * Bytes may follow the file; whoever wants one file and no more compares the end with the length. Or, with sizes and end 0 and
 * nothing written, the first of these that applies:
 *
 *   11         fewer than three bytes
 *   1          a size outside 1 to 64
 *   12         a lent table is too short for the block
 *   11         too few bytes; a run of length 0, past 7N, or starting no later than the first byte after the run before it;
 *              a zero byte in a run
 *
 * Whether samples and cuts fit each other is for filling to say.
 */
struct yakuemi_read yakuemi_read(const uint8_t *bytes, size_t bytes_len,
                                 int16_t *samples, size_t samples_len,
                                 uint8_t *cuts, size_t cuts_len);

/* The answer of mending. */
struct yakuemi_mended {
    uint32_t number;
    uint64_t filled;  /* the missing bytes that were filled in */
    uint64_t cleared; /* the stray bytes that became 0 */
};

/*
 * Mends the cut table of an old scanner export, which lacks bytes or carries some too many, so that filling with the same band refuses it
 * with neither 6 nor 7. It may still refuse the block for another reason: 4, 5 or 10.
 *
 *   missing    a byte that is zero where one end's sample is above zero and the other's below and neither is in the band. It becomes 256
 *              times the size of the sample at the edge's start, divided by the sum of both sizes, rounded to a whole number, half up,
 *              and held within 1 to 255 (-32768 has size 32768)
 *   stray      a byte that is not zero where the ends' samples are not so, or where no edge is. It becomes 0
 *   good       every other byte. It stays
 *
 * A byte that is filled in is within 1/2 of the exact quotient, or within less than 1 where it was held (a byte counts 256ths of the
 * edge; this is proved). How near the skin it is nobody knows: it is a straight-line guess from two samples, so a scanner's own cut is
 * better.
 *
 * Lengths: N samples and 7N cuts. The rim is not looked at. What a band cleared is gone: to fill with a smaller one, mend a copy.
 *
 * Answers 0 with both counts: so many bytes of the cut table were changed, and no other. A second call changes nothing and answers 0 with
 * both 0. Or, with both counts 0 and nothing written, the first of these that applies: 1, 14, 2, 3.
 */
struct yakuemi_mended yakuemi_mend(uint32_t nx, uint32_t ny, uint32_t nz, uint32_t band,
                                   const int16_t *samples, size_t samples_len,
                                   uint8_t *cuts, size_t cuts_len);

/* The answer of filling. */
struct yakuemi_filled {
    uint32_t number;
    uint64_t rows;  /* T */
    uint64_t moved; /* M, the points that moved: the bytes 1 to 14 of the state table */
    uint64_t place; /* where the fault is, with 5, 6 and 7; else 0 */
};

/*
 * Fills a block: moves the points that sit too near the skin, each onto the nearest cut, and writes the rows. Samples in the band count
 * as zero; a band of 0 does without.
 *
 * Lengths: N samples, 7N cuts, N state bytes, and a row table of any length. What state and rows held before does not matter.
 *
 * Answers 0 with T and M: the state table is written whole, the first 4T numbers of the row table are the rows, and what follows
 * them stays as it was. Or, the first of these that applies:
 *
 *   1, 14      a size; the band                                T, M, place 0      no table is written
 *   2, 3, 4    lengths                                         T, M, place 0      no table is written
 *   5          place: the lowest such point                    T, M 0             no table is written
 *   6 or 7     place: the offset of the lowest byte at fault   T, M 0             no table is written
 *   10         place 0                     T and M as with a longer table         state is written whole, rows stays as it was
 *
 * The band comes first: a sample in it is zero to 5, 6 and 7 too. So rim points may be in the band, and a cut byte beside one must be 0:
 * any other is a 7. What 6 and 7 refuse yakuemi_mend puts right, with the same band.
 *
 * To learn T, call it with a row table of length 0: the answer is 10 and says T (or 0, if T is 0). Or lend 12 times
 * the lattice tetrahedra, which always suffices.
 */
struct yakuemi_filled yakuemi_fill(uint32_t nx, uint32_t ny, uint32_t nz, uint32_t band,
                                   const int16_t *samples, size_t samples_len,
                                   const uint8_t *cuts, size_t cuts_len,
                                   uint8_t *state, size_t state_len,
                                   uint32_t *rows, size_t rows_len);

/* The answer of the place of an id. */
struct yakuemi_placed {
    uint32_t number;
    uint32_t x, y, z; /* in 512ths of a cube's side, from the corner of the block with number 0 */
};

/*
 * The place of one id, from the sizes, the cuts and the state table that filling left. It writes nothing.
 *
 * Answers 0 with the place, for every id of the rows of a filled block. Or, with the place (0, 0, 0), the first of these
 * that applies: 1, 3, 4; 8 if the id is 8N or more, or is that of a cut whose edge does not exist, has byte 0 or has an end with
 * a non-zero state byte; 9 if the point's state byte is above 15, or is 1 to 14 and names an edge that does not exist, has byte 0 or has
 * its cut too far from the point to move it. A point whose byte is 0 or 15 is in its own place. (The call reads no samples and takes no
 * band, so it believes 15 wherever it stands, and a byte that names a cut near enough but not the nearest.)
 */
struct yakuemi_placed yakuemi_place(uint32_t nx, uint32_t ny, uint32_t nz,
                                    const uint8_t *cuts, size_t cuts_len,
                                    const uint8_t *state, size_t state_len,
                                    uint32_t id);

/* A point in millimetres, from the corner of the block with number 0. */
struct yakuemi_point {
    double x, y, z;
};

/* The answer of the place of an id in millimetres. */
struct yakuemi_placed_mm {
    uint32_t number;
    struct yakuemi_point point;
};

/*
 * The place of one id in millimetres: each whole number that yakuemi_place answers, turned exactly into a double and multiplied by the
 * unit once. It writes nothing.
 *
 * The unit is the millimetres per step, and a step is a 512th of a cube's side. For cubes with a side of s millimetres it is
 *
 *   double unit = s / 512.0;
 *
 * which loses nothing, as 512 is a power of two. Units from 1/1048576 to 16 are taken, both ends too, so cubes with sides from
 * 512/1048576 (about 0.0005) to 8192 millimetres can be had.
 *
 * Answers 0 with the point, for such a unit and every id of the rows of a filled block. The coordinates are finite, and (all this is
 * proved)
 *
 *   exact      where the unit is a power of two, that is, where the side is a power of two millimetres (4, 2, 1, 0.5, ..)
 *   rounded    at every other unit, once, to the nearest double, ties to even: each coordinate is within one part in 2^53 of the exact
 *              product of the whole number and the unit handed in
 *
 * Or, with the point (0, 0, 0), three positive zeros, the first of these that applies: 1, 3, 4, 8, 9, as yakuemi_place has them; 13 if the
 * unit is not a number from 1/1048576 to 16, so also if it is a NaN, an infinity, zero or below.
 *
 * A program starts with rounding to nearest. One that has set another mode (fesetround) sets it back before the call, or the products
 * are rounded by that mode.
 */
struct yakuemi_placed_mm yakuemi_place_mm(uint32_t nx, uint32_t ny, uint32_t nz,
                                          const uint8_t *cuts, size_t cuts_len,
                                          const uint8_t *state, size_t state_len,
                                          uint32_t id, double unit);

/* The answer of numbering nodes. */
struct yakuemi_numbered {
    uint32_t number;
    uint64_t nodes; /* K, the nodes written, or needed with 10; else 0 */
    uint64_t place; /* where in the row table the fault is, with 8 and 9; else 0 */
};

/*
 * Numbers the nodes of rows, for programs that refuse ids with holes. A node is an id that stands in the row table, be it once or
 * often. Nodes have numbers from 0 on, by ascending id. The node table is written, four numbers a node, and the row table rewritten:
 *
 *   nodes[4k]               the id of node k
 *   nodes[4k+1] to [4k+3]   its x, y and z as yakuemi_place answers them: whole numbers, in 512ths of a cube's side
 *   rows[i]                 was an id and is now the number of its node; nodes[4 * rows[i]] is the id again
 *
 * Lengths: 7N cuts, N state bytes, a row table of whole rows, and a node table of any length. Of a row table that is longer than the
 * rows in it lend just the rows, 4T numbers: every number that is lent is taken for an id. Any row table is taken, not only one that
 * filling wrote; an empty one has no nodes. What the node table held before does not matter.
 *
 * Answers 0 with K: the row table is rewritten whole, the first 4K numbers of the node table are the nodes, and what follows them
 * stays as it was. Or, the first of these that applies, and both tables stay as they were:
 *
 *   1, 3, 4    a size; lengths                                                      K, place 0
 *   15         the row table's length is not a multiple of four                     K, place 0
 *   8 or 9     place: the index in the row table, from 0, of the first id that      K 0
 *              has no place; the number is that with which yakuemi_place refuses it
 *   10         the node table holds fewer than 4K numbers; place 0                  K as with a longer table
 *
 * To learn K, call it with a node table of length 0: nothing is written, and the answer is 10 and says K (or 0, if K is 0). Or lend 4
 * times the length of the row table, or 32N if that is less, which always suffices: there are no more nodes than numbers in the row
 * table, and no more than 8N ids have a place.
 *
 * The rewritten rows hold no ids: a second call on them would take node numbers for ids, and may well answer 0. For places in
 * millimetres hand the ids in the node table to yakuemi_place_mm.
 *
 * The call takes about 122 KiB of the stack, whatever the block; the others take far less. Mind it in threads with small stacks.
 */
struct yakuemi_numbered yakuemi_nodes(uint32_t nx, uint32_t ny, uint32_t nz,
                                      const uint8_t *cuts, size_t cuts_len,
                                      const uint8_t *state, size_t state_len,
                                      uint32_t *rows, size_t rows_len,
                                      uint32_t *nodes, size_t nodes_len);

#ifdef __cplusplus
}
#endif

#endif
