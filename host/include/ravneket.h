/* The proved reader, audit and writer of Fluent/TGrid text meshes, for C.
 *
 * Link with libboundary.a (x86-64 Linux); it needs memcpy and memset from the C library and nothing else.
 *
 * Rules for all pointers:
 *   - none may be null, not even one with length 0: lend the address of any object of its type;
 *   - each must be aligned for its type and valid for its length, which counts elements, not bytes;
 *   - memory that is written (pointers without const) must not overlap any other memory lent to the same call.
 *     Memory that is only read may.
 * Beyond these nothing is asked: any bytes, words, totals and lengths may be given; bad ones are refused by number.
 *
 * Threads: the functions keep no state, allocate nothing and call nothing back. Any number of threads may call them
 * at once on memory of their own.
 *
 * Example: read a mesh, count its faults and write it again.
 *
 *     static int64_t mantissas[3 * RAVNEKET_MAX_ROWS];
 *     static int32_t exponents[3 * RAVNEKET_MAX_ROWS];
 *     static uint32_t faces[8 * RAVNEKET_MAX_ROWS], cells[2 * RAVNEKET_MAX_ROWS], zones[6 * RAVNEKET_MAX_ZONES];
 *     static uint32_t counts[RAVNEKET_MAX_ROWS];
 *     static uint8_t list[4096], out[RAVNEKET_MAX_BYTES];
 *     uint64_t read[RAVNEKET_READ_WORDS], found[RAVNEKET_AUDIT_WORDS], written[RAVNEKET_WRITE_WORDS];
 *
 *     uint32_t number = ravneket_read(text, length, mantissas, 3 * RAVNEKET_MAX_ROWS, exponents, 3 * RAVNEKET_MAX_ROWS,
 *                                     faces, 8 * RAVNEKET_MAX_ROWS, cells, 2 * RAVNEKET_MAX_ROWS,
 *                                     zones, 6 * RAVNEKET_MAX_ZONES, read, RAVNEKET_READ_WORDS);
 *     if (number != 0) {
 *         printf("refused %u in section %llu at byte %llu\n", number,
 *                (unsigned long long)read[RAVNEKET_SECTION], (unsigned long long)read[RAVNEKET_OFFSET]);
 *         return;
 *     }
 *     ravneket_audit(read[RAVNEKET_DIMENSION], read[RAVNEKET_NODES], read[RAVNEKET_FACES], read[RAVNEKET_CELLS],
 *                    faces, 8 * RAVNEKET_MAX_ROWS, cells, 2 * RAVNEKET_MAX_ROWS, counts, RAVNEKET_MAX_ROWS,
 *                    list, sizeof list, found, RAVNEKET_AUDIT_WORDS);
 *     printf("%llu faults, %llu bytes of records\n", (unsigned long long)found[RAVNEKET_TOTAL],
 *            (unsigned long long)found[RAVNEKET_BYTES]);
 *     number = ravneket_write(read[RAVNEKET_DIMENSION], read[RAVNEKET_NODES], read[RAVNEKET_FACES], read[RAVNEKET_CELLS],
 *                             mantissas, 3 * RAVNEKET_MAX_ROWS, exponents, 3 * RAVNEKET_MAX_ROWS,
 *                             faces, 8 * RAVNEKET_MAX_ROWS, cells, 2 * RAVNEKET_MAX_ROWS,
 *                             zones, 6 * read[RAVNEKET_ZONES], out, sizeof out, written, RAVNEKET_WRITE_WORDS);
 *     if (number == 0) {
 *         fwrite(out, 1, written[RAVNEKET_LENGTH], stdout);
 *     }
 */
#ifndef RAVNEKET_H
#define RAVNEKET_H

#include <stddef.h>
#include <stdint.h>

#ifdef __cplusplus
extern "C" {
#endif

/* Sizes. */
#define RAVNEKET_MAX_BYTES 8388608 /* of a file */
#define RAVNEKET_MAX_ROWS 65535    /* nodes, faces and cells, each; zone ids too */
#define RAVNEKET_MAX_ZONES 64      /* regular sections, all kinds together */

/* Refusals. 1 to 14 come from ravneket_read, 15 to 17 from ravneket_audit, 18 and 19 from ravneket_write. */
enum ravneket_refusal {
    RAVNEKET_ACCEPTED = 0,
    RAVNEKET_TOO_LONG = 1,         /* the file is over RAVNEKET_MAX_BYTES; section 0, offset 0 */
    RAVNEKET_GRAMMAR = 2,          /* a token of the wrong sort for its place */
    RAVNEKET_NUMBER = 3,           /* a word that is not a number of its sort */
    RAVNEKET_BINARY = 4,           /* a section id from 2000 to 3999 */
    RAVNEKET_UNDECLARED = 5,       /* a regular section before its declaration, or a second declaration */
    RAVNEKET_RANGE = 6,            /* indices or a zone id outside what is allowed */
    RAVNEKET_TABLE_ROOM = 7,       /* a declared total needs more whole rows than a table lent has */
    RAVNEKET_OVERLAP = 8,          /* an index that an earlier section of its kind has */
    RAVNEKET_TYPE = 9,             /* a dimension, type or element that is not listed */
    RAVNEKET_DIMENSION_REFUSED = 10, /* a dimension that disagrees, or none is known */
    RAVNEKET_ZONE_ROOM = 11,       /* a 65th regular section, or one more than the zone list lent holds */
    RAVNEKET_DEPTH = 12,           /* parentheses 65 deep */
    RAVNEKET_MISSING = 13,         /* nodes or faces never declared */
    RAVNEKET_UNTILED = 14,         /* a declared index in no section */
    RAVNEKET_AUDIT_DIMENSION = 15, /* the dimension is neither 2 nor 3 */
    RAVNEKET_AUDIT_TOTALS = 16,    /* a total over RAVNEKET_MAX_ROWS, or over the whole rows lent */
    RAVNEKET_AUDIT_COUNTS = 17,    /* fewer counts lent than there are cells */
    RAVNEKET_UNWRITABLE = 18,      /* tables that no text could give; see ravneket_write */
    RAVNEKET_TEXT_ROOM = 19        /* a text longer than the bytes lent, or than RAVNEKET_MAX_BYTES */
};

/* Places in the answer of ravneket_read. A refusal fills section and offset and sets the others to 0; else section and
 * offset are 0. The section is the number of top-level opening parentheses up to the place, the offset the number of
 * bytes before it. */
#define RAVNEKET_SECTION 0
#define RAVNEKET_OFFSET 1
#define RAVNEKET_DIMENSION 2 /* 2 or 3 */
#define RAVNEKET_NODES 3
#define RAVNEKET_FACES 4
#define RAVNEKET_CELLS 5
#define RAVNEKET_ZONES 6
#define RAVNEKET_READ_WORDS 7

/* Reads a mesh text into lent tables. Returns 0, or the number of the refusal.
 *
 *   mantissas  three to a node: a coordinate is its mantissa times ten to the power of its exponent; the mantissa is
 *   exponents  not divisible by ten, zero is 0 and 0; the third of each is 0 in two dimensions
 *   faces      eight words to a face: node count (2 to 4), four nodes (unused ones 0), right cell, left cell, zone type
 *   cells      two words to a cell: element (1 to 6), zone type
 *   zones      six words to a regular section, in file order: section id (10 nodes, 12 cells, 13 faces), zone, first
 *              index, last index, type, element (0 for nodes)
 *   answer     the places above, as many as it has room for
 *
 * Row i (from 1) starts at (i - 1) times the words of a row. Words of a last row that is not whole are not used. Rows
 * and records beyond the totals stay as they were. A refusal changes the answer and nothing else.
 */
uint32_t ravneket_read(const uint8_t *text, size_t text_len,
                       int64_t *mantissas, size_t mantissas_len,
                       int32_t *exponents, size_t exponents_len,
                       uint32_t *faces, size_t faces_len,
                       uint32_t *cells, size_t cells_len,
                       uint32_t *zones, size_t zones_len,
                       uint64_t *answer, size_t answer_len);

/* Places in the answer of ravneket_audit. A refusal sets both to 0. */
#define RAVNEKET_TOTAL 0 /* how many faults there are */
#define RAVNEKET_BYTES 1 /* how many bytes of the list were written */
#define RAVNEKET_AUDIT_WORDS 2

/* Audits tables, which may hold any words. Returns 0, or the number of the refusal (15, 16 or 17).
 *
 *   nodes, faces, cells    the totals
 *   face_rows, cell_rows   rows as ravneket_read fills them
 *   counts                 for cells 1 to `cells` how many face sides name each; later ones stay
 *   list                   records one behind the other; writing stops at the first that does not fit. Bytes behind the
 *                          last record stay. Six bytes for each fault are always enough.
 *   answer                 the places above, as many as it has room for
 *
 * A record is one byte of kind, then a body; numbers are big-endian. Faces and cells (2 bytes) count from 1, positions
 * (1 byte) from 0; side (1 byte) is 0 right, 1 left; a count has 3 bytes.
 *
 *   kind  bytes  body            fault
 *   1     3      face            node count is not 2 (flat) or not 3 or 4 (solid)
 *   2     4      face, position  node is 0 or above the number of nodes
 *   3     4      face, position  node equals one at an earlier position of this face
 *   4     4      face, side      cell above the number of cells
 *   5     3      face            both sides name the same cell, not 0
 *   6     3      face            there are cells, type 2 or 1002 (interior), a side is 0
 *   7     3      face            there are cells, both sides are 0
 *   8     3      cell            element not 1, 3 (flat) or 2, 4, 5, 6 (solid)
 *   9     6      cell, count     type not 0, element 1 to 6, count not 3, 4, 4, 6, 5, 5 for elements 1 to 6
 *
 * A refusal changes the answer and nothing else.
 */
uint32_t ravneket_audit(uint32_t dimension, uint32_t nodes, uint32_t faces, uint32_t cells,
                        const uint32_t *face_rows, size_t face_rows_len,
                        const uint32_t *cell_rows, size_t cell_rows_len,
                        uint32_t *counts, size_t counts_len,
                        uint8_t *list, size_t list_len,
                        uint64_t *answer, size_t answer_len);

/* What the report program prints of a text of at most 65,536 bytes (1,024 nodes, faces and cells, 64 zones, 4,096 bytes
 * of records): as many of its bytes as `out` has room for; 16,384 are always enough. Returns how many these are. */
size_t ravneket_report(const uint8_t *text, size_t text_len, uint8_t *out, size_t out_len);

/* The place in the answer of ravneket_write. */
#define RAVNEKET_LENGTH 0 /* how many bytes the text has, 0 in a refusal */
#define RAVNEKET_WRITE_WORDS 1

/* Writes tables as a mesh text. Returns 0, or the number of the refusal (18 or 19). To given tables belongs one text;
 * ravneket_read, with as much room, gets the same rows, records, totals and dimension from it.
 *
 *   nodes, faces, cells    the totals; rows behind them are not looked at
 *   mantissas, exponents,
 *   face_rows, cell_rows   rows as ravneket_read fills them
 *   zones                  records as ravneket_read fills them. Every whole record lent is a section, so lend six words
 *                          for each and no more.
 *   text                   the text; bytes behind it stay. RAVNEKET_MAX_BYTES are always enough.
 *   answer                 the place above, if it has room for it
 *
 * 18 comes first, and says that reading could never leave such tables:
 *   - the dimension is neither 2 nor 3; a total is over RAVNEKET_MAX_ROWS or over the whole rows lent; there are over
 *     RAVNEKET_MAX_ZONES records;
 *   - a record has a section id other than 10, 12 and 13, a zone of 0 or over RAVNEKET_MAX_ROWS, a first of 0, a last
 *     below its first or above its kind's total, a type or an element that its kind can't have (0 for nodes);
 *   - an index is in two records of its kind, or in none;
 *   - a row's type is not its record's, nor its node count (faces) or element (cells) where the record's is not 0;
 *     where it is 0 a count is not 2 to 4 or an element not 1 to 6;
 *   - a node place that a face does not use is not 0, nor in two dimensions the third pair of a node;
 *   - a mantissa is divisible by ten and not 0, or has over 18 digits; an exponent is not 0 where its mantissa is, or
 *     outside -400 to 400.
 * Nodes and cells that a face names are written as they stand: whether the mesh has them is for ravneket_audit.
 * 19 comes exactly when the text is longer than text_len or than RAVNEKET_MAX_BYTES.
 *
 * A refusal changes the answer and nothing else.
 */
uint32_t ravneket_write(uint32_t dimension, uint32_t nodes, uint32_t faces, uint32_t cells,
                        const int64_t *mantissas, size_t mantissas_len,
                        const int32_t *exponents, size_t exponents_len,
                        const uint32_t *face_rows, size_t face_rows_len,
                        const uint32_t *cell_rows, size_t cell_rows_len,
                        const uint32_t *zones, size_t zones_len,
                        uint8_t *text, size_t text_len,
                        uint64_t *answer, size_t answer_len);

#ifdef __cplusplus
}
#endif

#endif
