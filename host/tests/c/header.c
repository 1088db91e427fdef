/* Reads, audits and writes the requirements paper's mesh of three faults through the header, with tables just large enough. */
#include "ravneket.h"
#include <stdio.h>
#include <string.h>

static const char faulty[] =
    "(2 2)(10 (0 1 3 0 2))(12 (0 1 1 0))(13 (0 1 3 0))\n"
    "(10 (1 1 3 1 2)(0 0 1 0 0 1))(12 (2 1 1 1 1))\n"
    "(13 (3 1 3 3 2)(1 2 0 1 2 3 0 1 3 4 0 2))\n";

static int64_t mantissas[9];
static int32_t exponents[9];
static uint32_t faces[24], cells[2], zones[18], counts[2];
static uint64_t answer[RAVNEKET_READ_WORDS], found[RAVNEKET_AUDIT_WORDS];
static int wrong;

#define CHECK(holds)                                             \
    do {                                                         \
        if (!(holds)) {                                          \
            printf("line %d does not hold: %s\n", __LINE__, #holds); \
            wrong = 1;                                           \
        }                                                        \
    } while (0)

static uint32_t read_with(size_t face_words, size_t zone_words) {
    memset(answer, 0xff, sizeof answer);
    return ravneket_read((const uint8_t *)faulty, strlen(faulty), mantissas, 9, exponents, 9, faces, face_words, cells, 2,
                         zones, zone_words, answer, RAVNEKET_READ_WORDS);
}

static void check_reader(void) {
    static const uint32_t last[8] = {2, 3, 4, 0, 0, 0, 2, 3};
    static const uint32_t records[18] = {10, 1, 1, 3, 1, 0, 12, 2, 1, 1, 1, 1, 13, 3, 1, 3, 3, 2};
    static const uint64_t read[7] = {0, 0, 2, 3, 3, 1, 3};
    static const uint64_t refused[7] = {4, 42, 0, 0, 0, 0, 0};

    /* One word short of three rows: refused at the first word of the face declaration, and nothing is written. */
    CHECK(read_with(23, 18) == RAVNEKET_TABLE_ROOM);
    CHECK(memcmp(answer, refused, sizeof refused) == 0);
    CHECK(zones[0] == 0 && cells[0] == 0 && mantissas[2] == 0);
    CHECK(read_with(24, 17) == RAVNEKET_ZONE_ROOM);
    CHECK(read_with(24, 18) == RAVNEKET_ACCEPTED);
    CHECK(memcmp(answer, read, sizeof read) == 0);
    CHECK(memcmp(faces + 16, last, sizeof last) == 0);
    CHECK(memcmp(zones, records, sizeof records) == 0);
    CHECK(mantissas[3] == 1 && exponents[3] == 0 && cells[0] == 1 && cells[1] == 1);
}

static uint32_t audit_with(uint32_t dimension, size_t count_words, uint8_t *list, size_t room) {
    memset(found, 0xff, sizeof found);
    return ravneket_audit(dimension, 3, 3, 1, faces, 24, cells, 2, counts, count_words, list, room, found,
                          RAVNEKET_AUDIT_WORDS);
}

static void check_audit(void) {
    static const uint8_t due[14] = {2, 0, 3, 1, 4, 0, 3, 1, 9, 0, 1, 0, 0, 2};
    uint8_t list[16];

    memset(list, 0xee, sizeof list);
    counts[1] = 77;
    CHECK(audit_with(2, 2, list, 14) == RAVNEKET_ACCEPTED);
    CHECK(found[RAVNEKET_TOTAL] == 3 && found[RAVNEKET_BYTES] == 14);
    CHECK(memcmp(list, due, 14) == 0 && list[14] == 0xee);
    CHECK(counts[0] == 2 && counts[1] == 77);

    /* One byte short: the third record is left out, the total stays. */
    memset(list, 0xee, sizeof list);
    CHECK(audit_with(2, 2, list, 13) == RAVNEKET_ACCEPTED);
    CHECK(found[RAVNEKET_TOTAL] == 3 && found[RAVNEKET_BYTES] == 8);
    CHECK(memcmp(list, due, 8) == 0 && list[8] == 0xee);

    CHECK(audit_with(4, 2, list, 14) == RAVNEKET_AUDIT_DIMENSION);
    CHECK(audit_with(2, 0, list, 14) == RAVNEKET_AUDIT_COUNTS);
    CHECK(found[RAVNEKET_TOTAL] == 0 && found[RAVNEKET_BYTES] == 0);
}

static void check_report(void) {
    static const char due[] = "faults 3\n2 3 1\n4 3 1\n9 1 2\n";
    uint8_t out[64];

    memset(out, 0xee, sizeof out);
    CHECK(ravneket_report((const uint8_t *)faulty, strlen(faulty), out, sizeof out) == strlen(due));
    CHECK(memcmp(out, due, strlen(due)) == 0 && out[strlen(due)] == 0xee);
    CHECK(ravneket_report((const uint8_t *)faulty, strlen(faulty), out, 6) == 6);
}

static uint32_t write_with(uint32_t dimension, size_t zone_words, uint8_t *text, size_t room, uint64_t *length) {
    *length = 77;
    return ravneket_write(dimension, 3, 3, 1, mantissas, 9, exponents, 9, faces, 24, cells, 2, zones, zone_words, text, room,
                          length, RAVNEKET_WRITE_WORDS);
}

/* Over the tables that check_reader has filled. */
static void check_writer(void) {
    static const char due[] =
        "(2 2)\n(10 (0 1 3 0 2))\n(12 (0 1 1 0 0))\n(13 (0 1 3 0 0))\n"
        "(10 (1 1 3 1 2)(\n0e0 0e0\n1e0 0e0\n0e0 1e0))\n"
        "(12 (2 1 1 1 1))\n"
        "(13 (3 1 3 3 2)(\n1 2 0 1\n2 3 0 1\n3 4 0 2))\n";
    uint8_t text[256];
    uint64_t length;

    memset(text, 0xee, sizeof text);
    CHECK(write_with(2, 18, text, strlen(due) - 1, &length) == RAVNEKET_TEXT_ROOM && length == 0);
    /* The last record is not whole: the faces are in none. */
    CHECK(write_with(2, 17, text, sizeof text, &length) == RAVNEKET_UNWRITABLE && length == 0);
    CHECK(write_with(4, 18, text, 0, &length) == RAVNEKET_UNWRITABLE && length == 0);
    CHECK(text[0] == 0xee && text[strlen(due) - 2] == 0xee);
    CHECK(write_with(2, 18, text, strlen(due), &length) == RAVNEKET_ACCEPTED && length == strlen(due));
    CHECK(memcmp(text, due, strlen(due)) == 0 && text[strlen(due)] == 0xee);
}

int main(void) {
    check_reader();
    check_audit();
    check_report();
    check_writer();
    if (!wrong) {
        printf("all holds\n");
    }
    return wrong;
}
