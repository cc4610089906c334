/* Routes a row, reads its sheet back and draws its wires. Each character of the row is a label, and an underscore is a blank.
 *
 *     scripts/staticlib capi && cc -std=c11 -Iinclude -o target/route_row examples/route_row.c target/staticlib/libcapi.a && target/route_row 2 1 abcbac
 */
#include "niraflue.h"

#include <stdio.h>
#include <stdlib.h>
#include <string.h>

static void refused(const char *what, uint64_t answer) {
    printf("%s: refused %u at %u\n", what, niraflue_number(answer), niraflue_place(answer));
}

/* Of exactly `size` bytes, so that a checker of memory sees any byte beyond. */
static uint8_t *buffer(size_t size) {
    uint8_t *made = malloc(size ? size : 1);
    if (!made) {
        fprintf(stderr, "no memory\n");
        exit(2);
    }
    return made;
}

static void print_bytes(const char *what, const uint8_t *bytes, size_t count) {
    printf("%s:", what);
    for (size_t i = 0; i < count; i++) printf(" %02x", bytes[i]);
    printf("\n");
}

/* `width` bits of a record, from bit `from`, most significant first. */
static unsigned field(const uint8_t *record, unsigned from, unsigned width) {
    unsigned value = 0;
    for (unsigned i = from; i < from + width; i++) value = value * 2 + (record[i / 8] >> (7 - i % 8) & 1);
    return value;
}

static void print_record(const uint8_t *record) {
    unsigned net = field(record, 1, 8);
    int level = (int)field(record, 9, 4) - 4;
    if (field(record, 0, 1) == 0)
        printf("  net %u on level %d from column %u to %u\n", net, level, field(record, 13, 13), field(record, 26, 13));
    else
        printf("  net %u at column %u from level %d to %d\n", net, field(record, 13, 13), level, (int)field(record, 26, 4) - 4);
}

static int draw(const uint8_t *sheet, size_t size, size_t n) {
    uint8_t *film = buffer(NIRAFLUE_FILM_SIZE(n));
    uint64_t answer = niraflue_draw(sheet, size, film, NIRAFLUE_FILM_SIZE(n));
    if (niraflue_number(answer) != 0) {
        refused("draw", answer);
    } else {
        printf("film: %u records\n", niraflue_place(answer));
        for (uint32_t i = 0; i < niraflue_place(answer); i++) print_record(film + NIRAFLUE_RECORD_SIZE * i);
    }
    free(film);
    return niraflue_number(answer) != 0;
}

static int read_back(const uint8_t *sheet, size_t size, size_t n) {
    uint8_t *row = buffer(n);
    uint64_t answer = niraflue_read(sheet, size, row, n);
    if (niraflue_number(answer) != 0)
        refused("read", answer);
    else
        print_bytes("row", row, niraflue_place(answer));
    free(row);
    return niraflue_number(answer) != 0;
}

static void fill_row(uint8_t *row, const char *labels, size_t n) {
    for (size_t i = 0; i < n; i++) row[i] = labels[i] == '_' ? NIRAFLUE_BLANK : (uint8_t)labels[i];
}

int main(int argc, char **argv) {
    if (argc != 4) {
        fprintf(stderr, "usage: %s KU KL LABELS\n", argv[0]);
        return 2;
    }
    size_t n = strlen(argv[3]);
    size_t size = NIRAFLUE_SHEET_SIZE(n);
    uint8_t *row = buffer(n), *work = buffer(NIRAFLUE_WORK_SIZE(n)), *sheet = buffer(size);
    fill_row(row, argv[3], n);
    uint64_t answer = niraflue_route(row, n, (uint8_t)atoi(argv[1]), (uint8_t)atoi(argv[2]), work, NIRAFLUE_WORK_SIZE(n), sheet, size);
    int failed = 0;
    if (niraflue_number(answer) != 0) {
        refused("route", answer);
    } else {
        print_bytes("sheet", sheet, size);
        failed = read_back(sheet, size, n);
        printf("agrees: %s\n", niraflue_agrees(row, n, sheet, size) ? "yes" : "no");
        failed = draw(sheet, size, n) || failed;
    }
    free(row);
    free(work);
    free(sheet);
    return failed;
}
