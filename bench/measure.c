/* Routes each row of a file, then inspects, reads and draws its sheet, and prints a line for each call: what was called, the row's class and streets, n, and
   what the count is shared among: nodes, or records of the film. */
#include <stdint.h>
#include <stdio.h>
#include <stdlib.h>
#include <string.h>

uint64_t measure_route(const uint8_t *row, size_t n, uint8_t ku, uint8_t kl, uint8_t *work, size_t work_size, uint8_t *sheet, size_t sheet_size);
uint64_t measure_read(const uint8_t *sheet, size_t size, uint8_t *row, size_t row_size);
uint64_t measure_inspect(const uint8_t *sheet, size_t size);
uint64_t measure_draw(const uint8_t *sheet, size_t size, uint8_t *film, size_t film_size);

enum { MOST = 512 };
#define SIZE(n) (2 + (3 * (n) + 3) / 4)

static uint8_t row[MOST], back[MOST], sheet[SIZE(MOST)], work[90 * MOST], film[5 * 14 * MOST];

/* Called after each call that is counted; callgrind writes its counts when it returns. */
__attribute__((noinline)) void measure_mark(void) { __asm__ volatile("" ::: "memory"); }

static void fail(const char *why, long line) {
    fprintf(stderr, "line %ld: %s\n", line, why);
    exit(1);
}

int main(int argc, char **argv) {
    FILE *in = argc == 2 ? fopen(argv[1], "r") : NULL;
    char class[16], hex[2 * MOST + 1];
    size_t n;
    unsigned ku, kl, byte;
    if (!in) fail("no such file", 0);
    for (long line = 1; fscanf(in, "%15s %zu %u %u %1024s", class, &n, &ku, &kl, hex) == 5; line++) {
        if (n > MOST || strlen(hex) != 2 * n) fail("not a row", line);
        for (size_t i = 0; i < n; i++) {
            if (sscanf(hex + 2 * i, "%2x", &byte) != 1) fail("not a row", line);
            row[i] = byte;
        }
        uint64_t said = measure_route(row, n, ku, kl, work, 90 * n, sheet, sizeof sheet);
        measure_mark();
        printf("route %s %u/%u %zu %zu\n", class, ku, kl, n, n);
        if (said >> 32 == 6) continue;
        if (said != n) fail("neither accepted nor 6", line);
        said = measure_inspect(sheet, SIZE(n));
        measure_mark();
        printf("inspect %s %u/%u %zu %zu\n", class, ku, kl, n, n);
        if (said != 0) fail("its sheet is refused", line);
        said = measure_read(sheet, SIZE(n), back, sizeof back);
        measure_mark();
        printf("read %s %u/%u %zu %zu\n", class, ku, kl, n, n);
        if (said != n) fail("its sheet is not read", line);
        said = measure_draw(sheet, SIZE(n), film, sizeof film);
        measure_mark();
        if (said >> 32) fail("its sheet is not drawn", line);
        printf("draw %s %u/%u %zu %zu\n", class, ku, kl, n, (size_t)said);
    }
    return 0;
}
