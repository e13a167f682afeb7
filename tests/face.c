/* Sheet A through the C face: the answer of each call, and the slots that it names, against what the paper says. */
#include "oboefinch.h"

#include <stdio.h>
#include <string.h>

static int failures;

static void expect(const char *what, uint64_t want, uint64_t got)
{
    if (want != got) {
        printf("face: %s is %llu and not %llu\n", what, (unsigned long long)got, (unsigned long long)want);
        failures++;
    }
}

static uint64_t packed(uint64_t number, uint64_t x, uint64_t y, uint64_t z)
{
    return number + 256 * x + 65536 * y + 4294967296u * z;
}

int main(int argc, char **argv)
{
    static uint8_t sheet[40961], again[40961];
    static uint16_t clocks[24], values[24], lamports[8], chain[31];
    static uint32_t masks[8];
    static uint8_t answers[8], marks[5];
    static double percent[2];
    static const uint32_t want_masks[8] = {1, 4, 0, 3, 0, 6, 0, 0};
    static const uint16_t want_last[3] = {3, 4, 1};
    static const uint16_t want_lamports[8] = {1, 1, 2, 3, 4, 5, 4, 6};
    static const uint16_t no_lamports[8] = {0};
    static const uint8_t lines[24] = {1, 0, 3, 0, 3, 0, 1, 0, 7, 0, 2, 0, 7, 0, 0, 0, 2, 0, 8, 0, 0, 0, 3, 0};
    static const uint8_t want_marks[5] = {1, 0, 1, 0, 9};
    uint8_t *list = sheet + 24;
    FILE *file = argc == 2 ? fopen(argv[1], "rb") : NULL;
    size_t size = file ? fread(sheet, 1, sizeof sheet, file) : 0;

    expect("the size of sheet A", 116, size);
    expect("read", packed(0, 3, 8, 6), oboefinch_read(sheet, size, clocks, 24, masks, 8, values, 24));
    expect("the masks", 0, memcmp(masks, want_masks, sizeof masks) != 0);
    expect("the last clock", 0, memcmp(clocks + 21, want_last, sizeof want_last) != 0);
    expect("class", packed(0, 0, 8, 6), oboefinch_class(3, list, 64, clocks, 24, masks, 8, values, 24, answers, 8));
    expect("read_lamport", packed(0, 3, 8, 6), oboefinch_read_lamport(sheet, size, clocks, 24, masks, 8, values, 24, lamports, 8));
    expect("the Lamport numbers", 0, memcmp(lamports, want_lamports, sizeof lamports) != 0);
    memset(lamports, 0, sizeof lamports);
    expect("class_lamport", packed(0, 0, 8, 6),
           oboefinch_class_lamport(3, list, 64, clocks, 24, masks, 8, values, 24, answers, 8, lamports, 8));
    expect("the Lamport numbers of class", 0, memcmp(lamports, want_lamports, sizeof lamports) != 0);
    expect("a short buffer of Lamport numbers", packed(9, 0, 0, 0),
           oboefinch_read_lamport(sheet, size, clocks, 24, masks, 8, values, 24, lamports, 7));
    expect("the Lamport numbers after 9", 0, memcmp(lamports, want_lamports, sizeof lamports) != 0);
    expect("write", packed(0, 0, 8, 116), oboefinch_write(3, list, 64, clocks, 24, masks, 8, values, 24, again, sizeof again));
    expect("the sheet written", 0, memcmp(sheet, again, 116) != 0);
    expect("1 and 3", packed(0, 3, 0, 0), oboefinch_compare(3, list, 64, clocks, 24, masks, 8, values, 24, 1, 3));
    expect("1 and 7", packed(0, 1, 0, 0), oboefinch_compare(3, list, 64, clocks, 24, masks, 8, values, 24, 1, 7));
    expect("the chain's length", packed(0, 0, 0, 2), oboefinch_chain(3, list, 64, clocks, 24, masks, 8, values, 24, 1, 7, chain, 2));
    expect("the chain's first send", 1, chain[0]);
    expect("the chain's second send", 5, chain[1]);
    expect("behind the chain", 0, chain[2]);
    expect("a chain in 31 slots", packed(0, 0, 0, 2), oboefinch_chain(3, list, 64, clocks, 24, masks, 8, values, 24, 1, 7, chain, 31));
    memset(marks, 9, sizeof marks);
    expect("mark", packed(0, 0, 2, 4), oboefinch_mark(sheet, size, lines, 24, clocks, 24, masks, 8, values, 24, marks, 4));
    expect("the marks", 0, memcmp(marks, want_marks, sizeof marks) != 0);
    expect("half a line", packed(30, 0, 0, 0), oboefinch_mark(sheet, size, lines, 21, clocks, 24, masks, 8, values, 24, marks, 4));
    expect("the first clock after 30", 1, clocks[0]);
    expect("too few marks", packed(21, 0, 0, 0), oboefinch_mark(sheet, size, lines, 24, clocks, 24, masks, 8, values, 24, marks, 3));
    expect("the first clock after 21", 0, clocks[0]);
    expect("the marks after 21", 0, memcmp(marks, want_marks, sizeof marks) != 0);
    percent[0] = percent[1] = 9.5;
    expect("savings", packed(0, 1, 0, 0), oboefinch_savings(sheet, size, clocks, 24, masks, 8, values, 24, percent, 2));
    expect("the percentage", 1, percent[0] == 50.0);
    expect("behind the percentage", 1, percent[1] == 9.5);
    expect("no slot for a percentage", packed(21, 0, 0, 0),
           oboefinch_savings(sheet, size, clocks, 24, masks, 8, values, 24, NULL, 0));
    expect("the first clock after no slot", 0, clocks[0]);
    expect("read again", packed(0, 3, 8, 6), oboefinch_read(sheet, size, clocks, 24, masks, 8, values, 24));
    expect("2 and 2", packed(0, 4, 0, 0), oboefinch_compare(3, list, 64, clocks, 24, masks, 8, values, 24, 2, 2));
    expect("order", packed(0, 1, 0, 0), oboefinch_order(clocks, 3, clocks + 21, 3));
    expect("a chain in one slot", packed(21, 0, 0, 0), oboefinch_chain(3, list, 64, clocks, 24, masks, 8, values, 24, 1, 7, chain, 1));
    expect("a short sheet", packed(1, 0, 0, 0), oboefinch_read(sheet, 23, clocks, 24, masks, 8, values, 24));
    expect("a short buffer", packed(9, 0, 0, 0), oboefinch_read(sheet, size, clocks, 23, masks, 8, values, 24));
    expect("an empty sheet", packed(1, 0, 0, 0), oboefinch_read(NULL, 0, NULL, 0, NULL, 0, NULL, 0));
    sheet[44] ^= 2; /* message 3 is not yet sent */
    expect("a damaged event", packed(15, 0, 2, 0), oboefinch_read(sheet, size, clocks, 24, masks, 8, values, 24));
    expect("a cleared mask", 0, masks[0]);
    expect("a damaged event, with numbers asked for", packed(15, 0, 2, 0),
           oboefinch_read_lamport(sheet, size, clocks, 24, masks, 8, values, 24, lamports, 8));
    expect("the cleared Lamport numbers", 0, memcmp(lamports, no_lamports, sizeof lamports) != 0);
    return failures != 0;
}
