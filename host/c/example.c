/* Cuts document 01's store S to its rows 0 and 2, reads the result back, and cuts an HVAR table over S.
 * Prints what it does; returns the number of answers that aren't document 01's. */
#include <stdio.h>
#include <string.h>

#include "binlariat.h"

static const uint8_t S[47] = {
    0x00, 0x01, 0x00, 0x00, 0x00, 0x0C, 0x00, 0x01, 0x00, 0x00, 0x00, 0x1C,                         /* store */
    0x00, 0x01, 0x00, 0x02, 0x00, 0x00, 0x40, 0x00, 0x40, 0x00, 0xC0, 0x00, 0xC0, 0x00, 0x00, 0x00, /* region list */
    0x00, 0x03, 0x00, 0x01, 0x00, 0x02, 0x00, 0x00, 0x00, 0x01,                                     /* subtable */
    0x00, 0x64, 0x00, 0xFF, 0x38, 0x05, 0x00, 0x0A, 0x00,                                           /* rows */
};

static const uint8_t P1[32] = {
    0x00, 0x01, 0x00, 0x00, 0x00, 0x0C, 0x00, 0x01, 0x00, 0x00, 0x00, 0x16, 0x00, 0x01, 0x00, 0x01,
    0x00, 0x00, 0x40, 0x00, 0x40, 0x00, 0x00, 0x02, 0x00, 0x00, 0x00, 0x01, 0x00, 0x00, 0x64, 0x0A,
};

static int wrong;

static void expect(const char *what, int right) {
    printf("%s: %s\n", what, right ? "ok" : "WRONG");
    wrong += !right;
}

static uint32_t work[BINLARIAT_WORK];

static void store(void) {
    const uint32_t pairs[] = {0 << 16 | 0, 0 << 16 | 2};
    uint8_t out[64];
    size_t written;
    uint32_t number = binlariat_cut_store(S, sizeof S, pairs, 2, 0, work, BINLARIAT_WORK, out, sizeof out, &written);
    expect("rows 0 and 2 of S are the 32 bytes of P1", number == 0 && written == 32 && !memcmp(out, P1, 32));

    int32_t delta;
    number = binlariat_read_delta(out, written, 0, 1, 0, &delta);
    expect("row 1 of the cut reads 10", number == 0 && delta == 10);

    size_t start, len;
    number = binlariat_read_row(out, written, 0, 1, &start, &len);
    expect("row 1 of the cut is its last byte", number == 0 && start == 31 && len == 1);

    number = binlariat_cut_store(S, sizeof S, pairs, 2, 0, work, BINLARIAT_WORK, out, 31, &written);
    expect("31 bytes of output are too few", number == BINLARIAT_SHORT_OUTPUT && written == 0);
}

static void table(void) {
    uint8_t hvar[20 + sizeof S] = {0, 1, 0, 0, 0, 0, 0, 20};
    memcpy(hvar + 20, S, sizeof S);
    const uint32_t glyphs[] = {0 << 16 | 0, 1 << 16 | 2};
    uint8_t out[64];
    size_t written;
    uint32_t number = binlariat_cut_hvar(hvar, sizeof hvar, glyphs, 2, work, BINLARIAT_WORK, out, sizeof out, &written);
    expect("HVAR of glyphs 0 and 2 has 58 bytes", number == 0 && written == 58 && !memcmp(out + 20, P1, 32));

    uint32_t outer, inner;
    number = binlariat_read_entry(out + 52, written - 52, 1, &outer, &inner);
    expect("its new glyph 1 reads row 1", number == 0 && outer == 0 && inner == 1);

    number = binlariat_cut_vvar(hvar, 20, glyphs, 2, work, BINLARIAT_WORK, out, sizeof out, &written);
    expect("20 bytes are no VVAR header", number == BINLARIAT_BAD_HEADER && written == 0);
}

int main(void) {
    store();
    table();
    return wrong;
}
