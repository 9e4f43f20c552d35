/* Binlariat: cuts OpenType item variation stores, HVAR and VVAR tables to the rows that are kept.
 *
 * Each call returns 0, or the number of its refusal; the checks are made in a fixed order and the first that fails
 * answers. What a call is lent is its own while it runs: `work` and `out` overlap nothing else. An empty part may
 * come with any pointer that isn't null. Nothing is kept between calls, so calls on different memory may run at the same time.
 *
 * Link with libbinlariat.a, which `tools/archive` writes to target/staticlib.
 */
#ifndef BINLARIAT_H
#define BINLARIAT_H

#include <stddef.h>
#include <stdint.h>

#ifdef __cplusplus
extern "C" {
#endif

/* The numbers that a cut's work area has at least. After every cut but a refusal 1 the first of them are 0; the rest, and
 * all of it after a refusal 1, are as before. */
#define BINLARIAT_WORK 16384

/* The refusals. */
enum binlariat_refusal {
    BINLARIAT_WORK_AREA = 1,        /* the work area is shorter than 16,384 */
    BINLARIAT_BAD_LIST = 2,         /* a list breaks its rules or limit */
    BINLARIAT_BAD_STORE = 3,        /* store under 8 bytes or starting past the end, format not 1, over 256 subtables, offset array past the end */
    BINLARIAT_BAD_REGIONS = 4,      /* region list not inside the store, or over 4,096 regions */
    BINLARIAT_ABSENT_SUBTABLE = 5,  /* a pair's subtable is not in the array or its offset is 0 */
    BINLARIAT_BAD_SUBTABLE = 6,     /* a used subtable does not lie inside the store with all rows, has more words than columns, or over 4,096 columns */
    BINLARIAT_NOTHING_KEPT = 7,     /* keep-empty is off, and the region list offset is 0 or no kept delta is non-zero */
    BINLARIAT_BAD_REGION_INDEX = 8, /* a column with a non-zero kept delta names a region at or past the region count */
    BINLARIAT_MIDDLE_WIDTH = 9,     /* in some column all kept deltas lie in -65536..65535 and one lies outside -32768..32767 */
    BINLARIAT_SHORT_OUTPUT = 10,    /* the output is shorter than the result */
    BINLARIAT_BAD_HEADER = 11,      /* HVAR or VVAR header short, or major not 1 */
    BINLARIAT_BAD_MAP = 12,         /* a present map is not wholly inside the table, has format above 1, count 0, or more inner bits than entry bits */
    BINLARIAT_BAD_OUTER = 13,       /* a kept glyph's pair names an outer at or past the subtable count */
    BINLARIAT_WIDE_ENTRY = 14,      /* a map to be written needs more than 4 bytes an entry */
    BINLARIAT_EMPTY_STORE = 15      /* the table's store has no subtable */
};

/* Cuts a store to the rows of `pairs`, each outer * 65536 + inner, outers not falling, none twice, at most 8,192: each kept row reads
 * the same deltas under the same regions, at its place in the list among those of its outer; a store whose region list offset is 0 gives
 * 8 bytes and no rows. With keep_empty 0 a result in which
 * nothing varies is refused with 7. *written is the length, 0 on a refusal; no other byte of `out` changes. */
uint32_t binlariat_cut_store(const uint8_t *store, size_t store_len, const uint32_t *pairs, size_t pairs_len,
    uint32_t keep_empty, uint32_t *work, size_t work_len, uint8_t *out, size_t out_len, size_t *written);

/* Cuts an HVAR table to `glyphs`, each new * 65536 + old, new ids rising, no id above 65534, at most 2,048: each new id reads through
 * each written map the deltas that its old id read, where the table has a store and that a region list. *written is the length, 0 on a refusal; no other byte of `out` changes. */
uint32_t binlariat_cut_hvar(const uint8_t *table, size_t table_len, const uint32_t *glyphs, size_t glyphs_len,
    uint32_t *work, size_t work_len, uint8_t *out, size_t out_len, size_t *written);

/* The same for a VVAR table. */
uint32_t binlariat_cut_vvar(const uint8_t *table, size_t table_len, const uint32_t *glyphs, size_t glyphs_len,
    uint32_t *work, size_t work_len, uint8_t *out, size_t out_len, size_t *written);

/* Reads one delta of a store: 0 where the item or the column is past its count, and on a refusal (3, 5, 6). */
uint32_t binlariat_read_delta(const uint8_t *store, size_t store_len, uint32_t outer, uint32_t inner, uint32_t column,
    int32_t *delta);

/* Finds one row of a store, as a place in it and a length: both 0 on a refusal (3, 5, 6), for an absent item and for a row
 * of length 0. */
uint32_t binlariat_read_row(const uint8_t *store, size_t store_len, uint32_t outer, uint32_t inner, size_t *start, size_t *len);

/* Reads one glyph's pair from a map, which is lent from its start to the end of what holds it; a glyph at or past the count reads the
 * last entry; both are 0 on a refusal (12). */
uint32_t binlariat_read_entry(const uint8_t *map, size_t map_len, uint32_t glyph, uint32_t *outer, uint32_t *inner);

#ifdef __cplusplus
}
#endif

#endif
