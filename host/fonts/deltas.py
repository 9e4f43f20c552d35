"""Cuts the HVAR and VVAR tables of real fonts and compares, with fontTools, every delta of every listed
glyph under every region record, before and after."""

import random
import sys
from collections import Counter

from common import cut, glyph_lists, variable_fonts
from fontTools.ttLib import TTFont, newTable
from fontTools.ttLib.tables import otTables

MAPS = {
    "hvar": ["AdvWidthMap", "LsbMap", "RsbMap"],
    "vvar": ["AdvHeightMap", "TsbMap", "BsbMap", "VOrgMap"],
}


def opened(kind, data, glyphs):
    """A table read by fontTools, under names g0, g1, .. of this many glyphs."""
    font = TTFont()
    font.setGlyphOrder([f"g{glyph}" for glyph in range(glyphs)])
    table = newTable(kind.upper())
    table.decompile(data, font)
    return table.table


def deltas(table, name, glyph):
    """Region record to delta, where that isn't 0, of a glyph through a map; None for an absent map."""
    map_ = getattr(table, name)
    if map_ is not None:
        index = map_.mapping[f"g{glyph}"]
    elif name.startswith("Adv"):
        index = glyph
    else:
        return None
    store, found = table.VarStore, Counter()
    data = store.VarData[index >> 16]
    row = data.Item[index & 0xFFFF] if index & 0xFFFF < data.ItemCount else []
    for region, delta in zip(data.VarRegionIndex, row):
        record = store.VarRegionList.Region[region].VarRegionAxis
        found[tuple((axis.StartCoord, axis.PeakCoord, axis.EndCoord) for axis in record)] += delta
    return {record: delta for record, delta in found.items() if delta}


def compare(kind, data, glyphs, listed):
    """The deltas compared, those that aren't 0, and those that differ."""
    new_data = cut(kind, data, listed)
    old = opened(kind, data, glyphs)
    new = opened(kind, new_data, max([a for a, _ in listed], default=0) + 1)
    regions = old.VarStore.VarRegionList.RegionCount
    tally = Counter(bytes_before=len(data), bytes_after=len(new_data), cuts=1)
    for name in MAPS[kind]:
        for new_id, old_id in listed:
            before, after = deltas(old, name, old_id), deltas(new, name, new_id)
            if before is not None:
                tally.update(compared=regions, not_zero=len(before))
            tally.update(differ=before != after)
    return tally


def made_vvar(font, glyphs):
    """A VVAR table that fontTools makes from the font's HVAR: its store, and four maps drawn at random."""
    draw = random.Random(glyphs)
    store = font["HVAR"].table.VarStore
    rows = [outer << 16 | row for outer, data in enumerate(store.VarData) for row in range(data.ItemCount)]
    table = otTables.VVAR()
    table.Version, table.VarStore = 0x00010000, store
    order = [f"g{glyph}" for glyph in range(glyphs)]
    for name in MAPS["vvar"]:
        map_ = otTables.VarIdxMap()
        map_.mapping = {glyph: draw.choice(rows) for glyph in order}
        setattr(table, name, map_)
    holder = TTFont()
    holder.setGlyphOrder(order)
    made = newTable("VVAR")
    made.table = table
    return made.compile(holder)


def main(folder):
    total = Counter()
    for name, font in variable_fonts(folder):
        glyphs = font["maxp"].numGlyphs
        tables = [("hvar", "HVAR", font.reader["HVAR"])]
        if "VVAR" in font:
            tables.append(("vvar", "VVAR", font.reader["VVAR"]))
        tables.append(("vvar", "VVAR made by fontTools", made_vvar(font, glyphs)))
        for kind, what, data in tables:
            tally = Counter()
            for _, listed in glyph_lists(glyphs):
                tally.update(compare(kind, data, glyphs, listed))
            print(f"{name}, {what}: {tally['cuts']} cuts, {tally['compared']} deltas, {tally['differ']} differ", flush=True)
            total.update(tally)
    print(
        f"{total['cuts']} cuts of {total['bytes_before']} bytes to {total['bytes_after']}, {total['compared']} deltas compared, "
        f"{total['not_zero']} of them not 0, {total['differ']} rows differ"
    )
    return total["differ"] != 0


sys.exit(main(sys.argv[1]))
