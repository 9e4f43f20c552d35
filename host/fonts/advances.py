"""Puts the cut HVAR table of real fonts into copies of them and compares, with HarfBuzz's hb-shape, the advances of
the listed glyphs at several instances, before and after."""

import itertools
import json
import pathlib
import subprocess
import sys
import tempfile
from collections import Counter

from common import MOST, cut, variable_fonts
from fontTools.ttLib.tables.DefaultTable import DefaultTable


def instances(font):
    """Settings of the axes: each at its least, default, greatest and two values between, in every combination."""
    axes = font["fvar"].axes
    values = []
    for axis in axes:
        low, high = axis.minValue, axis.maxValue
        values.append(sorted({low, axis.defaultValue, high, low + (high - low) / 3, low + (high - low) * 0.8}))
    for setting in itertools.product(*values):
        yield ",".join(f"{axis.axisTag}={value:g}" for axis, value in zip(axes, setting))


def advances(path, setting, characters):
    """Glyph and advance of each character, without substitution or kerning."""
    unicodes = ",".join(f"U+{character:04X}" for character in characters)
    words = ["hb-shape", "--shapers=fallback", "--font-funcs=ot", "--output-format=json", "--no-glyph-names", "--no-clusters"]
    ran = subprocess.run(
        [*words, f"--variations={setting}", f"--unicodes={unicodes}", path], capture_output=True, text=True, check=True
    )
    return [(glyph["g"], glyph["ax"]) for glyph in json.loads(ran.stdout)]


def plain_copy(font, path, table=None):
    """The font as a plain file, with another HVAR table or its own."""
    if table is not None:
        font["HVAR"] = DefaultTable("HVAR")
        font["HVAR"].data = table
    font.flavor = None
    font.save(path, reorderTables=None)


def check(font, folder):
    """The advances compared, those that the instance changes, and those that differ."""
    before, after = str(pathlib.Path(folder, "before.ttf")), str(pathlib.Path(folder, "after.ttf"))
    data = font.reader["HVAR"]
    characters = sorted(font.getBestCmap())[:400]
    ids = sorted({font.getGlyphID(font.getBestCmap()[character]) for character in characters})[:MOST]
    plain_copy(font, before)
    plain_copy(font, after, cut("hvar", data, [(glyph, glyph) for glyph in ids]))
    tally, default = Counter(), None
    for setting in instances(font):
        old, new = advances(before, setting, characters), advances(after, setting, characters)
        default = default or old
        tally.update(instances=1, compared=len(old))
        tally.update(moved=sum(a != b for a, b in zip(old, default)), differ=sum(a != b for a, b in zip(old, new)))
        tally.update(differ=len(old) != len(new))
    return tally


def main(folder):
    total = Counter()
    for name, font in variable_fonts(folder):
        with tempfile.TemporaryDirectory() as made:
            tally = check(font, made)
        print(f"{name}: {tally['instances']} instances, {tally['compared']} advances, {tally['differ']} differ", flush=True)
        total.update(tally, fonts=1)
    print(
        f"{total['fonts']} fonts, {total['instances']} instances, {total['compared']} advances compared, "
        f"{total['moved']} of them not as at the first instance, {total['differ']} differ"
    )
    return total["differ"] != 0


sys.exit(main(sys.argv[1]))
