"""What both scripts share: the fonts, the glyph lists, and the command."""

import pathlib
import random
import subprocess
import tempfile

from fontTools.ttLib import TTFont

MOST = 2048


def variable_fonts(folder):
    """The fonts under a folder that have an HVAR table, with their names."""
    files = sorted(f for f in pathlib.Path(folder).rglob("*") if f.suffix in (".ttf", ".otf", ".woff2"))
    for file in files:
        font = TTFont(file, lazy=True)
        if "HVAR" in font:
            yield file.name, font


def glyph_lists(count):
    """Assorted lists of (new, old) for a font of this many glyphs."""
    draw = random.Random(count)
    kept = min(count, MOST)
    some = draw.sample(range(count), min(100, count))
    yield "all ids retained", [(old, old) for old in range(kept)]
    yield "the last glyphs", [(new, count - kept + new) for new in range(kept)]
    yield "every second", [(new, 2 * new) for new in range(min(count // 2, MOST))]
    yield "every seventh, ids retained", [(old, old) for old in range(0, count, 7)][:MOST]
    yield "a hundred, any order", list(enumerate(some))
    yield "a hundred, with gaps", [(3 * new + 1, old) for new, old in enumerate(sorted(some))]
    yield "one glyph twice", [(0, some[0]), (1, some[0])]
    yield "the first", [(0, 0)]
    yield "the last, its id retained", [(count - 1, count - 1)]
    yield "none", []


def cut(kind, table, glyphs):
    """The table cut by the command."""
    with tempfile.TemporaryDirectory() as folder:
        old, listed, new = (pathlib.Path(folder, name) for name in ("old", "glyphs", "new"))
        old.write_bytes(table)
        listed.write_text("".join(f"{a} {b}\n" for a, b in glyphs))
        ran = subprocess.run(["binlariat", "cut", kind, old, listed, new], capture_output=True, text=True)
        if ran.returncode:
            raise SystemExit(f"binlariat cut {kind}: {ran.stderr}")
        return new.read_bytes()
