"""words.py LATIN ARABIC DEVANAGARI: shapes a word in each of three font files, and prints its glyphs."""

import sys

from kuspveli import Font, Tables

tables = Tables()
for name, word in zip(sys.argv[1:], ("office", "السلام", "हिन्दी"), strict=True):
    for glyph in Font.open(name, tables=tables).shape(word):
        print(f"{glyph.number}={glyph.cluster}+{glyph.x_advance}", end=" ")
    print(word)
