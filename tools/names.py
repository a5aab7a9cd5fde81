#!/usr/bin/env python3
"""Spells the repository's own definitions and lemmas in snake case, after port.py has been run.

usage: tools/names.py [FOLDER]

Goes over the .antt, .rt and .edit files of crates/. A name in camel case that begins with a small letter gets its words joined by
underscores. Two names that would fall together are told apart by APART (the name in camel case) and LEMMAS (the lemma or the field
beside it, which already had the spelling).
"""

import os
import re
import sys

WORD = re.compile(r"(?<![\w'-])[A-Za-z_][\w'-]*")
PART = re.compile(r"[a-z_][a-z0-9_']*[A-Z][\w']*$")

# Fields of a struct or the name of a crate, with which the definition would fall together.
APART = {
    "canvasFill": "canvas_fill_of",
    "otherChroma": "other_chroma_of",
    "otherDepth": "other_depth_of",
    "oddAcross": "odd_across_of",
    "oddDown": "odd_down_of",
    "tenToEight": "ten_to_eight_of",
}
# Lemmas and fields that already are in snake case, where a definition in camel case falls together with them: by file.
LEMMAS = {
    "crates/overlay/proofs/stripes/write_colour/Proof.antt": ["has_part"],
    "crates/overlay/proofs/stripes/write_alpha/Proof.antt": ["has_part"],
    "crates/point/proofs/GridShown.antt": ["has_part"],
    "crates/grid/proofs/Composed.antt": ["columns_of"],
    "crates/grid/proofs/MosaicLaws.antt": ["cell_in"],
    "crates/sight/proofs/Agreement.antt": ["mirror_turns"],
    "crates/point/proofs/PointLaws.antt": ["lies_over"],
    "crates/cells/proofs/Suited.antt": ["source_row"],
    "crates/view/proofs/ViewLaws.antt": ["turns_up"],
}


def in_snake_case(name):
    if name in APART:
        return APART[name]
    words = re.sub(r"(?<=[a-z0-9'])[A-Z]", lambda m: "_" + m[0].lower(), name)
    return re.sub(r"(?<=_[a-z])[A-Z]", lambda m: "_" + m[0].lower(), words)


def turned(word):
    parts = word[0].split("-")
    return "-".join(in_snake_case(it) if PART.match(it) else it for it in parts)


def main():
    top = sys.argv[1] if len(sys.argv) > 1 else "."
    for folder, dirs, files in os.walk(os.path.join(top, "crates")):
        dirs[:] = sorted(it for it in dirs if it not in ("out", "target"))
        for name in sorted(files):
            if not name.endswith((".antt", ".rt", ".edit")):
                continue
            path = os.path.join(folder, name)
            with open(path, encoding="utf-8") as f:
                old = f.read()
            new = old
            for word in LEMMAS.get(os.path.relpath(path, top), []):
                new = re.sub(rf"(?<![\w'-]){word}(?![\w'-])", word + "_lem", new)
            new = WORD.sub(turned, new)
            if new != old:
                with open(path, "w", encoding="utf-8") as f:
                    f.write(new)


main()
