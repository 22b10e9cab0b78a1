#!/usr/bin/env python3
"""Respells this repository's own definitions and lemmas the way today's Rattle spells names: words in
snake case, a lemma by the left side of its equation, a dash only between two such names.

usage: python3 tools/respell-names.py [TOP]    once, over what port.py of the kit left

It goes by whole names, in the files of specs/ and proofs/, in the ghost parts of src/, and in the pages that
name them. Functions of src/ and printed texts keep their names. It stops where two names would fall together.
"""
import os
import re
import sys

DEFINITIONS = {
    # store/specs
    "ifTaken": "if_taken", "readAnswer": "read_answer", "readBuffer": "read_buffer",
    "writeAnswer": "write_answer", "writeSectors": "write_sectors",
    "bigEndian": "big_endian", "bigEndianValue": "big_endian_value", "dataOf": "data_of",
    "keptSum": "kept_sum", "stateOf": "state_of", "checkedSector": "checked_sector",
    "laidOut": "laid_out", "goodRecord": "good_record",
    "recordCount": "record_count", "recordAt": "record_at", "imageSectors": "image_sectors",
    "plainSectors": "plain_sectors", "checkedSectors": "checked_sectors",
    "withRecord": "with_record", "writtenImage": "written_image",
    "faultNumber": "fault_number", "unfitNumber": "unfit_number",
    "goodSector": "good_sector", "sectorAt": "sector_at", "markWord": "mark_word",
    # drive/specs
    "unitSectors": "unit_sectors", "numberAt": "number_at", "placeAt": "place_at",
    "switchAt": "switch_at", "shapeOf": "shape_of", "trackMajor": "track_major",
    "mostTracks": "most_tracks", "mostSectors": "most_sectors", "edgesByRule": "edges_by_rule",
    # rad/specs
    "byteAt": "byte_at",
    # a parameter
    "recordOf": "record_of",
}
FIELDS = [
    "wrong-length", "taken-up", "keeps-size", "keeps-marks", "keeps-bytes", "stays-sound",
    "has-place", "has-number", "to-place", "each-place",
    "some-track", "some-sector", "some-switched", "some-port", "some-unit",
    "tracks-fit", "sectors-fit", "ports-fit", "units-fit",
    "number-below", "place-of-number", "number-of-place",
]
LEMMAS = {
    # an equation, by its left side
    "length-image": "length-image_sectors", "at-image": "sector_at-image_sectors",
    "length-record": "length-record_at", "length-written": "length-new", "at-new": "sector_at-new",
    "image-set": "image_sectors-new", "length-good": "length-good_record",
    "kept-good": "drop-good_record", "good-means": "checked_sector-good_record",
    "big-endian-back": "big_endian_value-big_endian",
    # one that would have its function's name
    "laid-out": "laid_out_lem",
    # a fact keeps its capital
    "bytes-drop": "Bytes-drop", "bytes-take": "Bytes-take", "image-sound": "Sound-image_sectors",
    # (port.py had half done these)
    "bytes_drop": "Bytes-drop", "bytes_take": "Bytes-take", "at_new": "sector_at-new",
    "laid_out": "laid_out_lem",
    "track-major-sound": "Sound-track_major", "sound-here": "Sound-here", "sound-after": "Sound-after",
}
# any other is named for what it says
SAYINGS = [
    "record-made", "record-fits", "record-below", "record-above", "record-here", "same-length",
    "part-written", "part-put", "count-small", "plain-reads", "checked-reads",
    "taken-below", "size-kept", "sector-kept", "access-kept", "access-here", "turned-down",
    "write-law", "refusal-order", "track-inside", "sector-inside",
]
NEW = DEFINITIONS | {n: n.replace("-", "_") for n in FIELDS + SAYINGS} | LEMMAS
PAGES = ["README.md", "docs/RULES.md", "docs/PROMISES.md", "docs/DECISIONS.md"]
NAME = re.compile(r"[^\s(){}\[\].,;:λ`\"«»]+")


def texts(top):
    for folder, dirs, files in os.walk(os.path.join(top, "crates")):
        dirs[:] = sorted(d for d in dirs if d not in ("out", "must-fail"))
        yield from (os.path.join(folder, f) for f in sorted(files) if f.endswith((".rt", ".antt")))
    yield from (os.path.join(top, p) for p in PAGES)


def read(path):
    with open(path, encoding="utf-8") as f:
        return f.read()


def main():
    top = sys.argv[1] if len(sys.argv) > 1 else "."
    defined = re.compile(r"^\s*(?:abbrev |unfoldable )?(?:pub )?(\S+) :", re.M)
    there = {m for p in texts(top) if p.endswith(".antt") for m in defined.findall(read(p))}
    names = [NEW.get(old, old) for old in there]
    together = sorted({new for new in names if names.count(new) > 1})
    if together:
        sys.exit(f"two names become one: {together}")
    changed = 0
    for path in texts(top):
        old = read(path)
        new = NAME.sub(lambda m: NEW.get(m.group(), m.group()), old)
        if new != old:
            changed += 1
            with open(path, "w", encoding="utf-8") as f:
                f.write(new)
    print(f"respelled in {changed} files")


main()
