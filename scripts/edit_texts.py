#!/usr/bin/env python3
"""Finds edits of must-fail/ that don't apply to the current sources: edit_texts.py

Each old string of an edit must occur exactly once in its file, when the edit's earlier changes have
been made. The gate finds such edits too, but an hour later. The last line is
'edits: N passed, M failed'."""
import glob
import os
import sys

import edits

TOP = edits.TOP


def fault_of(path):
    """Returns why an edit doesn't apply, or None."""
    crate, texts = os.path.dirname(os.path.dirname(path)), {}
    pairs = edits.pairs_of(path)
    for file, old, new in pairs:
        if file not in texts:
            if not os.path.isfile(f"{crate}/{file}"):
                return f"there is no file {file}"
            texts[file] = edits.read(f"{crate}/{file}")
        count = texts[file].count(old) if old else 0
        if count != 1:
            return f"its old string occurs {count} times in {file}"
        texts[file] = texts[file].replace(old, new)
    return None if pairs else "it changes nothing"


def main():
    paths = sorted(glob.glob(f"{TOP}/crates/*/must-fail/*.edit"))
    faults = [(path, fault) for path in paths if (fault := fault_of(path))]
    for path, fault in faults:
        print(f"edits: {os.path.relpath(path, TOP)}: FAILED: {fault}")
    print(f"edits: {len(paths) - len(faults)} passed, {len(faults)} failed")
    return 1 if faults or not paths else 0


if __name__ == "__main__":
    sys.exit(main())
