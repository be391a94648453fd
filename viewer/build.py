#!/usr/bin/env python3
"""Joins the viewer of a page into its head and tail: the fixed parts before and after the data.

    viewer/build.py            writes crates/ttree_viewer/src/fixed.rt
    viewer/build.py --check    fails if that file isn't what would be written
    viewer/build.py --head     prints the part before the data
    viewer/build.py --tail     prints the part after the data

The head has the style, the script, and a Content-Security-Policy that allows these two by their
hashes and nothing else. It ends inside the element that has the data."""

import base64
import hashlib
import pathlib
import re
import sys

HERE = pathlib.Path(__file__).resolve().parent
TARGET = HERE.parent / "crates/ttree_viewer/src/fixed.rt"

# The parts of the script, in their order.
PARTS = ["common", "run", "text", "filter", "list", "timeline", "details", "search", "overview", "keyboard", "reading"]

START = '"use strict";\n(() => {\n'
END = "})();\n"


def read(name):
    return (HERE / name).read_text(encoding="utf-8")


def compact(text):
    """Returns the source without indentation, empty lines and comment lines. This is safe since no
    string in the script or the style has several lines."""
    lines = [line.strip() for line in text.split("\n")]
    return "\n".join(line for line in lines if line and not line.startswith("//")) + "\n"


def script():
    names = {path.stem for path in (HERE / "script").glob("*.js")}
    if names != set(PARTS):
        sys.exit(f"build.py: {sorted(names ^ set(PARTS))}: not both a file and one of PARTS")
    return START + compact("".join(read(f"script/{name}.js") for name in PARTS)) + END


def style():
    """Returns the style without comments, and without the spaces outside of strings that have no
    meaning."""
    text = compact(re.sub(r"/\*.*?\*/", "", read("style.css"), flags=re.S))
    parts = re.split(r'("[^"]*")', text)
    parts[::2] = [re.sub(r";}", "}", re.sub(r"\s*([{};,>])\s*|(:)\s+", r"\1\2", it)) for it in parts[::2]]
    return "".join(parts)


def hash_of(text):
    return "sha256-" + base64.b64encode(hashlib.sha256(text.encode()).digest()).decode()


def is_contained(script, style):
    """Returns whether nothing in the style or the script ends its element early, or hides the end
    of the script's element."""
    return not re.search("</style", style, re.I) and not re.search("</script|<!--|<script", script, re.I)


def head():
    parts = {"style": style(), "script": script()}
    if not is_contained(parts["script"], parts["style"]):
        sys.exit("build.py: the script or the style ends its own element")
    text = read("head.html")
    for name in list(parts):
        parts[f"{name}-hash"] = hash_of(parts[name])
    # One pass, so that a replacement isn't searched for placeholders.
    text = re.sub(r"\{\{([a-z-]+)\}\}", lambda found: parts[found[1]], text)
    if not text.endswith('<xmp id="data" hidden>\n'):
        sys.exit("build.py: the head doesn't end at the start of the data")
    if "<meta charset" not in text[:1024]:
        sys.exit("build.py: the encoding isn't declared in the first 1024 bytes")
    return text


def tail():
    return read("tail.html")


def literal(text):
    """Returns the string as a literal of Rattle."""
    escapes = {"\\": "\\\\", '"': '\\"', "\t": "\\t", "\r": "\\r"}
    for character in text:
        if ord(character) < 32 and character not in "\n\t\r":
            sys.exit(f"build.py: the viewer has the control character {ord(character):#x}")
    lines = text.split("\n")
    escaped = ["".join(escapes.get(character, character) for character in line) for line in lines]
    return '"' + "\\n".join(escaped) + '"'


def module():
    return f'''//! The fixed strings of a page. viewer/build.py writes this file.

/// What comes before the data of a page: the style and the viewer, up to the start of the element
/// that has the data.
pub const HEAD: &str =
    {literal(head())};

/// What comes after the data of a page: the end of its element and of the document.
pub const TAIL: &str = {literal(tail())};
'''


def main():
    word = sys.argv[1] if len(sys.argv) > 1 else ""
    if word == "--head":
        sys.stdout.buffer.write(head().encode())
    elif word == "--tail":
        sys.stdout.buffer.write(tail().encode())
    elif word == "--check":
        is_right = TARGET.exists() and TARGET.read_text(encoding="utf-8") == module()
        if not is_right:
            print("viewer: crates/ttree_viewer/src/fixed.rt is out of date: run viewer/build.py")
        print(f"viewer: {int(is_right)} passed, {int(not is_right)} failed")
        sys.exit(not is_right)
    elif word == "":
        TARGET.parent.mkdir(parents=True, exist_ok=True)
        TARGET.write_text(module(), encoding="utf-8")
    else:
        sys.exit(__doc__)


if __name__ == "__main__":
    main()
