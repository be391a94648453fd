#!/usr/bin/env python3
"""Prints everything that a claim depends on: claim.py [--count] NAME | claim.py --check

NAME is a function such as `read_rows`, a method such as `Layered::run`, or a definition of specs/
such as `IsRunOf`. The output has these parts:

- The function's contract.
- Each definition that the contract depends on, once. First come those that it names, then those
  that these name, and so on. They are grouped by file, under the file's first comment. Also shown
  are the imports that the file renames, and the module of each name that several modules have.
- The types that these definitions and the function's signature name, as their declarations. A trait
  shows only its ghost members.
- The other imported names, of these types and of the toolchain's library, with their modules.
- 'N lines, M definitions'. The contract, comments, blank lines and types aren't counted.

--count only prints the last line. --check compares the counts in docs/proofs/what-is-proved.md with the current
ones."""
import argparse, collections, difflib, glob, os, re, sys

TOP = os.path.dirname(os.path.dirname(os.path.abspath(__file__)))
TRY = ("Layered::run", "Layered::call", "run_lines", "read_rows", "Registry::new_span")
WORD = r"[A-Za-z_][\w'-]*"
ITEM = re.compile(rf"(?m)^(?:(?:abbrev|pub|record|data|unfoldable|opaque)\s+)*(?P<name>{WORD})\b[^\n]*?(?::|where|\()")
IMPORT = re.compile(r"(?m)^\s*(?:ghost |pub )*use (?P<module>[\w.]+?)\.(?:\{(?P<names>[^}]*)\}|(?P<one>[\w◌≡]+))[ \t]*;?[ \t]*$", re.S)

# A definition: its name, its file, its source with the comment above it, its file's imports, and
# the head of its unnamed module, if any.
Definition = collections.namedtuple("Definition", "name file text imports head")
# A function of the code: its name, its file, its signature with its contract, its file's imports,
# and the head of its impl.
Function = collections.namedtuple("Function", "name file text imports head")


def read(path):
    with open(path, encoding="utf-8") as file:
        return file.read()


def without_comments(text):
    return re.sub(r"(?m)--.*$|//.*$", "", text)


def imports_of(text):
    """Returns, for each name that a file imports, its module and its name there."""
    found = {}
    for use in IMPORT.finditer(text):
        for it in (use["names"] or use["one"]).split(","):
            name, _, other = it.strip().partition(" as ")
            if name:
                found[(other or name).strip()] = use["module"], name.strip()
    return found


def blocks_of(text):
    """Returns the blocks of a file between blank lines, each with the head of its unnamed module or
    an empty string. The indentation of such a module is removed."""
    found, head, lines = [], "", text.split("\n")
    while lines:
        line = lines.pop(0)
        if line.startswith("module _"):
            head = line
            while not head.rstrip().endswith("where"):
                head += "\n" + lines.pop(0)
        elif line.strip():
            head = head if line.startswith(" ") else ""
            block = [line]
            while lines and lines[0].strip() and not lines[0].startswith("module _"):
                block.append(lines.pop(0))
            found.append((head, "\n".join(it[2:] if head else it for it in block)))
    return found


def items_of(path):
    """Returns the definitions in a file of specs/, by name. A definition starts at the left edge of
    the file or of an unnamed module. With the comment above it, it is a block between blank
    lines."""
    text = read(path)
    imports, found = imports_of(text), {}
    for head, block in blocks_of(text):
        if re.match(r"(--[^\n]*\n)*(pub )?(use|mod)\b", block):
            continue
        code = without_comments(block)
        heads = [it for it in re.finditer(rf"(?m)^(?:abbrev|pub|record|data|unfoldable|opaque)\b[^\n]*", code)]
        if not heads:
            continue
        words = [it for it in re.findall(WORD, heads[0][0]) if it not in ("abbrev", "pub", "record", "data", "unfoldable", "opaque")]
        if words:
            found[words[0]] = Definition(words[0], path, block, imports, head)
    return found


def module_of(path):
    """Returns the module's name of a file of specs/."""
    crate, _, inside = os.path.relpath(path, f"{TOP}/crates").partition("/specs/")
    return f"Rattle.{crate}.specs.{inside.removesuffix('.antt').replace('/', '.')}"


def all_definitions():
    return {module_of(it): items_of(it) for it in sorted(glob.glob(f"{TOP}/crates/*/specs/**/*.antt", recursive=True))}


def closing(text, at):
    depth = 0
    for brace in re.compile(r"[{}]").finditer(text, at):
        depth += 1 if brace[0] == "{" else -1
        if not depth:
            return brace.end()
    return len(text)


def functions_of(path):
    """Returns the functions in a source file, each with its comment, its signature and its
    clauses."""
    text = read(path)
    imports, found = imports_of(text), []
    bare = re.sub(r'//[^\n]*|"(?:\\.|[^"\\])*"', lambda it: re.sub(r"[^\n]", " ", it[0]), text)
    impls = [(it.start(), closing(bare, it.end() - 1), it) for it in re.finditer(r"(?m)^(?:impl|pub trait)\b(?P<head>[^{]*)\{", bare)]
    for fn in re.finditer(r"(?m)^[ \t]*(?:pub(?:\(\w+\))? )?(?:const )?fn (?P<name>\w+)", bare):
        at = fn.end()
        while True:
            stop = re.compile(r"[;{]").search(bare, at)
            if not stop or stop[0] == ";":
                break
            line = bare[bare.rfind("\n", 0, stop.start()) + 1 : stop.start()].strip()
            if not re.match(r"(requires|ensures|decreases|ghost|where)\b", line):
                break
            at = closing(bare, stop.start())
        end = stop.start() if stop else at
        within = next((it for start, last, it in impls if start <= fn.start() < last), None)
        head = re.sub(r"^\s*<[^>]*(?:<[^>]*>[^>]*)*>", "", within["head"] if within else "")
        kind = re.match(r"\s*(?:[\w:]+(?:<[^>]*>)?\s+for\s+)?&?(\w+)", head)
        name = f"{kind[1]}::{fn['name']}" if kind else fn["name"]
        above = re.search(r"(?:^[ \t]*(?://|#\[)[^\n]*\n)*\Z", text[: fn.start()], re.M)
        found.append(Function(name, path, text[above.start() : end].rstrip("\n "), imports, within[0] if within else ""))
    return found


def all_functions():
    found = collections.defaultdict(list)
    for path in sorted(glob.glob(f"{TOP}/crates/*/src/**/*.rt", recursive=True)):
        if not re.search(r"/crates/(test_|bench/)", path):
            for it in functions_of(path):
                found[it.name].append(it)
    return found


def named_in(text, imports, own, definitions):
    """Returns the definitions that `text` names, in order, and the other imported names with their
    modules. Those are types of the code and names of the toolchain's library."""
    ours, words = [], []
    code = re.sub(r"(?m)^\s*(?:ghost )?use [^\n]*(?:\n[ \t}][^\n]*)*", "", without_comments(text))
    # A field isn't a definition: in a record's declaration, in a record's value, or after a dot.
    fields = re.sub(rf"(?m)^\s+pub {WORD}(?=\s*:)|(?<=[{{;])\s*{WORD}(?=\s*=(?!=))|\.{WORD}", " ", code)
    used = re.findall(WORD, fields)
    for word in dict.fromkeys(used):
        if word in own:
            ours.append(own[word])
        elif word in imports:
            module, name = imports[word]
            if name in definitions.get(module, {}):
                ours.append(definitions[module][name])
            else:
                words.append((module, name))
    for word, (module, name) in imports.items():
        if "◌" in word and all(part in code for part in word.split("◌") if part):
            words.append((module, name))
    return ours, words


def rests_on(start, definitions):
    """Returns the definitions that `start` depends on, and the other imported names with their
    modules. The definitions that `start` names come first."""
    found, words, row = {}, set(), [start]
    while row:
        following = []
        for it in row:
            own = definitions.get(module_of(it.file), {}) if "/specs/" in it.file else {}
            ours, more = named_in(it.text, it.imports, own, definitions)
            words.update(more)
            for each in ours:
                if (each.file, each.name) not in found and each is not start:
                    found[each.file, each.name] = each
                    following.append(each)
        row = following
    return list(found.values()), words


def lines_of(definitions):
    """Returns the number of lines of the definitions, without comments and blank lines. The head of
    an unnamed module counts once."""
    heads = {(it.file, it.head): it.head for it in definitions}
    texts = [*heads.values(), *[it.text for it in definitions]]
    return sum(len([it for it in without_comments(text).split("\n") if it.strip()]) for text in texts)


def find(name, definitions, functions):
    """Returns the function or the definition with this name. Without such a name, exits and
    suggests similar ones."""
    if functions.get(name):
        # A public function comes before a private one with the same name.
        return sorted(functions[name], key=lambda it: "pub fn" not in it.text)[0]
    for found in definitions.values():
        if name in found:
            return found[name]
    every = list(dict.fromkeys([*functions, *[it for found in definitions.values() for it in found]]))
    near = difflib.get_close_matches(name, every, 5, 0.5) or TRY
    sys.exit(f"claim: nothing is named {name}; near are {', '.join(near)}")


def homes_in(found, clashing):
    """Returns a line for each clashing name that the definitions of a file use and that the file
    doesn't rename, with its module."""
    homes = set()
    for each in found:
        used = named_in(each.text, each.imports, {}, {})[1]
        homes |= {(name, module) for module, name in used if name in clashing and each.imports.get(name) == (module, name)}
    return [f"-- {name} here is that of {module}" for name, module in sorted(homes)]


def renamed_in(path, texts):
    """Returns a line for each import that a file of specs/ renames, if one of the definitions in
    `texts` uses the new name."""
    text, code = read(path), without_comments("\n".join(texts))
    whole = re.findall(rf"(?m)^use ([\w.]+)\.(\w+) as ({WORD})$", text)
    each = [(use["module"], *it.strip().split(" as ")) for use in IMPORT.finditer(text) for it in (use["names"] or "").split(",") if " as " in it]
    return [f"-- {new} here is {name} of {module}" for module, name, new in whole + each if re.search(rf"\b{new}\b", code)]


def ghosts_in(trait):
    """Returns a trait with only its ghost members and their comments."""
    head = trait[: trait.index("{") + 1]
    members = re.findall(r"(?m)^(?:[ \t]*///[^\n]*\n)*[ \t]*ghost (?!use\b)[^;]*;", trait)
    return "\n".join([head, *members, "}"])


def type_in(text):
    """Returns a type's declaration with its doc comments, without attributes and other comments. In
    a struct, `..` replaces the fields that aren't public."""
    lines, hidden = [], False
    for line in re.sub(r"(?m)^\s*(?:#\[|//(?!/))[^\n]*\n", "", text).split("\n"):
        is_field = text.startswith("pub struct") and re.match(r"    \w", line) and not line.startswith("    pub ")
        hidden = hidden or bool(is_field)
        if line.strip() and not is_field:
            lines.append(line)
    return "\n".join([*lines[:-1], "    ..", lines[-1]] if hidden else lines)


def declared():
    """Returns the declaration of each public type and trait of the code, by its crate and its name.
    A trait has only its ghost members."""
    found = {}
    for path in sorted(glob.glob(f"{TOP}/crates/*/src/**/*.rt", recursive=True)):
        text, crate = read(path), os.path.relpath(path, f"{TOP}/crates").partition("/")[0]
        for it in re.finditer(rf"(?m)^pub (?P<kind>enum|struct|trait) (?P<name>{WORD})[^{{;\n]*(?:\n[^{{;]*)?[{{;]", text):
            end = closing(text, it.end() - 1) if it[0].endswith("{") else it.end()
            whole = text[it.start() : end]
            found[crate, it["name"]] = ghosts_in(whole) if it["kind"] == "trait" else type_in(whole)
    return found


def types_of(start, modules):
    """Returns the types and traits of the code that a claim shows. Its definitions import them from
    the modules of contracts, or the function's signature or a public part of another shown type
    names them."""
    every, shown = declared(), {}
    homes = collections.defaultdict(list)
    for crate, name in every:
        homes[name].append(crate)
    row = []
    for module in modules:
        crate, _, path = module.removeprefix("Rattle.").partition(".specs.declared.")
        row.append((crate, path.removesuffix(".TheVariants").rpartition(".")[2]))
    own = os.path.relpath(start.file, f"{TOP}/crates").partition("/")[0]
    signature = re.split(r"\n\s*(?:requires|ensures)\b", without_comments(start.text))[0] if isinstance(start, Function) else ""
    row += [(own, name) for name in re.findall(WORD, signature)]
    while row:
        crate, name = row.pop(0)
        at = (crate, name) if (crate, name) in every else (homes[name][0], name) if len(homes.get(name, [])) == 1 else None
        if at and at not in shown:
            shown[at] = every[at]
            parts = [] if every[at].startswith("pub trait") else re.findall(r"[(:](.*)", without_comments(every[at]))
            row += [(at[0], it) for it in re.findall(WORD, "\n".join(parts))]
    return [shown[at] for at in sorted(shown)]


def shown_in_modules(definitions):
    """Returns the sources of a file's definitions. Those in one unnamed module come together, below
    the module's head."""
    modules = collections.defaultdict(list)
    for it in definitions:
        modules[it.head].append(it.text)
    for head, texts in modules.items():
        if head:
            texts = [f"{head}\n" + re.sub(r"(?m)^(?=.)", "  ", "\n\n".join(texts))]
        yield from texts


def show(start, found, words):
    head = f"{start.head.rstrip()}\n" if isinstance(start, Function) and start.head else ""
    print(f"-- {os.path.relpath(start.file, TOP)}\n\n{head}{start.text}\n")
    files = collections.defaultdict(list)
    for it in found:
        files[it.file].append(it)
    homes = collections.Counter(name for _, name in words)
    clashing = {name for name, count in homes.items() if count > 1}
    for path, each in files.items():
        first = read(path).split("\n")[0]
        print(f"---- {os.path.relpath(path, TOP)}{': ' + first[3:] if first.startswith('-- ') else ''}")
        print("\n".join([*renamed_in(path, [it.text for it in each]), *homes_in(each, clashing), ""]))
        print("\n\n".join(shown_in_modules(each)) + "\n")
    modules = collections.defaultdict(list)
    for module, name in sorted(words):
        modules[module].append(name)
    types = {it: names for it, names in modules.items() if it.startswith("Rattle.tracing_tree")}
    print("---- types of the code\n")
    print("\n\n".join(types_of(start, types)) + "\n")
    print("\n".join(f"use {it}.{{{', '.join(names)}}}" for it, names in sorted(types.items())))
    print("\n---- words of the toolchain's library\n")
    print("\n".join(f"use {it}.{{{', '.join(names)}}}" for it, names in sorted(modules.items()) if it not in types) + "\n")


def check(definitions, functions):
    """Compares the counts in docs/proofs/what-is-proved.md with the current ones. Returns how many
    differ."""
    rows = re.findall(r"(?m)`make claim NAME=(\S+)` \| (\d+) lines, (\d+) definitions", read(f"{TOP}/docs/proofs/what-is-proved.md"))
    differ = 0
    for name, lines, count in rows:
        found, _ = rests_on(find(name, definitions, functions), definitions)
        is_well = (int(lines), int(count)) == (lines_of(found), len(found))
        differ += not is_well
        now = "" if is_well else f"FAILED: docs/proofs/what-is-proved.md says {lines} lines, {count} definitions, and now it is "
        print(f"claim {name}: {now}{lines_of(found)} lines, {len(found)} definitions")
    print(f"claims: {len(rows) - differ} passed, {differ} failed")
    return differ if rows else 1


def main():
    asked = argparse.ArgumentParser(description=__doc__, formatter_class=argparse.RawDescriptionHelpFormatter)
    asked.add_argument("--count", action="store_true")
    asked.add_argument("--check", action="store_true")
    asked.add_argument("name", nargs="?", default="")
    asked = asked.parse_args()
    if not asked.name and not asked.check:
        sys.exit(f"usage: make claim NAME=WORD, where WORD is a public function, a method or a definition, as {', '.join(TRY)}")
    definitions, functions = all_definitions(), all_functions()
    if asked.check:
        return 1 if check(definitions, functions) else 0
    start = find(asked.name, definitions, functions)
    found, words = rests_on(start, definitions)
    if not asked.count:
        show(start, found, words)
    print(f"{lines_of(found)} lines, {len(found)} definitions")
    return 0


if __name__ == "__main__":
    sys.exit(main())
