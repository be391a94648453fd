#!/usr/bin/env python3
"""Compares the man pages and completions with the programs, and tries `make install`:
install_test.py TREE READER TTREE

The programs may be compiled without their proofs. `make install` runs in a copy of the repository
with dummy files for what is built. Checks that need mandoc, zsh, fish or pkg-config are left out
without them. The last line counts the runs that ended as they must. The status is 1 if one
failed."""
import functools, os, re, shlex, shutil, subprocess, sys, tarfile, tempfile, time

import completions
from runs import Runs

TOP = os.path.dirname(os.path.dirname(os.path.abspath(__file__)))
NAMES = ("tracing_tree", "tracing_tree_read", "ttree")
SECTIONS = ["NAME", "SYNOPSIS", "DESCRIPTION", "EXIT STATUS", "EXAMPLES", "SEE ALSO"]
RUNS = Runs("install")
# Where things are installed: a prefix with a space, and the folder of the docs below it.
PREFIX = "/opt/my tools"
DOCS = "share/doc/tracing_tree"
# The documents in the top folder. README links to all of them.
TEXTS = ("README.md", "CHANGELOG.md", "CONTRIBUTING.md", "LICENSE-APACHE", "LICENSE-MIT")


def check(name, is_right, said=""):
    """Counts a run, and names it if it failed."""
    RUNS.add(is_right, f"install {name}: FAILED: {str(said)[:600]}")


def equal(name, found, wanted):
    said = f"found {found}, wanted {wanted}"
    if isinstance(wanted, set):
        said = f"too many: {sorted(found - wanted)}, missing: {sorted(wanted - found)}"
    check(name, found == wanted, said)


@functools.cache
def has(tool, left_out):
    """Returns whether a tool is installed. If it isn't, prints what is left out."""
    if not shutil.which(tool):
        print(f"install: left out, since {tool} isn't there: {left_out}")
    return bool(shutil.which(tool))


def ran(*words, **how):
    """Runs a command. Returns its status and its output, standard error included."""
    how = {"stdin": subprocess.DEVNULL, "timeout": 60, **how}
    done = subprocess.run(words, stdout=subprocess.PIPE, stderr=subprocess.STDOUT, **how)
    return done.returncode, done.stdout.decode(errors="replace")


def read(path):
    with open(path, "rb") as file:
        return file.read()


def write(path, text):
    os.makedirs(os.path.dirname(path), exist_ok=True)
    with open(path, "w", encoding="utf-8") as file:
        file.write(text)


def text_of(path):
    """Returns a file's contents. A relative path starts in the top folder."""
    return read(os.path.join(TOP, path)).decode()


# ---- man pages

def options_in(page):
    """Returns the options that are named in a part of a man page."""
    lines = [line for line in page.split("\n") if re.match(r"\.(It |Op )?Fl ", line)]
    return {f"-{it}" for it in re.findall(r"(?:Fl|[|,]) (-?[A-Za-z][a-z-]*)", "\n".join(lines))}


def items_of(page):
    """Returns the description below each `.It Fl` of a man page, by the options in that line."""
    found = {}
    for item in re.split(r"(?m)^\.It Fl ", page)[1:]:
        names = options_in(".It Fl " + item.split("\n")[0])
        found[frozenset(names)] = re.split(r"(?m)^\.Sh ", item)[0]
    return found


def check_options(name, page, given):
    """Compares the options of a man page with those that the program prints."""
    items, printed = items_of(page), {*given.names()}
    synopsis = page.partition(".Sh SYNOPSIS\n")[2].partition(".Sh ")[0]
    equal(f"{name}.1: options with a text", {it for names in items for it in names}, printed)
    equal(f"{name}.1: options in the synopsis", options_in(synopsis), printed)
    equal(f"{name}.1: options anywhere", options_in(page), printed)
    for option in given.options:
        item = items.get(frozenset(option.names()), "")
        listed = {*option.values, *[option.default] * bool(option.default)}
        found = {it for it in listed if re.search(rf"(?m)(^\.Cm |\bis ){it}( |\.?$)", item)}
        equal(f"{name}.1: values of --{option.long}", found, listed)
        if option.value:
            value = f"Ns Oo = Ar {option.value} Oc" if option.optional else f"Ar {option.value}"
            head = f"-{option.long} {value}\n"
            check(f"{name}.1: the value of --{option.long}", item.startswith(head), item)


def examples_in(page):
    """Returns the commands in the literal blocks of a man page, each with the lines after it."""
    found = []
    for block in re.findall(r"(?ms)^\.Bd -literal.*?\n(.*?)^\.Ed", page):
        for line in block.split("\n")[:-1]:
            shown = line.replace(r"\-", "-").replace(r"\(aq", "'").replace(r"\e", "\\").rstrip()
            if shown.startswith("$ "):
                found.append((shown[2:], []))
            else:
                found[-1][1].append(shown)
    return found


def check_examples(name, page, folder):
    """Runs the examples of a man page. `cat FILE` says what is in the file."""
    env = {**os.environ, "PATH": f"{folder}/bin:{os.environ['PATH']}"}
    found = examples_in(page)
    check(f"{name}.1: has an example with its output", len(found) >= 2)
    for command, lines in found:
        if command.startswith("cat "):
            write(f"{folder}/{command[4:]}", "".join(f"{line}\n" for line in lines))
            continue
        _, said = ran("sh", "-c", command, cwd=folder, env=env)
        equal(f"{name}.1: {command}", [it.rstrip() for it in said.split("\n")[:-1]], lines)


def check_pages(programs, room):
    os.makedirs(f"{room}/bin")
    for name, program in programs.items():
        os.symlink(program, f"{room}/bin/{name}")
    has_mandoc = has("mandoc", "the format of the man pages")
    for name in NAMES:
        path = f"docs/man/{name}.1"
        page = text_of(path)
        if has_mandoc:
            lint = ran("mandoc", "-Tlint", "-W", "warning", f"{TOP}/{path}")
            equal(f"{name}.1: mandoc -Tlint", lint, (0, ""))
        sections = re.findall(r"(?m)^\.Sh (.*)", page)
        equal(f"{name}.1: sections", [it for it in sections if it in SECTIONS], SECTIONS)
        others = re.findall(r"\.Xr (\w+) 1", page.partition(".Sh SEE ALSO")[2])
        equal(f"{name}.1: other pages", {*others}, {*NAMES} - {name})
        if name == "tracing_tree":
            equal(f"{name}.1: options", options_in(page), set())
        else:
            check_options(name, page, completions.Help(programs[name]))
        check_examples(name, page, room)


# ---- completions

def answers(name, *words):
    """Returns what bash completes the last of these words to."""
    script = f"""\
. "$1"; shift; COMP_WORDS=("$@"); COMP_CWORD=$(($# - 1))
_{name}; printf '%s\\n' "${{COMPREPLY[@]}}\""""
    _, said = ran("bash", "-c", script, "bash", f"{TOP}/completions/{name}.bash", name, *words)
    return [it for it in said.split("\n") if it]


def check_bash(name, given):
    names = sorted(given.names())
    equal(f"{name}.bash: options", sorted(answers(name, "-")), names)
    equal(f"{name}.bash: a part of an option", answers(name, "--am"), ["--amount"])
    for it in given.options:
        option = f"--{it.long}"
        if not it.value:
            equal(f"{name}.bash: after {option}", sorted(answers(name, option, "-")), names)
            continue
        equal(f"{name}.bash: values of {option}", answers(name, option, ""), it.values)
        equal(f"{name}.bash: values of {option}=", answers(name, option, "="), it.values)
        part = it.values[0][:2] if it.values else "-"
        equal(f"{name}.bash: {option}={part}", answers(name, option, "=", part), it.values[:1])


def check_zsh(name, given):
    words = text_of(f"completions/_{name}").partition("_arguments -S")[2]
    named = re.findall(r"(?<![\w-])--?[A-Za-z][a-z-]*", re.sub(r"\[.*?\]", "", words))
    equal(f"_{name}: options", {*named}, {*given.names()})
    if has("zsh", "the syntax of the completions for zsh"):
        equal(f"_{name}: zsh -n", ran("zsh", "-n", f"{TOP}/completions/_{name}"), (0, ""))


def check_fish(name, given):
    text = text_of(f"completions/{name}.fish")
    named = [f"--{it}" for it in re.findall(r" -l ([a-z-]+)", text)]
    named += [f"-{it}" for it in re.findall(r" -s (\w)", text)]
    equal(f"{name}.fish: options", sorted(named), sorted(given.names()))
    if not has("fish", "what fish completes"):
        return

    def asked(line):
        script = f'source "$argv[1]"; complete -C {shlex.quote(line)}'
        _, said = ran("fish", "--no-config", "-c", script, f"{TOP}/completions/{name}.fish")
        return {it.partition("\t")[0].rstrip("=") for it in said.split("\n") if it}

    equal(f"{name}.fish: what fish completes", asked(f"{name} -"), {*given.names()})
    for it in given.options:
        if it.values:
            option = f"--{it.long}"
            before = f"{option}=" if it.optional else ""
            said = asked(f"{name} {before or option + ' '}")
            equal(f"{name}.fish: values of {option}", said, {before + value for value in it.values})


def check_completions(name, program):
    """Compares the completions of a program with what it prints."""
    given, (_, printed) = completions.Help(program), ran(program, "--help")
    names = re.findall(r"(?m)(?:^ +|, )(--?[A-Za-z][a-z-]*)(?=[ ,\[])", printed)
    equal(f"{name}: names that --help prints", {*given.names()}, {*names})
    values = [it.split(", ") for it in re.findall(r"possible values: ([^]]*)", printed)]
    found = [it.values for it in given.options if it.values]
    equal(f"{name}: values that --help prints", found, values)
    for file, text in completions.files(name, given).items():
        is_same = text_of(f"completions/{file}") == text
        check(f"{file}: what scripts/completions.py writes", is_same, "it writes another text")
    check_bash(name, given)
    check_zsh(name, given)
    check_fish(name, given)


# ---- installing

def pages():
    """Returns the files of docs/, without the man pages."""
    found = [os.path.relpath(f"{at}/{it}", TOP) for at, _, names in os.walk(f"{TOP}/docs") for it in names]
    return [it for it in found if not it.startswith("docs/man/")]


def install_places():
    """Returns the file that must be installed at each place below the prefix, by its folder."""
    files = {f"bin/{it}": f"bin/{it}" for it in NAMES}
    for page in os.listdir(f"{TOP}/docs/man"):
        files[f"share/man/man1/{page}"] = f"docs/man/{page}"
    for file in os.listdir(f"{TOP}/completions"):
        name, ending = os.path.splitext(file)
        folder, installed = {
            ".bash": ("bash-completion/completions", name),
            ".fish": ("fish/vendor_completions.d", file),
            "": ("zsh/site-functions", file),
        }[ending]
        files[f"share/{folder}/{installed}"] = f"completions/{file}"
    for file in (*TEXTS, *pages()):
        files[f"{DOCS}/{file}"] = file
    return files | {f"{DOCS}/bindings/README.md": "bindings/README.md"}


def library_places():
    files = {f"lib/{it}": f"bin/{it}" for it in ("libtracing_tree.a", "libtracing_tree.so.1")}
    for file in ("tracing_tree.h", "tracing_tree.hpp"):
        files[f"include/{file}"] = f"bindings/c/{file}"
    return {**files, "lib/python3/dist-packages/tracing_tree.py": "bindings/python/tracing_tree.py"}


def kept(path):
    """Returns the target of a link, or the mode and the bytes of a file."""
    if os.path.islink(path):
        return os.readlink(path)
    return os.stat(path).st_mode & 0o777, read(path)


class Copy:
    """A copy of what `make install` needs. The built files are dummies, and `rt` is a stub that
    leaves a mark."""

    def __init__(self, room):
        self.top, self.stage = f"{room}/the copy", f"{room}/the stage"
        self.mark, self.now = f"{room}/rt was run", time.time()
        for file in (*TEXTS, "Makefile", "crates.txt", "scripts/install.sh", "scripts/dist.sh"):
            os.makedirs(os.path.dirname(f"{self.top}/{file}"), exist_ok=True)
            shutil.copy(f"{TOP}/{file}", f"{self.top}/{file}")
        for folder in ("docs", "completions", "bindings"):
            left_out = shutil.ignore_patterns("target", "__pycache__")
            shutil.copytree(f"{TOP}/{folder}", f"{self.top}/{folder}", ignore=left_out)
        self.make("bindings/rust/target/debug/build/x/out/made.rs", 0)
        for file in ("crates/a/src/main.rt", "crates/a/must-fail/x.edit", "crates/a/out/x"):
            self.make(file, 0)
        self.age("crates.txt", 0)
        for file in (*NAMES, "libtracing_tree.a", "libtracing_tree.so.1"):
            self.make(f"bin/{file}", 10)
        self.make("tools/rt", 0, f"#!/bin/sh\n: > '{self.mark}'\n")

    def make(self, file, seconds, text=None):
        """Writes a file that is `seconds` newer than the sources."""
        write(f"{self.top}/{file}", text or f"the stand-in {file}\n")
        os.chmod(f"{self.top}/{file}", 0o755)
        self.age(file, seconds)

    def age(self, file, seconds):
        os.utime(f"{self.top}/{file}", (self.now + seconds, self.now + seconds))

    def run(self, target, prefix=PREFIX, stage=None):
        """Runs a target as a user whose umask lets nobody else read. Returns the status and the
        lines of `install`."""
        unset = ("MAKEFLAGS", "MFLAGS", "MAKELEVEL", "DESTDIR", "PREFIX")
        env = {name: value for name, value in os.environ.items() if name not in unset}
        env["PATH"] = f"{self.top}/tools:{env['PATH']}"
        asked = (f"DESTDIR={stage or self.stage}", f"PREFIX={prefix}")
        mask = {"preexec_fn": lambda: os.umask(0o077)}
        status, said = ran("make", "-C", self.top, target, *asked, env=env, **mask)
        return status, [line for line in said.split("\n") if line.startswith("install: ")]

    def installed(self):
        """Returns the link's target, or the mode and bytes, of each installed file."""
        files = [f"{folder}/{it}" for folder, _, names in os.walk(self.stage) for it in names]
        return {os.path.relpath(it, self.stage + PREFIX): kept(it) for it in files}

    def compare(self, name, has_library):
        """Compares the installed files with those that must be. Returns the pkg-config file's
        contents."""
        found, wanted = self.installed(), {}
        places = install_places() | (library_places() if has_library else {})
        for place, file in places.items():
            is_run = place.startswith(("bin/", "lib/libtracing_tree.so"))
            wanted[place] = (0o755 if is_run else 0o644, read(f"{self.top}/{file}"))
        if has_library:
            wanted["lib/libtracing_tree.so"] = "libtracing_tree.so.1"
        mode, text = found.pop("lib/pkgconfig/tracing_tree.pc", (0o644, b""))
        equal(f"{name}: the pkg-config file", (mode, bool(text)), (0o644, has_library))
        equal(f"{name}: files", {*found}, {*wanted})
        equal(f"{name}: contents", [it for it in wanted if found.get(it) != wanted[it]], [])
        folders = [it for it, _, _ in os.walk(self.stage + PREFIX)]
        closed = [it for it in folders if os.stat(it).st_mode & 0o055 != 0o055]
        equal(f"{name}: folders that others can't read", closed, [])
        return text.decode()


def check_pkg_config(copy, text):
    lines = text.split("\n")
    check("pkg-config file: prefix", f"prefix={PREFIX}" in lines and copy.stage not in text, text)
    if has("pkg-config", "the flags for a prefix with a space"):
        env = {**os.environ, "PKG_CONFIG_PATH": f"{copy.stage}{PREFIX}/lib/pkgconfig"}
        _, said = ran("pkg-config", "--cflags", "--libs", "tracing_tree", env=env)
        place = PREFIX.replace(" ", r"\ ")
        flags = f"-I{place}/include -L{place}/lib -ltracing_tree"
        equal("pkg-config file: flags", said.split(), flags.split())


def check_uninstall(copy, name):
    """Removes what is installed. Files of others stay, and so do the folders that they may use."""
    packages = "lib/python3/dist-packages"
    others = {"bin/other", f"{DOCS}/docs/other", f"{packages}/other.py"}
    for place in others | {f"{packages}/__pycache__/tracing_tree.cpython-311.pyc"}:
        write(f"{copy.stage}{PREFIX}/{place}", "not of tracing_tree\n")
    equal(f"{name}: uninstall", copy.run("uninstall"), (0, []))
    equal(f"{name}: files of others", {*copy.installed()}, others)
    for place in others & {*copy.installed()}:
        os.remove(f"{copy.stage}{PREFIX}/{place}")
    equal(f"{name}: uninstall again", copy.run("uninstall"), (0, []))
    equal(f"{name}: files left", {*copy.installed()}, set())
    check(f"{name}: the docs' folder left", not os.path.exists(f"{copy.stage}{PREFIX}/{DOCS}"))


def check_without_library(copy):
    """Checks that the rest is installed, and that the reason is printed without a library."""
    def said(file, fault):
        return (f"install: the C library is left out, since bin/{file} {fault}: "
                "run 'make bindings' (20 minutes on four cores)")

    for file in ("libtracing_tree.so.1", "libtracing_tree.a"):
        shutil.rmtree(copy.stage, ignore_errors=True)
        copy.age(f"bin/{file}", -10)
        lines = [said(file, "is older than its sources")]
        equal(f"an old {file}", copy.run("install"), (0, lines))
        copy.compare(f"an old {file}", False)
        os.remove(f"{copy.top}/bin/{file}")
        equal(f"no {file}", copy.run("install"), (0, [said(file, "is missing")]))
        copy.compare(f"no {file}", False)
        only = f"{copy.stage} of the library"
        found = ran(f"{copy.top}/scripts/install.sh", "library", only, PREFIX)
        equal(f"no {file}: the library", found, (2, said(file, "is missing") + "\n"))
        check(f"no {file}: nothing is installed", not os.path.exists(only))
        copy.make(f"bin/{file}", 10)
    check_uninstall(copy, "without the library")


def check_refused(copy, name, lines, prefix=PREFIX):
    """Installs nothing, and says why."""
    shutil.rmtree(copy.stage, ignore_errors=True)
    equal(name, copy.run("install", prefix), (2, lines))
    check(f"{name}: nothing is installed", not os.path.exists(copy.stage))


def check_without_programs(copy):
    def said(name, fault):
        return f"install: bin/{name} {fault}: run 'make build' (35 minutes on four cores)"

    copy.age("bin/ttree", -10)
    check_refused(copy, "an old ttree", [said("ttree", "is older than its sources")])
    copy.make("bin/ttree", 10)
    os.remove(f"{copy.top}/bin/tracing_tree_read")
    check_refused(copy, "no tracing_tree_read", [said("tracing_tree_read", "is missing")])
    copy.make("bin/tracing_tree_read", 10)
    copy.age("crates.txt", 20)
    old = [said(it, "is older than its sources") for it in NAMES]
    check_refused(copy, "old programs", old)
    copy.age("crates.txt", 0)
    lines = ["install: PREFIX must begin with /: 'out'"]
    check_refused(copy, "a prefix that isn't absolute", lines, "out")
    shutil.rmtree(f"{copy.top}/bin")
    check_refused(copy, "nothing built", [said(it, "is missing") for it in NAMES])


def check_library(copy, prefix):
    """Installs only the library, as bindings/test.sh does."""
    status, said = ran(f"{copy.top}/scripts/install.sh", "library", "", prefix)
    equal("the library", (status, said), (0, ""))
    files = [f"{folder}/{it}" for folder, _, names in os.walk(prefix) for it in names]
    wanted = {*library_places(), "lib/libtracing_tree.so", "lib/pkgconfig/tracing_tree.pc"}
    equal("the library: files", {os.path.relpath(it, prefix) for it in files}, wanted)
    text = text_of(f"{prefix}/lib/pkgconfig/tracing_tree.pc")
    check("the library: prefix", f"prefix={prefix}\n" in text, text)


def check_archive(copy):
    """Installs all or nothing, and a pkg-config file that names its folder by its own place."""
    library = "run 'make bindings' (20 minutes on four cores)"
    program = "run 'make build' (35 minutes on four cores)"
    words = (f"{copy.top}/scripts/install.sh", "archive", copy.stage, PREFIX)
    for file, fault, age, remedy in (
        ("libtracing_tree.so.1", "is older than its sources", -10, library),
        ("libtracing_tree.a", "is missing", None, library),
        ("ttree", "is missing", None, program),
        ("tracing_tree", "is older than its sources", -10, program),
    ):
        shutil.rmtree(copy.stage, ignore_errors=True)
        copy.age(f"bin/{file}", age or 0)
        if age is None:
            os.remove(f"{copy.top}/bin/{file}")
        said = f"install: bin/{file} {fault}: {remedy}\n"
        equal(f"archive: {file} {fault}", ran(*words), (2, said))
        check(f"archive: {file} {fault}: nothing is installed", not os.path.exists(copy.stage))
        copy.make(f"bin/{file}", 10)
    equal("archive", ran(*words, preexec_fn=lambda: os.umask(0o077)), (0, ""))
    text = copy.compare("archive", True)
    check("archive: prefix", "prefix=${pcfiledir}/../..\n" in text and PREFIX not in text, text)
    if has("pkg-config", "the flags of an archive"):
        env = {**os.environ, "PKG_CONFIG_PATH": f"{copy.stage}{PREFIX}/lib/pkgconfig"}
        _, said = ran("pkg-config", "--cflags", "tracing_tree", env=env)
        folder = shlex.split(said)[0].removeprefix("-I")
        headers = ["tracing_tree.h", "tracing_tree.hpp"]
        equal("archive: headers", sorted(os.listdir(folder)), headers)
    check_uninstall(copy, "archive")


# What else an archive has: the place below its folder, and the file.
PARTS = {it: it for it in ("LICENSE-APACHE", "LICENSE-MIT")}
PARTS |= {"README.md": "bindings/README.md", "go/lib/tracing_tree.h": "bindings/c/tracing_tree.h"}
PARTS |= {f"c/{it}": f"bindings/c/{it}" for it in ("server.c", "server.cpp", "server.out")}
PARTS |= {f"{it}/lib/libtracing_tree.a": "bin/libtracing_tree.a" for it in ("go", "rust")}
PARTS |= {f"{it}/{of}": of for it in ("go", "rust") for of in ("LICENSE-APACHE", "LICENSE-MIT")}


def archive_places():
    """Returns the file that must be at each place of an archive, by its folder."""
    found = install_places() | library_places() | PARTS
    for package, endings in (("go", (".go", "go.mod")), ("rust", (".rs", ".toml", "README.md"))):
        for folder, folders, files in os.walk(f"{TOP}/bindings/{package}"):
            folders[:] = [it for it in folders if it not in ("target", ".cargo")]
            for file in files:
                if file.endswith(endings):
                    path = os.path.relpath(f"{folder}/{file}", f"{TOP}/bindings")
                    found[path] = f"bindings/{path}"
    return found


def check_dist(copy):
    """Writes an archive twice, and compares what it has. The date of the files is given."""
    date, found = 1700000000, []
    env = {**os.environ, "SOURCE_DATE_EPOCH": str(date)}
    version = re.search(r'(?m)^version = "(.*)"', text_of("bindings/rust/Cargo.toml"))[1]
    name = f"tracing_tree-{version}-x86_64-linux"
    for mask, zone in ((0o077, "UTC"), (0o002, "Asia/Kolkata")):
        shutil.rmtree(f"{copy.top}/dist", ignore_errors=True)
        how = {"env": {**env, "TZ": zone}, "preexec_fn": lambda mask=mask: os.umask(mask)}
        said = ran(f"{copy.top}/scripts/dist.sh", **how)
        equal("dist", said, (0, f"dist: wrote dist/{name}.tar.gz\n"))
        equal("dist: what it writes", os.listdir(f"{copy.top}/dist"), [f"{name}.tar.gz"])
        found.append(read(f"{copy.top}/dist/{name}.tar.gz"))
        for place in ("scripts/install.sh", "bindings/go/go.mod"):
            copy.age(place, 7)
    check("dist: two archives have the same bytes", found[0] == found[1])
    with tarfile.open(f"{copy.top}/dist/{name}.tar.gz") as archive:
        members = {os.path.relpath(it.name, name): it for it in archive}
        regular = {place: it for place, it in members.items() if it.isreg()}
        texts = {place: archive.extractfile(it).read() for place, it in regular.items()}
    equal("dist: dates", {it.mtime for it in members.values()}, {date})
    equal("dist: owners", {(it.uid, it.gid) for it in members.values()}, {(0, 0)})
    equal("dist: the link", members["lib/libtracing_tree.so"].linkname, "libtracing_tree.so.1")
    texts.pop("lib/pkgconfig/tracing_tree.pc")
    wanted = archive_places()
    equal("dist: files", {*texts}, {*wanted})
    for place in {*texts} & {*wanted}:
        is_run = place.startswith(("bin/", "lib/libtracing_tree.so"))
        mode = 0o755 if is_run else 0o644
        is_right = texts[place] == read(f"{copy.top}/{wanted[place]}")
        equal(f"dist: {place}", (members[place].mode, is_right), (mode, True))
    folders = {it.mode for it in members.values() if it.isdir()}
    equal("dist: folders", folders, {0o755})
    shutil.rmtree(f"{copy.top}/dist")
    os.remove(f"{copy.top}/bin/libtracing_tree.a")
    said = ("install: bin/libtracing_tree.a is missing: "
            "run 'make bindings' (20 minutes on four cores)\n")
    equal("dist without the library", ran(f"{copy.top}/scripts/dist.sh", env=env), (2, said))
    check("dist without the library: nothing is left", not os.path.exists(f"{copy.top}/dist"))
    copy.make("bin/libtracing_tree.a", 10)


def check_install(room):
    copy = Copy(room)
    check_library(copy, f"{room}/only the library")
    equal("all", copy.run("install"), (0, []))
    check_pkg_config(copy, copy.compare("all", True))
    linked = re.findall(r"\]\(([\w/.-]+)\)", text_of("README.md"))
    missing = {f"{DOCS}/{it}" for it in linked} - {*copy.installed()}
    equal("all: files that README links to", missing, set())
    equal("all again", copy.run("install"), (0, []))
    copy.compare("all again", True)
    check_uninstall(copy, "all")
    check_archive(copy)
    check_dist(copy)
    copy.age("crates/a/must-fail/x.edit", 20)
    copy.age("crates/a/out/x", 20)
    equal("after a change of what isn't a source", copy.run("install"), (0, []))
    copy.compare("after a change of what isn't a source", True)
    equal("into a file", copy.run("install", stage=f"{copy.top}/README.md")[0], 2)
    check_without_library(copy)
    check_without_programs(copy)
    check("no proof is started", not os.path.exists(copy.mark))


def main():
    if len(sys.argv) != 4:
        sys.exit("usage: install_test.py TREE READER TTREE")
    programs = dict(zip(NAMES, map(os.path.realpath, sys.argv[1:])))
    with tempfile.TemporaryDirectory(prefix="install-") as room:
        check_pages(programs, room)
        for name in NAMES[1:]:
            check_completions(name, programs[name])
        check_install(room)
    return RUNS.end()


if __name__ == "__main__":
    sys.exit(main())
