#!/usr/bin/env python3
"""Tries the edits that the prover must refuse, many in one check.

usage: edits.py [--plan] [--lanes N] [--sample N] [--share N] [--anew] [CRATE..]

The proof of a function uses the contracts of what it calls, not their bodies. So a round tries
edits in a copy of the crate in which every other function's body is `unreachable!()`, without a
proof. Next to a function the round puts copies of it, with its clauses: each has one edit, and one
has no edit. The edit is refused if its copy fails at its own goal and the copy without an edit is
let through. That a copy calls a function without a proof shows nothing.

Some functions can't have such copies: a method of a trait or of its impl, and a function in a cycle
of calls. They are edited in place, with one edit in each check, and one more check has no edit. An
edit of several functions is also tried in place, and so is an edit of a constant, in the functions
that name it. With --share N one in N of the functions is tried without an edit.

The code of `rt must-fail` tries each edit that a round doesn't refuse, in a check for that edit
only. Examples are an edit of a definition and an edit that doesn't compile among the others. An
edit fails if it is proved or doesn't apply. It also fails if the only refusal is a type error, a
limit of the prover, or a proof file that names what the edit removed. harmless.edit changes no
meaning. It is tried like the others and must be let through: otherwise no refusal shows anything.

If the kit keeps what it proved, refusals are kept too. The key is a checksum of everything that a
refusal depends on: the kit, the crate and its dependencies, the edit, this file and kit.py. An edit
whose refusal is kept isn't tried again, unless --anew is given.

Prints a line for each edit that it tries, and at the end 'edits: N passed, M failed'. --plan only
prints the rounds. --sample N takes N of the edits that a round refused and tries each in a check
for that edit only. An edit fails if `rt must-fail` doesn't refuse it."""
import argparse, concurrent.futures, copy, functools, hashlib, os, re, shutil, sys, tempfile, threading, time
from collections import defaultdict
from dataclasses import dataclass, replace

import kit as kits

TOP = os.path.dirname(os.path.dirname(os.path.abspath(__file__)))
# The most memory that the check of an edit takes, in KiB. No check starts while less is available.
ROOM = 3_000_000
# The intended number of trials in a round: edits, and functions without one.
LONG = 48

FUNCTION = re.compile(rb"(?m)^[ \t]*(?P<words>(?:[a-z]+(?:\([a-z]+\))? +)*)fn (?P<name>\w+)")
# An impl, or a trait, whose methods may have bodies.
OWNER = re.compile(rb"(?m)^(?:impl\b(?P<head>[^{]*)|(?:pub +)?trait +(?P<trait>\w+)[^{]*)\{")
CLAUSE = re.compile(rb"[ \t]*(requires|ensures|decreases|ghost|where)\b")
CONST = re.compile(rb"[ \t]*(?:pub(?:\([a-z]+\))? +)?const +(\w+) *:")
# What the check reports for a goal that it couldn't prove. GOAL has the file and the line of the
# function, and ANSWER has the folder of its proof.
GOAL = re.compile(r"note: (?P<file>src/\S+?\.rt):(?P<line>\d+):\d+: (?P<goal>it is not proved that.*|.*`search` gave up.*)")
ANSWER = re.compile(r"(?:\./)?proofs/(?P<folder>\S+)/(?:Answers|Invariants|Proof)\.antt:\d+:\d+: error: (?P<goal>.*)")
COMPILES = re.compile(r"(?m)^(src/\S+?\.rt):(\d+):\d+: error")
# The last line of a check that reached a verdict on some functions or on all.
ENDED = re.compile(r"(?m)^(logic=not-proved|only=\d+ proved=|logic=proved)")
# The status of a check if the name after an --only fits no function or several functions.
UNKNOWN = 2
# What antt reports if a proof names what an edit removed. It says nothing about a contract.
NAMES = re.compile(r"has no field|is not in scope|has no `|was not admitted|cannot continue|expected the end|write the case `goal")
# The place at which antt breaks such a message into two lines. `rt must-fail` shows only the first: CUT.
BROKEN = re.compile(r"\n +(?=has no )")
CUT = re.compile(r"error: (`[^`]+`: )*(module `|record `|write the case `goal)")
ONLY_NAMES = "only because a proof file names what the edit took away"
# The prefix of a refusal that an earlier run kept.
KEPT = "kept: "
# What `rt must-fail` says if the crate is still proved with the edit.
LET_THROUGH = "NOT REFUSED"
# The body of a function that isn't tried, and the files of a proof. Such a function's proof is
# empty.
NO_BODY = b"{\n    unreachable!()\n}"
PROOF = ("Invariants.antt", "Answers.antt", "Proof.antt")
# The edit that must be let through, and its crate.
HARMLESS, ITS_CRATE = f"{TOP}/scripts/harmless.edit", "tracing_tree_base"


@dataclass(frozen=True)
class Body:
    """A function's body: its file, its name, the folder of its proofs, its first and last line, and
    four offsets in the file. `top` is the start of its attributes, `head` of its signature and
    `start` of its braces, and `end` is behind them. A method of a trait or of a trait's impl
    `is_of_trait`."""

    file: str
    name: str
    folder: str
    first: int
    last: int
    top: int
    head: int
    start: int
    end: int
    is_const: bool
    is_of_trait: bool

    @property
    def tail(self):
        """The last two parts of the function's path in the check. They don't depend on the module
        that an impl is in."""
        return "::".join(self.folder.split("/")[-2:])


@dataclass(frozen=True)
class Change:
    """A replacement in a source file. `at` is the offset in the unchanged file."""

    file: str
    at: int
    old: bytes
    new: bytes


@dataclass(frozen=True)
class Edit:
    """An edit: its crate, its file, its changes, and the functions in which a round tries it (empty
    if no round does). `is_copied`: it is tried in a copy of its only function, not in place."""

    crate: str
    path: str
    changes: tuple
    bodies: tuple
    is_copied: bool

    @property
    def name(self):
        return f"{self.crate}/{os.path.basename(self.path)}"


@dataclass(frozen=True)
class Tried:
    """One trial of a round: an edit in these functions, or these functions without an edit."""

    edit: Edit | None
    bodies: tuple
    is_copied: bool


@dataclass(frozen=True)
class Verdict:
    edit: Edit
    is_refused: bool
    why: str


def read(path):
    with open(path, "rb") as file:
        return file.read()


def closing(text, at):
    """Returns the offset after the brace that closes the brace at `at`."""
    depth = 0
    for brace in re.compile(rb"[{}]").finditer(text, at):
        depth += 1 if brace[0] == b"{" else -1
        if not depth:
            return brace.end()
    return len(text)


def body_after(text, at):
    """Returns the start and the end of a function's braces, or None if it has no body."""
    while True:
        stop = re.compile(rb"[;{]").search(text, at)
        if not stop or stop[0] == b";":
            return None
        end, line = closing(text, stop.start()), text.rfind(b"\n", 0, stop.start()) + 1
        if not CLAUSE.match(text[line : stop.start()]):
            return stop.start(), end
        at = end


def owner_of(head):
    """Returns the check's name of an impl: the words of its type, then those of its trait."""
    head, taken = re.split(r"\bwhere\b", re.sub(r"'\w+|->", "", head))[0], []
    if head.lstrip().startswith("<"):
        depth = 0
        for at, it in enumerate(head):
            depth += {"<": 1, ">": -1}.get(it, 0)
            if it in "<," and depth == 1:
                taken += re.findall(r"\A\s*(?:const\s+)?(\w+)", head[at + 1 :])
            elif it == ">" and not depth:
                head = head[at + 1 :]
                break
    trait, is_trait, kind = head.partition(" for ")
    # The paths before the two names are left out. Those in their brackets are kept.
    trait, kind = (re.sub(r"^\s*(\w+::)*", "", it) for it in (trait, kind))
    if is_trait and not kind.strip("() "):
        kind = "Unit"
    elif kind.startswith("&"):
        kind = f"Ref {kind}"
    words = re.findall(r"\w+", f"{kind} {trait}" if is_trait else trait)
    return "".join(it[0].upper() + it[1:] for it in words if it not in taken)


def bodies_of(file, text):
    """Returns the bodies in a source file. In `text` its comments, strings and characters are
    replaced by blanks."""
    owners = []
    for it in OWNER.finditer(text):
        name = it["trait"].decode() if it["trait"] else owner_of(it["head"].decode())
        owners.append((it.start(), closing(text, it.end() - 1), name, bool(it["trait"]) or b" for " in it["head"]))
    module = file.removeprefix("src/").removesuffix(".rt")
    found = []
    for fn in FUNCTION.finditer(text):
        places = body_after(text, fn.end())
        if not places:
            continue
        owner, is_of_trait = next(((it, of) for start, end, it, of in owners if start <= fn.start() < end), ("", False))
        name = fn["name"].decode()
        folder = "/".join(it for it in ("" if module in ("lib", "main") else module, owner, name) if it)
        # A note has the line of the first attribute, which may be above the function's comment.
        above = re.search(rb"(?m)^(?:[ \t]*(?:#\[[^\n]*)?\n)*\Z", text[: fn.start()])
        top = above.start() if above else fn.start()
        first, last = (text.count(b"\n", 0, it) + 1 for it in (top, places[1]))
        found.append(Body(file, name, folder, first, last, top, fn.start(), *places, b"const" in fn["words"], is_of_trait))
    return found


def all_bodies(kit, crate):
    """Returns the bodies of a crate, by source file."""
    found = {}
    for path, text in kit.rtlib.blanked(crate.folder).items():
        if path.endswith(".rt"):
            file = os.path.relpath(path, crate.folder)
            bodies = bodies_of(file, text.encode())
            found[file] = [replace(it, folder=proofs_of(crate, it.folder)) for it in bodies]
    return found


def proofs_of(crate, folder):
    """Returns the folder of a function's proofs. An impl may be in a module below that of its type.
    The proofs of its methods are then in a folder of the type's module."""
    parts = folder.split("/")
    for last in range(len(parts) - 2, -1, -1):
        found = "/".join(parts[:last] + parts[-2:])
        if os.path.isdir(f"{crate.folder}/proofs/{found}"):
            return found
    return folder


def pairs_of(path):
    """Returns the replacements in an edit's file, each with its source file, old and new string."""
    file, old, pairs = "", b"", []
    for line in read(path).split(b"\n"):
        if line.startswith(b"file: "):
            file = line[6:].strip().decode()
        elif line.startswith(b"old: "):
            old = line[5:]
        elif line.startswith(b"new:"):
            pairs.append((file, old, line[4:].removeprefix(b" ")))
    return tuple(pairs)


def changes_of(pairs, texts):
    """Returns an edit's changes, or nothing if it doesn't apply. Each old string must occur exactly
    once after the pairs before it were applied."""
    made, found = dict(texts), []
    for file, old, new in pairs:
        if not old or made.get(file, b"").count(old) != 1:
            return ()
        at = made[file].index(old)
        before = [it for it in found if it.file == file and it.at < at]
        made[file] = made[file].replace(old, new)
        found.append(Change(file, at - sum(len(it.new) - len(it.old) for it in before), old, new))
    return tuple(found)


def is_in_cycle(crate, body, text):
    """Returns whether the function calls itself or is one of several that call one another. Such
    functions have a separate folder of proofs."""
    at, _, name = body.folder.rpartition("/")
    return b"#[cycle" in text[body.top : body.head] or os.path.isdir(f"{crate.folder}/proofs/{at}/+{name}")


def bodies_at(change, texts, bodies):
    """Returns the function that contains a change. If the change is in a constant, returns the
    functions that name the constant. May return nothing."""
    text, end = texts[change.file], change.at + len(change.old)
    within = [it for it in bodies[change.file] if it.head <= change.at and end <= it.end]
    const = CONST.match(text, text.rfind(b"\n", 0, change.at) + 1)
    if within or not const or b"macro_rules" in text[: change.at]:
        return [it for it in within if not it.is_const and b"macro_rules" not in text[: it.head]]
    named = re.compile(rb"\b" + const[1] + rb"\b")
    return [it for file, found in bodies.items() for it in found if named.search(texts[file], it.start, it.end)]


def edit_at(path, crate, bodies):
    """Returns the edit in a file for a crate with these bodies."""
    texts = {file: read(f"{crate.folder}/{file}") for file in bodies}
    changes = changes_of(pairs_of(path), texts)
    found = [bodies_at(it, texts, bodies) for it in changes]
    every = tuple(dict.fromkeys(it for near in found for it in near)) if all(found) else ()
    is_within = len(every) == 1 and all(every[0].head <= it.at <= every[0].end for it in changes)
    is_copied = is_within and not every[0].is_of_trait and not is_in_cycle(crate, every[0], texts[every[0].file])
    return Edit(crate.name, path, changes, every, is_copied)


def edits_of(crate, folder, bodies):
    """Returns the edits in a folder for a crate with these bodies."""
    names = [it for it in sorted(os.listdir(folder)) if it.endswith(".edit")]
    return [edit_at(f"{folder}/{it}", crate, bodies) for it in names]


def rounds_of(edits, share):
    """Returns rounds of about the same length, and the edits that no round tries. One in `share` of
    the functions with edits is also tried without an edit. If a round edits a function in place, no
    other trial of that round uses the function."""
    edited = [Tried(it, it.bodies, it.is_copied) for it in edits if it.bodies]
    functions = [Tried(None, *it) for it in dict.fromkeys((it.bodies, it.is_copied) for it in edited)][::share]
    rounds = [[] for _ in range(-(-(len(edited) + len(functions)) // LONG))]
    # Trials in place come first, since they don't fit into every round.
    for it in sorted(edited + functions, key=lambda it: it.is_copied):
        # A copy is only tried next to other copies: an edit in place may be of a constant that the
        # copy names.
        free = [found for found in rounds if all((it.is_copied and other.is_copied) or not set(it.bodies) & set(other.bodies) for other in found)]
        # A function without an edit gets no extra round, unless all of them must be tried.
        if not free and (it.edit or share == 1):
            rounds.append([])
            free = rounds[-1:]
        if free:
            min(free, key=len).append(it)
    return rounds, [it for it in edits if not it.bodies]


def applied(text, at, changes):
    """Returns a part of a source file with these changes. `at` is the part's offset in the file."""
    for it in sorted(changes, key=lambda it: -it.at):
        text = text[: it.at - at] + it.new + text[it.at - at + len(it.old) :]
    return text


def folders_told(folder, goal):
    """Returns the folders that the body of a reported goal may have. A cycle's proofs are in a
    folder whose name starts with a plus sign. The rest of the name is the cycle's only function;
    otherwise each goal starts with its function's name."""
    top, _, last = folder.rpartition("/")
    own = re.match(r"`(\w+)-", goal) if last.startswith("+") else None
    return [folder.replace("+", ""), *([f"{top}/{own[1]}"] if own else [])]


def told_at(line, bodies):
    """Returns the body whose own goal is refused in a line of the check's output, and the goal.
    Returns None for any other line. The body is None if the line fits no known body."""
    goal, answer = GOAL.match(line), ANSWER.match(line)
    if goal:
        near = [it for it in bodies.get(goal["file"], []) if it.first <= int(goal["line"]) <= it.last]
        return (near[-1] if near else None), goal["goal"]
    if not answer or NAMES.search(answer["goal"]):
        return None
    folders = folders_told(answer["folder"], answer["goal"])
    every = [it for found in bodies.values() for it in found]
    near = next((found for folder in folders if (found := [it for it in every if it.folder == folder])), [])
    # An impl may be in another module than its type.
    near = near or [it for it in every if "/" in it.folder and folders[0].endswith("/" + "/".join(it.folder.split("/")[-2:]))]
    return (near[0] if len(near) == 1 else None), f"proofs/{answer['folder']}: {answer['goal']}"


def goals_in(output, bodies):
    """Returns the first refused goal of each body that has one, and the lines whose refused goal
    fits no known body."""
    own, strange = {}, []
    for line in BROKEN.sub(" ", output).split("\n"):
        told = told_at(line, bodies)
        if told and told[0]:
            own.setdefault(told[0], told[1])
        elif told:
            strange.append(line)
    return own, strange


class Refusals:
    """The refusals of earlier runs on this machine. They are in the kit's store of `rt ci` results,
    if it has such a store."""

    def __init__(self, kit, crates, is_anew):
        self.kit, self.store = kit, kit.store(crates, is_anew)
        self.own = hashlib.sha256(read(os.path.abspath(__file__)) + read(kits.__file__)).hexdigest()
        self.sum_of = functools.lru_cache(maxsize=None)(kit.sum_of)
        # The names of the edits when this run looked them up.
        self.names = {}

    def name_of(self, crate, edit):
        """Returns the key of an edit's refusal: a checksum of everything that it depends on."""
        return self.store.of_edit(edit.path, (self.own, self.sum_of(crate)))

    def known(self, crate, edit):
        """Returns why an earlier run refused the edit, or None if no such refusal is kept."""
        if not self.store:
            return None
        name = self.names[edit] = self.name_of(crate, edit)
        kind, why = self.store.tried(name) or (None, None)
        return why if kind == self.kit.refused else None

    def keep(self, crate, verdict):
        """Keeps a refusal. Keeps nothing if the edit has changed since this run looked it up, or if
        a file of the crate or its dependencies was touched since this run started."""
        if not self.store:
            return
        name = self.name_of(crate, verdict.edit)
        is_same = name == self.names[verdict.edit] and all(self.store.is_untouched(it) for it in (crate, *crate.below()))
        if verdict.is_refused and is_same:
            self.store.keep_tried(name, self.kit.refused, verdict.why)


class Room:
    """A copy of a crate for a round. A function that isn't tried in place has no body and no proof.
    Functions that are const, in a cycle or after a macro keep both."""

    def __init__(self, kit, crate, bodies, trials, folder):
        self.kit, self.crate, self.bodies, self.folder = kit, crate, bodies, folder
        self.made = copy.copy(crate)
        self.made.folder = folder
        self.texts = {file: read(f"{crate.folder}/{file}") for file in bodies}
        self.placed = [it for it in trials if not it.is_copied]
        # The copies of each function with their names, and the trials by folder of proofs.
        self.copies, self.trials = defaultdict(list), defaultdict(list)
        for n, it in enumerate(trials):
            for body in it.bodies:
                above, name = os.path.dirname(body.folder), f"{body.name}_{'edited' if it.edit else 'unedited'}_{n}"
                self.trials[os.path.join(above, name) if it.is_copied else body.folder].append(it)
                if it.is_copied:
                    self.copies[body].append((name, it))
        self.names = [name for found in self.copies.values() for name, _ in found]
        self.lay_out()

    def lay_out(self):
        for part in self.kit.rtlib.PARTS:
            if os.path.isdir(f"{self.crate.folder}/{part}"):
                shutil.copytree(f"{self.crate.folder}/{part}", f"{self.folder}/{part}")
        stay = {body for it in self.placed for body in it.bodies}
        for file, found in self.bodies.items():
            # A macro's functions are unchanged: what looks like a function there may not be one.
            macros = self.texts[file].find(b"macro_rules")
            gone = [it for it in found if it not in stay and not it.is_const and not (0 <= macros < it.head)]
            self.write_source(file, [it for it in gone if not is_in_cycle(self.crate, it, self.texts[file])])

    def write_source(self, file, gone):
        """Writes a source file without the bodies of some functions, with the copies of functions
        and with the edits in place."""
        text = self.texts[file]
        changes = [it for trial in self.placed if trial.edit for it in trial.edit.changes if it.file == file]
        for body in gone:
            self.drop_proof(body)
            changes.append(Change(file, body.start, text[body.start : body.end], NO_BODY))
        for body, found in self.copies.items():
            beside = b"".join(self.copied(body, name, trial.edit) for name, trial in found)
            if body.file == file:
                changes.append(Change(file, body.end, b"", beside))
        with open(f"{self.folder}/{file}", "wb") as made:
            made.write(applied(text, 0, changes))

    def copied(self, body, name, edit):
        """Returns a copy of a function under another name, with the edit if there is one. Also
        copies its proof."""
        part = applied(self.texts[body.file][body.top : body.end], body.top, edit.changes if edit else ())
        own, old = f"{self.folder}/proofs/{body.folder}", f".{body.folder.replace('/', '.')}"
        proof = f"{self.crate.folder}/proofs/{body.folder}"
        for it in PROOF:
            if os.path.isfile(f"{proof}/{it}"):
                text = re.sub(rf"(?<=\.proofs){re.escape(old)}(?![\w-])", f"{old[: -len(body.name)]}{name}", read(f"{proof}/{it}").decode())
                os.makedirs(f"{os.path.dirname(own)}/{name}", exist_ok=True)
                with open(f"{os.path.dirname(own)}/{name}/{it}", "w", encoding="utf-8") as made:
                    made.write(text.replace(f"{body.name}_spec", f"{name}_spec"))
        return b"\n" + re.sub(rb"\bfn +" + body.name.encode() + rb"\b", b"fn " + name.encode(), part, count=1)

    def drop_proof(self, body):
        """Gives a function an empty proof, so that the check doesn't look for one."""
        own = f"{self.folder}/proofs/{body.folder}"
        os.makedirs(own, exist_ok=True)
        for it in PROOF:
            if os.path.isfile(f"{own}/{it}"):
                os.remove(f"{own}/{it}")
        with open(f"{own}/Proof.antt", "w", encoding="utf-8"):
            pass

    def check(self):
        """Checks the functions that are tried and returns the output. If the check doesn't accept
        their names, since two paths can have the same end, checks the whole crate."""
        tails = [*self.names, *(body.tail for it in self.placed for body in it.bodies)]
        only = [word for it in tails for word in ("--only", it)]
        ran = self.kit.checked(self.made, {}, ["--jobs", "1", *only], None)
        return ran.stdout if ran.returncode != UNKNOWN else self.kit.checked(self.made, {}, ["--jobs", "1"], None).stdout

    def told(self, output):
        """Returns the goal at which each trial is refused, and the refusals that fit no function of
        the crate or of the round."""
        own, strange = goals_in(output, all_bodies(self.kit, self.made))
        known = {it.folder for found in self.bodies.values() for it in found}
        beyond = [it.folder for it in own if it.folder not in self.trials and it.folder not in known]
        return {trial: goal for body, goal in own.items() for trial in self.trials.get(body.folder, [])}, strange + beyond

    def not_compiled(self, output):
        """Returns the trials whose functions don't compile."""
        bodies, places = all_bodies(self.kit, self.made), [(file, int(line)) for file, line in COMPILES.findall(output)]
        folders = {it.folder for file, n in places for it in bodies.get(file, []) if it.first <= n <= it.last}
        return [it for folder in folders for it in self.trials.get(folder, [])]


class Trial:
    """The edits of one crate: its rounds, and the edits that no round tries."""

    def __init__(self, kit, crate, folder, room, say, known=lambda edit: None, share=1):
        self.kit, self.crate, self.room, self.say = kit, crate, room, say
        self.bodies = all_bodies(kit, crate)
        self.edits = edits_of(crate, folder, self.bodies)
        told = {it: known(it) for it in self.edits}
        self.refused = [Verdict(it, True, f"{KEPT}{why}") for it, why in told.items() if why]
        self.rounds, self.alone = rounds_of([it for it in self.edits if not told[it]], share)
        # The goals of the functions that were refused without an edit. If such a function is
        # refused with an edit, that shows nothing.
        self.bad = {}

    def plan(self):
        kept = f", and {len(self.refused)} whose refusal is kept" if self.refused else ""
        rounds = [f"{sum(bool(it.edit) for it in found)} and {sum(not it.edit for it in found)} functions" for found in self.rounds]
        return f"{self.crate.name}: {len(self.edits)} edits, in rounds of {', '.join(rounds) or 'none'}, {len(self.alone)} alone{kept}"

    def try_alone(self, edit):
        """Returns the verdict of `rt must-fail`. The edit fails if the only refusal is a name in a
        proof file or a limit of the prover."""
        wait_for_memory()
        is_refused, said = self.kit.must_fail(self.crate, edit.path, ["--jobs", "1"], None)
        why = said.partition(": ")[2]
        if is_refused and CUT.search(why) and self.is_by_names(edit):
            why = f"{ONLY_NAMES}: {why}"
        return Verdict(edit, is_refused and ONLY_NAMES not in why, f"alone: {why}")

    def is_by_names(self, edit):
        """Returns whether no goal of the edit's functions is refused. For an edit that no round
        tries, returns whether no goal at all is refused."""
        texts = {it.file: applied(read(f"{self.crate.folder}/{it.file}"), 0, [i for i in edit.changes if i.file == it.file]) for it in edit.changes}
        output = self.kit.checked(self.crate, {file: it.decode() for file, it in texts.items()}, ["--jobs", "1"], None).stdout
        own, _ = goals_in(output, self.bodies)
        return not own if not edit.bodies else not any(it in own for it in edit.bodies)

    def try_round(self, trials):
        """Tries a round. Returns a verdict for each edit that the check refused, and the edits that
        it didn't refuse."""
        wait_for_memory()
        with tempfile.TemporaryDirectory(dir=self.room) as folder:
            room = Room(self.kit, self.crate, self.bodies, trials, folder)
            output = room.check()
            told, strange = room.told(output) if ENDED.search(output) else ({}, [])
            if not ENDED.search(output) or strange:
                self.say(f"{self.crate.name}: beyond the edits: {(strange or output.strip().splitlines()[-1:] or ['no word'])[0]}")
                return self.halves(trials, room.not_compiled(output))
        self.bad.update({body.folder: goal for it, goal in told.items() if not it.edit for body in it.bodies})
        edits = [it for it in trials if it.edit]
        return [Verdict(it.edit, True, f"refused at {told[it]}") for it in edits if it in told], [it.edit for it in edits if it not in told]

    def halves(self, trials, bad):
        """Tries an inconclusive round again, without the trials that don't compile. If all compile,
        tries it in two halves."""
        if len(trials) == 1 or len(bad) == len(trials):
            return [], [it.edit for it in trials if it.edit]
        good = [it for it in trials if it not in bad]
        parts = [good] if bad else [trials[: len(trials) // 2], trials[len(trials) // 2 :]]
        tried = [self.try_round(it) for it in parts]
        return [it for found, _ in tried for it in found], [it.edit for it in bad if it.edit] + [it for _, left in tried for it in left]

    def doubt(self, verdict):
        """Returns the verdict. If one of the edit's functions is refused without the edit too,
        returns a failed verdict."""
        goal = next((self.bad[it.folder] for it in verdict.edit.bodies if it.folder in self.bad), None)
        return verdict if not goal else Verdict(verdict.edit, False, f"shows nothing, since its function is refused without it too, at {goal}")


def wait_for_memory():
    while available() < ROOM:
        time.sleep(2)


def available():
    with open("/proc/meminfo", encoding="ascii") as file:
        return int(re.search(r"MemAvailable:\s+(\d+)", file.read())[1])


class Edits:
    """Tries the edits of all crates in several threads. A crate's edits start when `take` is
    called. The crates that it depends on must have been built by then."""

    def __init__(self, kit, crates, lanes, say, sample=0, is_anew=False, share=1):
        self.kit, self.say, self.sample, self.share = kit, say, sample, share
        self.refusals = Refusals(kit, crates, is_anew)
        self.room = tempfile.TemporaryDirectory(prefix="edits-")
        self.pool = concurrent.futures.ThreadPoolExecutor(lanes)
        self.trials, self.tasks, self.verdicts, self.bad = [], [], [], []
        self.lock = threading.Lock()

    def take(self, crate, folder):
        """Starts to try a crate's edits in the background."""
        trial = Trial(self.kit, crate, folder, self.room.name, self.say, lambda edit: self.refusals.known(crate, edit), self.share)
        self.trials.append(trial)
        self.say(trial.plan())
        self.verdicts += trial.refused
        # Each run tries the harmless edit, even if all refusals are kept.
        self.run(trial)

    def start(self, call, *given):
        with self.lock:
            self.tasks.append(self.pool.submit(call, *given))

    def run(self, trial):
        """Starts to try a crate's edits. The refusals of rounds are reported after the last round,
        since a function may be tried with and without an edit in different rounds."""
        if trial.crate.name == ITS_CRATE:
            self.start(self.try_harmless, trial)
        ended, lock = [], threading.Lock()
        for n, it in enumerate(trial.rounds):
            self.start(self.round, trial, n, it, ended, lock)
        for it in trial.alone:
            self.start(self.alone, trial, it)

    def round(self, trial, n, trials, ended, lock):
        start = time.time()
        refused, left = trial.try_round(trials)
        self.say(f"{trial.crate.name} round {n + 1} of {len(trial.rounds)}: {len(refused)} of {len(refused) + len(left)} refused", start)
        with lock:
            ended.append(refused)
            is_last = len(ended) == len(trial.rounds)
        for it in [it for found in ended for it in found] if is_last else []:
            self.add(trial, trial.doubt(it))
        for it in left:
            self.alone(trial, it)

    def alone(self, trial, edit):
        self.add(trial, trial.try_alone(edit))

    def try_harmless(self, trial):
        """Tries the edit that changes no meaning like the others. If it isn't let through, the run
        fails."""
        edit = edit_at(HARMLESS, trial.crate, trial.bodies)
        refused, left = trial.try_round([Tried(edit, edit.bodies, edit.is_copied)]) if edit.bodies else ([], [edit])
        told = refused + [trial.try_alone(it) for it in left]
        is_well = not told[0].is_refused and LET_THROUGH in told[0].why
        self.say(f"harmless edit of {trial.crate.name}: {'let through, as it must be' if is_well else f'FAILED: {told[0].why[:240]}'}")
        if not is_well:
            self.bad.append("harmless.edit is not let through")

    def add(self, trial, verdict):
        self.refusals.keep(trial.crate, verdict)
        with self.lock:
            self.verdicts.append(verdict)
        self.say(f"must-fail {verdict.edit.name}: {'' if verdict.is_refused else 'FAILED: '}{verdict.why[:240]}")

    def compare(self):
        """Takes some of the edits that a round refused, spread evenly over the crates, and tries
        each in a check for that edit only. Returns their number, and the names of those that
        `rt must-fail` doesn't refuse."""
        by_round = sorted((it.edit for it in self.verdicts if it.why.startswith("refused at")), key=lambda it: it.name)
        count = min(self.sample, len(by_round))
        drawn = [by_round[n * len(by_round) // count] for n in range(count)]
        trials = {it.crate.name: it for it in self.trials}
        singly = list(self.pool.map(lambda it: trials[it.crate].try_alone(it), drawn))
        for it in singly:
            self.say(f"single {it.edit.name}: {'' if it.is_refused else 'FAILED: '}{it.why[:240]}")
        return count, [it.edit.name for it in singly if not it.is_refused]

    def finish(self):
        """Waits until all edits have been tried. Returns the number of edits that were refused, as
        they must be, and the names of those that failed."""
        at = 0
        while at < len(self.tasks):
            self.tasks[at].result()
            at += 1
        count, differ = self.compare()
        if count:
            self.say(f"{count} edits of rounds tried alone too: {count - len(differ)} refused there as well")
        self.pool.shutdown()
        self.room.cleanup()
        refused = {it.edit.name for it in self.verdicts if it.is_refused} - {*differ}
        return len(refused), self.bad + sorted({it.edit.name for it in self.verdicts} - refused)


def folder_of(crate):
    """Returns the folder of a crate's edits."""
    return f"{TOP}/crates/{crate.name}/must-fail"


def say(text, start=None):
    took = f" ({(time.time() - start) / 60:.1f} min)" if start else ""
    print(f"edits: {text}{took}", flush=True)


def main():
    asked = argparse.ArgumentParser(description=__doc__, formatter_class=argparse.RawDescriptionHelpFormatter)
    asked.add_argument("--plan", action="store_true")
    asked.add_argument("--lanes", type=int, default=len(os.sched_getaffinity(0)))
    asked.add_argument("--sample", type=int, default=0)
    asked.add_argument("--share", type=int, default=1)
    asked.add_argument("--anew", action="store_true")
    asked.add_argument("crates", nargs="*")
    asked = asked.parse_args()
    kit = kits.load()
    kit.rtlib.guarded()
    every = kit.rtlib.crates_below(TOP)
    crates = [it for it in every if os.path.isdir(folder_of(it))]
    unknown = set(asked.crates) - {it.name for it in crates}
    if unknown:
        sys.exit(f"edits: no crate with edits is named {', '.join(sorted(unknown))}")
    crates = [it for it in crates if not asked.crates or it.name in asked.crates]
    if asked.plan:
        with tempfile.TemporaryDirectory() as room:
            for it in crates:
                say(Trial(kit, it, folder_of(it), room, say, share=asked.share).plan())
        return 0
    edits = Edits(kit, every, asked.lanes, say, asked.sample, asked.anew, asked.share)
    for crate in crates:
        if any(dep.build_rlib(["--jobs", "1"], anew=False) for dep in crate.below()):
            return 1
        edits.take(crate, folder_of(crate))
    passed, failed = edits.finish()
    for it in failed:
        say(f"FAILED: {it}")
    print(f"edits: {passed} passed, {len(failed)} failed")
    return 1 if failed else 0


if __name__ == "__main__":
    sys.exit(main())
