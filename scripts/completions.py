#!/usr/bin/env python3
"""Writes a program's completions for bash, zsh and fish: completions.py NAME PROGRAM

They go to completions/, and are made from what PROGRAM prints with --help. It may be compiled
without its proofs."""
import os, re, subprocess, sys, textwrap

TOP = os.path.dirname(os.path.dirname(os.path.abspath(__file__)))
OPTION = re.compile(r" +(?:-(\w), )?(?:    )?--([a-z-]+)(?:( |\[=)<(\w+)>\]?)? +(.*)")


class Option:
    """An option as --help prints it. `value` is the value's name, or None for a flag. An `optional`
    value comes after `=`."""

    def __init__(self, short, long, before, value, text):
        self.short, self.long, self.value, self.text = short, long, value, text
        self.optional = before == "[="
        listed = re.search(r"\[possible values: (.*?)\]", text)
        self.values = listed[1].split(", ") if listed else []
        default = re.search(r"\[default: (.*?)\]", text)
        self.default = default[1] if default else None
        # A menu has space for the first part.
        self.summary = re.split(r"[;:,] | \[", text)[0]

    def names(self):
        return [f"--{self.long}", *[f"-{self.short}"] * bool(self.short)]


class Help:
    """The arguments of a program: its options, and whether it takes a file."""

    def __init__(self, program):
        text = subprocess.check_output([program, "--help"], timeout=60).decode()
        listed = text.partition("\nOptions:\n")[2].partition("\n\n")[0].split("\n")
        found = [OPTION.fullmatch(line) for line in listed if line]
        if not found or not all(found):
            raise ValueError(f"{program} --help: an unknown line under Options: {listed}")
        self.options = [Option(*it.groups()) for it in found]
        self.takes_file = "[FILE]" in text

    def names(self):
        return [name for option in self.options for name in option.names()]


def quoted(text):
    """Returns a string as one word of a shell."""
    return "'" + text.replace("'", "'\\''") + "'"


def bash(name, given):
    """Returns the completion for bash."""
    cases = "".join(f"""\
        --{it.long}) words='{" ".join(it.values)}' ;;
""" for it in given.options if it.values)
    free = "|".join(f"--{it.long}" for it in given.options if it.value and not it.values)
    # Without a result, readline completes the name of a file.
    no_file = "compopt +o default 2> /dev/null; " if given.takes_file else ""
    default = "-o default " if given.takes_file else ""
    words = "\n".join(textwrap.wrap(" ".join(given.names()), 80, break_on_hyphens=False))
    words = words.replace("\n", "\n            ")
    return f"""\
# The completion of {name} for bash. Written by scripts/completions.py.
_{name}() {{
    local word=${{COMP_WORDS[COMP_CWORD]}} before=${{COMP_WORDS[COMP_CWORD - 1]}} words=
    COMPREPLY=()
    # Bash makes three words of --option=value.
    if [ "$word" = = ]; then
        word=
    elif [ "$before" = = ]; then
        before=${{COMP_WORDS[COMP_CWORD - 2]}}
    fi
    case $before in
{cases}        {free}) {no_file}return ;;
        *)
            [[ $word == -* ]] || return
            words='{words}'
            ;;
    esac
    mapfile -t COMPREPLY < <(compgen -W "$words" -- "$word")
}}
complete {default}-F _{name} {name}
"""


def zsh(name, given):
    """Returns the completion for zsh."""
    def described(option):
        return "[" + re.sub(r"([\[\]:\\])", r"\\\1", option.summary) + "]"

    words = []
    for it in given.options:
        if it.short:
            words.append(f"'(- *)'{{-{it.short},--{it.long}}}{quoted(described(it))}")
        elif it.value:
            values = f"({' '.join(it.values)})" if it.values else ""
            mark, colon = ("=-", "::") if it.optional else ("=", ":")
            words.append(quoted(f"--{it.long}{mark}{described(it)}{colon}{it.value}:{values}"))
        else:
            words.append(quoted(f"--{it.long}{described(it)}"))
    if given.takes_file:
        words.append(quoted("::FILE:_files"))
    lines = " \\\n".join(f"    {it}" for it in words)
    return f"""\
#compdef {name}
# The completion of {name} for zsh. Written by scripts/completions.py.
_arguments -S \\
{lines}
"""


def fish(name, given):
    """Returns the completion for fish."""
    lines = [f"# The completion of {name} for fish. Written by scripts/completions.py.\n"]
    if not given.takes_file:
        lines.append(f"complete -c {name} -f\n")
    for it in given.options:
        short = f" -s {it.short}" if it.short else ""
        # No value is a file. An optional one comes after `=`.
        value = " -f" if it.optional else " -x" if it.value else ""
        values = f" -a '{' '.join(it.values)}'" if it.values else ""
        text = it.summary.replace("\\", "\\\\").replace("'", "\\'")
        lines.append(f"complete -c {name}{short} -l {it.long}{value}{values} -d '{text}'\n")
    return "".join(lines)


def files(name, given):
    """Returns the contents of each file of completions/ for this program."""
    texts = (bash(name, given), zsh(name, given), fish(name, given))
    return dict(zip((f"{name}.bash", f"_{name}", f"{name}.fish"), texts))


def main():
    if len(sys.argv) != 3:
        sys.exit("usage: completions.py NAME PROGRAM")
    name, program = sys.argv[1:]
    os.makedirs(f"{TOP}/completions", exist_ok=True)
    for file, text in files(name, Help(os.path.realpath(program))).items():
        with open(f"{TOP}/completions/{file}", "w", encoding="utf-8") as it:
            it.write(text)


if __name__ == "__main__":
    main()
