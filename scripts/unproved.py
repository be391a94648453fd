#!/usr/bin/env python3
"""Compiles a program without its proofs: unproved.py CRATE PROGRAM

`rt try` compiles a program with checks (of bounds, overflow and memory), runs it, and leaves no
executable. So the executable is copied while it runs on a long input. Nothing is proved about this
copy."""
import glob, os, shutil, subprocess, sys, tempfile, time

# The first line of a long input for each program, and the line that is repeated after it. The run
# leaves time to copy the program. The programs write nothing while they read, since `rt try` ends a
# run that writes more than 1 MiB.
LONG = {
    "tracing_tree_cli": ("{}\n", '{"call":"record","id":1}\n'),
    "tracing_tree_read": ("├─ INFO x\n", "│  x\n"),
    "ttree": ("\n", '{"Action":"pause","Package":"p"}\n'),
}
LINES = 2_000_000


def fail(why):
    print(f"unproved: {why}", file=sys.stderr)
    sys.exit(1)


def write_input(path, crate):
    """Writes the program's long input."""
    first, line = LONG[crate]
    with open(path, "w", encoding="utf-8") as file:
        file.write(first + line * LINES)


def running(room):
    """Returns the running program in this folder, if there is one. It is an argument of the
    loader."""
    for file in glob.glob("/proc/[0-9]*/cmdline"):
        try:
            with open(file, "rb") as it:
                words = it.read().decode(errors="replace").split("\0")
        except OSError:
            continue
        found = [it for it in words if it.startswith(f"{room}/") and it.endswith("/program")]
        if found and "/ld-linux" in words[0]:
            return found[0]
    return None


def copy_program(crate, to):
    """Copies the executable that `rt try` makes, while it runs."""
    top = os.path.dirname(os.path.dirname(os.path.abspath(__file__)))
    with tempfile.TemporaryDirectory(prefix="unproved-") as room, open(f"{room}/said", "w+b") as said:
        write_input(f"{room}/input", crate)
        with open(f"{room}/input", "rb") as given:
            how = {"stdin": given, "stdout": subprocess.DEVNULL, "stderr": said, "env": {**os.environ, "TMPDIR": room}}
            tried = subprocess.Popen(["rt", "try", "--steps", "1"], cwd=f"{top}/crates/{crate}", **how)
        found = None
        while not found and tried.poll() is None:
            time.sleep(0.05)
            found = running(room)
        if found:
            shutil.copy(found, to)
        tried.terminate()
        tried.wait()
        if not found:
            said.seek(0)
            fail(f"rt try ran no program of {crate}:\n{said.read().decode(errors='replace')}")


def main():
    if len(sys.argv) != 3 or sys.argv[1] not in LONG:
        fail(f"usage: unproved.py CRATE PROGRAM, with one of {' '.join(LONG)}")
    if not shutil.which("rt"):
        fail("the kit's command rt is not on the PATH")
    copy_program(sys.argv[1], sys.argv[2])


if __name__ == "__main__":
    main()
