"""The kit's `rt` as a module, with one name for what kits do differently. It reads edits and checks
an edited copy of a crate."""
import importlib.machinery, importlib.util, os, shutil, sys

WANTED = ("checked", "must_fail", "read_edit", "rtlib")


class Kit:
    def __init__(self, rt):
        self.rt, self.rtlib, self.checked = rt, rt.rtlib, rt.checked
        # The result of `rt must-fail` for a refused edit: a word in some kits, a bool in others.
        self.refused = getattr(rt, "REFUSED", True)

    def proving(self, is_anew):
        """Returns the command that proves a whole repository. With `is_anew`, a kit that keeps
        proofs ignores them."""
        return ["rt", "ci", *["--anew"] * (is_anew and hasattr(self.rt, "Kept"))]

    def must_fail(self, crate, path, flags, kept):
        """Returns whether the prover refuses the crate with this edit, and a sentence about it."""
        told, said = self.rt.must_fail(crate, path, flags, kept)
        return told == self.refused, said

    def is_proved_here(self, crate):
        """Returns whether a check on this machine proved the crate's current sources and left
        incremental results, with which a build is quick. A kit that doesn't record such checks
        proves each build from nothing."""
        if not hasattr(self.rt, "places_of"):
            return False
        stamp = crate.stamp()
        return any(proved == stamp and os.path.isdir(f"{it}/out/incremental") for it, proved in self.rt.places_of(crate))

    def store(self, crates, is_anew):
        """Returns the kit's store of `rt ci` results, or None if the kit has no such store."""
        return self.rt.Kept(crates, is_anew) if hasattr(self.rt, "Kept") else None

    def sum_of(self, crate):
        """Returns a checksum of the kit, the crate and its dependencies. Requires a kit that keeps
        results."""
        return self.rt.stamp_of(crate, {})


def load():
    path = shutil.which("rt")
    if not path:
        sys.exit("the kit's command rt is not on the PATH")
    loader = importlib.machinery.SourceFileLoader("kit_rt", os.path.realpath(path))
    made = importlib.util.module_from_spec(importlib.util.spec_from_loader("kit_rt", loader))
    sys.modules["kit_rt"] = made
    loader.exec_module(made)
    lacking = [it for it in WANTED if not hasattr(made, it)]
    if lacking:
        sys.exit(f"this kit's rt lacks {', '.join(lacking)}: the trial of edits was written for the kits that README names")
    return Kit(made)
