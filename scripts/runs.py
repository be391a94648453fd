"""Counts the runs of a script, and finds the counts that a script prints."""
import re

# The last line of a script that counts runs.
ENDED = re.compile(r"(\d+) of (\d+) (?:runs ended as they must|cases agree|events are under the spans of their lines)")


class Runs:
    """The number of a script's runs, and of those that ended as they must."""

    def __init__(self, name):
        self.name, self.all, self.right = name, 0, 0

    def add(self, is_right, fault=""):
        """Counts a run. Prints `fault` if the run didn't end as it must."""
        self.all += 1
        self.right += bool(is_right)
        if fault and not is_right:
            print(fault, flush=True)

    def add_some(self, count, wrong):
        """Counts runs. `wrong` of them didn't end as they must."""
        self.all += count
        self.right += count - wrong

    def end(self, more="", may_be_empty=False):
        """Prints the counts. Returns the script's status, which is 1 if a run ended otherwise. It
        is also 1 without a run, unless the runs may be left out."""
        print(f"{self.name}: {self.right} of {self.all} runs ended as they must{more}", flush=True)
        return 0 if self.right == self.all and (self.all or may_be_empty) else 1


def ended_in(said):
    """Returns how many of a script's runs passed and how many there were, from its output. Returns
    None if the output has no such line."""
    found = ENDED.search(said)
    return (int(found[1]), int(found[2])) if found else None


def passed_in(said, name=r"\w+"):
    """Returns how much passed and how much failed, from the output of a script with this name.
    Returns None if the output has no such line."""
    found = re.search(rf"(?m)^{name}: (\d+) passed, (\d+) failed$", said)
    return (int(found[1]), int(found[2])) if found else None
