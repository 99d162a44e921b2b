#!/usr/bin/env python3
"""Proves each crate of the tree in the current folder from nothing, and tries the edits in their must-fail/, on as many processors as
RT_JOBS says, the edits of a crate on several. It is for those versions of the kit whose `rt` keeps nothing of what it tried: there `rt ci`
and `rt must-fail` try the edits of a crate one behind the other, and `rt ci` tells of them at its end alone, where this tells of some ten
edits at a time. Both the proofs and the judgement of an edit are the kit's own: this orders them. The last line is 'N passed, M failed'.
Where the kit keeps what it tried, or its rt is without the functions named below, the status is 3 and nothing is done."""
import copy
import importlib.machinery
import importlib.util
import os
import shutil
import sys
import tempfile

ONE_JOB = ["--jobs", "1"]
# So many edits share a copy of what a check of their crate kept, in which each finds what those before it left.
TOGETHER = 10
OF_RT = "checked edits_of in_lanes must_fail need say".split()
OF_RTLIB = "crates_below guarded".split()
OF_CRATE = "below build_rlib count".split()


def kit_of(path):
    loader = importlib.machinery.SourceFileLoader("rt", path)
    kit = importlib.util.module_from_spec(importlib.util.spec_from_loader("rt", loader))
    loader.exec_module(kit)
    return kit


class Trials:
    """The proofs and the trials of edits of one crate."""

    def __init__(self, kit, crate, room):
        self.kit, self.crate, self.kept = kit, crate, f"{room}/{crate.name}"
        self.edits = kit.edits_of(crate)[0]

    def say(self, is_well, what):
        self.kit.say(f"{self.crate.name}: {what} {'proved' if is_well else 'NOT PROVED'}")
        return is_well

    def build(self):
        """Proves the library from nothing, for the crates above it."""
        crate = copy.copy(self.crate)
        crate.cuts_libraries = True
        os.makedirs(f"{crate.folder}/out", exist_ok=True)
        with tempfile.TemporaryFile("a+", errors="replace") as crate.out:
            is_proved = not crate.build_rlib(ONE_JOB, anew=True)
            crate.out.seek(0)
            if not is_proved:
                print(crate.out.read(), end="", flush=True)
        return self.say(is_proved, "its library is")

    def keep(self):
        """Checks the crate from nothing once more, and keeps what that proved."""
        os.makedirs(self.kept)
        return self.say(not self.kit.checked(self.crate, {}, ONE_JOB, self.kept).returncode, "what its edits begin from is")

    def attempt(self, first):
        """Tries a few edits. One that is not refused over what was kept is tried from nothing, and so is each where the crate itself
        is not proved any more over what the edits left."""
        edits = self.edits[first : first + TOGETHER]
        with tempfile.TemporaryDirectory(prefix="edits-") as room:
            kept = shutil.copytree(self.kept, f"{room}/kept")
            tried = [self.kit.must_fail(self.crate, it, ONE_JOB, kept) for it in edits]
            is_sound = not self.kit.checked(self.crate, {}, ONE_JOB, kept).returncode
        tried = [it if is_sound and it[0] else self.kit.must_fail(self.crate, edit, ONE_JOB) for edit, it in zip(edits, tried)]
        for _, text in tried:
            self.kit.say(text)
        return all(is_refused for is_refused, _ in tried)


def tasks_of(kit, crates, room):
    """Returns what is to be done, by names, as in_lanes of rt wants it: what it waits for, its work in lines, its memory, and the call,
    which is made only where all that it waits for went well."""
    tasks = {}
    used = {below.name for crate in crates for below in crate.below()}
    for crate in crates:
        trials, lines, memory = Trials(kit, crate, room), crate.count(rb"\n"), kit.need(crate)

        def add(key, waits, lines, call, memory=memory):
            tasks[key] = waits, lines, memory, lambda given, jobs: all(given[it] for it in waits) and call()

        below = [(it.name, "library") for it in crate.below()]
        if crate.name in used:
            add((crate.name, "library"), below, lines, trials.build)
        if trials.edits:
            add((crate.name, "kept"), below, lines // 10, trials.keep)
        for first in range(0, len(trials.edits), TOGETHER):
            add((crate.name, "edits", first), [(crate.name, "kept")], lines // 10, lambda first=first, it=trials: it.attempt(first))
    return tasks


def main():
    kit = kit_of(os.path.realpath(shutil.which("rt")))
    wanted = [(kit, OF_RT), (kit.rtlib, OF_RTLIB), (kit.rtlib.Crate, OF_CRATE)]
    # A kit that keeps what it tried spreads the edits of a crate over the processors itself, and its verdicts are no plain yes and no.
    if hasattr(kit, "Kept") or not all(hasattr(whose, it) for whose, names in wanted for it in names):
        return 3
    kit.rtlib.guarded()
    crates = sorted(kit.rtlib.crates_below(os.getcwd()), key=lambda it: len(it.below()))
    with tempfile.TemporaryDirectory(prefix="kept-") as room:
        given = kit.in_lanes(tasks_of(kit, crates, room))
    failed = [" ".join(map(str, key)) for key, is_well in given.items() if not is_well]
    if failed:
        kit.say(f"FAILED: {', '.join(failed)}")
    print(f"{len(given) - len(failed)} passed, {len(failed)} failed")
    return 1 if failed or not given else 0


if __name__ == "__main__":
    sys.exit(main())
