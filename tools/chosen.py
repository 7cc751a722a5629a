#!/usr/bin/env python3
"""Which checks a run of CI makes of those that are too dear to be made at each landing: mutants, definition faults,
examples and stress.

A run has MINUTES processor minutes for them. Half go to the checks whose own files changed last, the newest first; the
other half to a random choice of the rest, by crates, with the commit's id as the seed. So a changed check runs at once,
an unchanged one sooner or later, and nothing is stored. `./prove release` runs all of them.

A check's own files are those that can make it wrong: of a mutant its edit, the source files that it changes and the
proofs of the functions that it changes; of a definition fault its text and the definitions of its crate; of an example
its crate; of stress the crates whose types threads share. All that changed since `origin/main` is equally new. A clone
of depth one has no ages: there all checks are chosen at random.

usage: tools/chosen.py            prints the checks that `./prove ci` would run, each with its reason
"""
import collections, hashlib, pathlib, re, subprocess, sys

sys.dont_write_bytecode = True
sys.path.insert(0, str(pathlib.Path(__file__).resolve().parent))
from functions import functions_of, pairs_of
from repository import examples, files_below, lines, root, stands_on, tell_help

# The budget of one run, in processor minutes.
MINUTES = 60
KINDS = ("mutant", "fault", "example", "stress")
STRESS = "test_stress"
# The names of the crates with types that threads share.
SHARED = re.compile(r"_lock|_shared|_shards|_slots|_hash_index|_history")
# About the processor seconds of a kind's checks in one crate: those of the first step, and those of each check.
SECONDS = {"mutant": (30, 12), "fault": (90, 4), "example": (0, 90), "stress": (300, 0)}
# The same of each mutant of these crates.
SLOW = {"elsa_run": 26}

# A check, with the paths of its own files; what was chosen, of which the first are the newest, the number of commits that
# these reach back (None without ages), and the number of all checks.
Check = collections.namedtuple("Check", "kind crate name files")
Choice = collections.namedtuple("Choice", "checks newest reach all")


def seconds_of(kind, crate, count):
    """About the processor seconds that checks of one kind and crate take together."""
    first, each = SECONDS[kind]
    return first + count * (SLOW.get(crate, each) if kind == "mutant" else each)


# ---- the checks


def mutant_files(top, crate, edit):
    """The edit, the files that it changes, and the proof files of the functions that it changes."""
    folder, found = top / "crates" / crate, [edit]
    for path, old, _ in pairs_of(edit):
        text = (folder / path).read_text()
        at = text.count("\n", 0, max(text.find(old), 0))
        names = {it.name for it in functions_of(pathlib.Path(path), text) if it.first <= at <= it.last}
        proofs = (folder / "proofs").rglob("*.antt")
        found += [folder / path, *(it for it in proofs if names & set(it.relative_to(folder).parts))]
    return found


def all_checks(top=root):
    """All checks of a tree."""
    crates, found = lines(top), []
    for crate in crates:
        folder = top / "crates" / crate
        for it in sorted((folder / "must-fail").glob("*.edit")):
            found.append(("mutant", crate, f"{crate}/{it.stem}", mutant_files(top, crate, it)))
        for it in sorted((folder / "definition-faults").glob("*.fault")):
            found.append(("fault", crate, f"{crate}/{it.stem}", [it, *files_below(folder / "specs")]))
    found += [("example", it, it, files_below(top / "crates" / it)) for it in examples(top)]
    if STRESS in crates:
        shared = [it for it in stands_on(STRESS, top=top) if SHARED.search(it) or it == STRESS]
        found.append(
            ("stress", STRESS, STRESS, [it for name in shared for it in files_below(top / "crates" / name / "src")])
        )
    return [Check(*own, frozenset(str(it.relative_to(top)) for it in files)) for *own, files in found]


# ---- the ages


def git(*words, top=root):
    """What git prints; None where it fails."""
    done = subprocess.run(["git", *words], cwd=top, capture_output=True, text=True)
    return done.stdout if done.returncode == 0 else None


def ages(top=root):
    """The number of commits since each file changed last; 0 for all that changed since origin/main, committed or not.
    None where the clone lacks the commits before HEAD."""
    if git("rev-parse", "--is-shallow-repository", top=top) != "false\n":
        return None
    found = {}
    log = git("log", "--format=%x00", "--name-only", "--no-renames", top=top) or ""
    for number, block in enumerate(log.split("\0")[1:]):
        for file in block.split():
            found.setdefault(file, number)
    base = (git("merge-base", "HEAD", "origin/main", top=top) or "HEAD").strip()
    changed = git("diff", "--name-only", "--no-renames", base, top=top) or ""
    new = git("ls-files", "--others", "--exclude-standard", top=top) or ""
    return found | dict.fromkeys((changed + new).split(), 0)


# ---- the choice


def chosen(checks, age, seed, minutes=MINUTES):
    """Chooses of the checks, with the ages of their files, by the seed."""

    def drawn(*words):
        return hashlib.sha256(" ".join([seed, *words]).encode()).digest()

    known = checks if age is not None else []
    age_of = {it: min([age[file] for file in it.files if file in age], default=sys.maxsize) for it in known}
    taken, counts = [], collections.Counter()

    def fits(check, limit):
        more = counts + collections.Counter([(check.kind, check.crate)])
        if sum(seconds_of(*key, count) for key, count in more.items()) > 60 * limit:
            return False
        counts[check.kind, check.crate] += 1
        taken.append(check)
        return True

    reach = 0
    for it in sorted(age_of, key=lambda it: (age_of[it], drawn(it.kind, it.name))):
        if not fits(it, minutes / 2):
            break
        reach = age_of[it]
    newest = len(taken)
    for it in sorted(set(checks) - set(taken), key=lambda it: (drawn(it.kind, it.crate), drawn(it.kind, it.name))):
        fits(it, minutes)
    return Choice(taken, newest, reach if age is not None else None, len(checks))


def choice(top=root):
    """What CI runs at the present tree."""
    return chosen(all_checks(top), ages(top), (git("rev-parse", "HEAD", top=top) or "").strip())


def told(made):
    """A sentence on a choice."""
    ages = (
        "a shallow clone has no ages, so "
        if made.reach is None
        else f"{made.newest} newest, {made.reach} commits back, and "
    )
    count = f"{len(made.checks)} of {made.all} checks in about {MINUTES} processor minutes"
    return f"{count}: {ages}{len(made.checks) - made.newest} at random"


if __name__ == "__main__":
    tell_help(__doc__)
    made = choice()
    for number, it in enumerate(made.checks):
        print(f"{it.kind} {it.name}: {'newest' if number < made.newest else 'at random'}")
    print(told(made))
