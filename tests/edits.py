"""Edits that the prover must refuse, and why it refuses them. crates/CRATE/must-fail/ has the few that `rt ci` tries itself,
crates/CRATE/edits/ the others, in the same format; these are tried here, by `rt ci` too: in a copy of the repository, outside it, in which
they stand in must-fail/. There it takes what it has kept of the crates' proofs, and of edits that nothing has changed since. An edit
counts twice: it is refused, and for its reason, that is, the first error that `rt` names says that a fact fails and stands at the
statement that the edit itself names as the one that it makes false ('# refused at: FILE NAME').
usage: edits.py [--anew] [EDIT..]    tries these edits, or all of crates/*/edits; --anew proves and tries all from nothing
       edits.py --reasons LOG        looks why `rt ci`, which wrote LOG here, refused those of crates/*/must-fail
Ends in one line 'N passed, M failed'."""

import glob
import os
import re
import sys

import prover

TREE = os.path.dirname(os.path.dirname(os.path.abspath(__file__)))
# What `rt` says of each edit that it tries.
SAID = re.compile(r"^rt: must-fail (\w+)/([\w.-]+)\.edit: (.*)$", re.M)
REFUSED = "refused, as it must be"
# What the prover says where a fact fails. Any other error (a name that is gone, a text that no longer parses) shows nothing.
FACT = re.compile(
    r"it is not proved that|give a proof of that as the last argument|the two (types|values|sides) |expected type "
    r"|the goal does not follow|no proof (of|was found)|no equation of the list has an instance"
)
# The proof file no longer fits the code: that is no fact.
MISFIT = re.compile(r"expected type `[^`]*\bGoals\b|is not in scope|has no field|has no `|not admitted")
# A place in an .antt file, and a goal of the proof that is made for a function, for which `rt` gives a line of the code.
AT_LEMMA = re.compile(r"(?:\./)?((?:specs|proofs)/[^:]*)\.antt:\d+:\d+: error: `([^`]*)`")
AT_LINE = re.compile(r"(?:note: )?(?:\./)?(src/[^:]*\.rt):(\d+):\d+: ")
GOAL = re.compile(r"\(`([a-z][\w-]*)`\)")


def crate_and_label(edit):
    return edit.split(os.sep)[-3], os.path.basename(edit).removesuffix(".edit")


def path_of(file, function):
    """The path below proofs/ of a function's proof: its module, its type and its name."""
    modules = re.sub(r"^src/|(/mod)?\.rt$", "", file)
    return "/".join(["proofs", *([modules] if modules not in ("lib", "main") else []), *function.split("::")])


def function_at(file, line):
    """The function, with its type, that encloses a line of a source file that `rt fmt` has laid out."""
    function = kind = ""
    texts = open(file, encoding="utf8").read().split("\n")
    # a function begins with its attributes
    while texts[line - 1].lstrip().startswith("#["):
        line += 1
    for text in texts[:line]:
        if found := re.match(r"impl\b(?:<[^{]*?>)? (?:[^{]*? for )?(\w+)", text):
            kind = f"{found[1]}::"
        elif found := re.match(r"( *)(?:pub(?:\(\w+\))? )?(?:const )?fn (\w+)", text):
            function = (kind if found[1] else "") + found[2]
    return function


def place(error, folder):
    """Where an error stands: the path below the crate's folder, for a function that of its proof, and the statement, where it is told."""
    if found := AT_LEMMA.match(error):
        return re.sub(r"/(Proof|Answers|Invariants)$", "", found[1]), found[2]
    if found := AT_LINE.match(error):
        goal = GOAL.search(error)
        return path_of(found[1], function_at(f"{folder}/{found[1]}", int(found[2]))), goal[1] if goal else ""
    return "", ""


def wanted_place(text):
    """The place that an edit names: 'proofs/FILE NAME', 'specs/FILE NAME', or 'src/FILE FUNCTION GOAL'."""
    words = text.split()
    if len(words) == 3 and words[0].startswith("src/"):
        return path_of(*words[:2]), words[2]
    return (re.sub(r"/(Proof|Answers|Invariants)$", "", words[0]), words[1]) if len(words) == 2 else ("", "")


def is_there(error, folder, wanted):
    """A goal's name goes on with the branch that it is in, as returns-then-n-eq0; a file's statement has its name alone."""
    (file, name), (wanted_file, wanted_name) = place(error, folder), wanted
    is_same = name == wanted_name or (AT_LINE.match(error) and (name.startswith(f"{wanted_name}-") or not name))
    return bool(wanted_file) and file == wanted_file and bool(is_same)


def is_fact(error):
    return bool(FACT.search(error)) and not MISFIT.search(error)


def has_hole(text):
    """Whether an edit writes a hole, or a proof that is left to the prover, into an .antt file."""
    file, holes = "", {}
    for line in text.split("\n"):
        kind, _, words = line.partition(":")
        if kind == "file":
            file = words.strip()
        elif kind in ("old", "new"):
            holes[kind] = len(re.findall(r"(?<![^\s(,])(?:\?\w*|_)(?![^\s),])", words))
            if kind == "new" and file.endswith(".antt") and holes["new"] > holes.get("old", 0):
                return True
    return False


def reason(edit, said, folder):
    """'' where the first error is the one that the edit promises, else what is wrong. `rt` gives the first 160 letters of it."""
    text = open(edit, encoding="utf8").read()
    wanted = re.findall(r"^# refused at: (.+)$", text, re.M)
    error = said.removeprefix(f"{REFUSED}: ")
    if len(wanted) == 1 and is_there(error, folder, wanted_place(wanted[0])) and is_fact(error) and not has_hole(text):
        return ""
    return f"to be refused at '{', '.join(wanted)}', and is refused for: {error}"


def outcome(edit, said, folder):
    """What is wrong with the refusal of an edit, and with its reason; each '' where nothing is."""
    if said is None:
        return "NOT TRIED: the crate, or one below it, is not proved", "not tried"
    if not re.match(rf"{REFUSED}(: |$)", said):
        return (said, "not tried") if not said.startswith(REFUSED) else ("", said)
    return "", reason(edit, said, folder)


def told(said):
    return {(crate, label): text for crate, label, text in SAID.findall(said)}


def tried(edits, anew=False):
    """Tries these edits in one copy; for each what is wrong with its refusal and with its reason."""
    with prover.room() as room:
        work = f"{room}/repository"
        prover.copy_crates(TREE, {crate_and_label(edit)[0] for edit in edits}, work)
        for edit in edits:
            crate, label = crate_and_label(edit)
            os.makedirs(f"{work}/crates/{crate}/must-fail", exist_ok=True)
            with open(edit, "rb") as text, open(f"{work}/crates/{crate}/must-fail/{label}.edit", "wb") as copy:
                copy.write(text.read())
        _, said = prover.ci(work, anew)
        lines = told(said)
        if not lines:
            print(said[-2000:])
        return {edit: outcome(edit, lines.get(crate_and_label(edit)), f"{work}/crates/{crate_and_label(edit)[0]}") for edit in edits}


def try_all(edits, anew):
    failed = 0
    for edit, (wrong, other) in tried(edits, anew).items():
        print(f"{'/'.join(crate_and_label(edit))}: {'; '.join(filter(None, (wrong, other))) or 'refused, at the statement that it names'}")
        failed += bool(wrong) + bool(other)
    print(f"{prover.processor_seconds():.0f} s of processor")
    return 2 * len(edits) - failed, failed


def strays():
    """Edits that stand where neither `rt ci` nor this runner looks."""
    found = set(glob.glob("**/*.edit", root_dir=TREE, recursive=True))
    return sorted(path for path in found if not re.fullmatch(r"crates/[^/]+/(must-fail|edits)/[^/]+|crates/[^/]+/out/.*|target/.*", path))


def reasons(log):
    passed, failed = 0, len(strays())
    for path in strays():
        print(f"{path}: tried by nobody; it belongs into crates/CRATE/edits/")
    lines = told(open(log, encoding="utf8").read())
    for edit in sorted(glob.glob(f"{TREE}/crates/*/must-fail/*.edit")):
        crate, label = crate_and_label(edit)
        other = "; ".join(filter(None, outcome(edit, lines.get((crate, label)), f"{TREE}/crates/{crate}")))
        passed, failed = passed + (not other), failed + bool(other)
        if other:
            print(f"{crate}/{label}: {other}")
    return passed, failed


def main(words):
    if words[:1] == ["--reasons"] and len(words) == 2:
        passed, failed = reasons(words[1])
    else:
        anew = words[:1] == ["--anew"]
        edits = [os.path.abspath(word) for word in words[anew:]] or sorted(glob.glob(f"{TREE}/crates/*/edits/*.edit"))
        passed, failed = try_all(edits, anew)
    print(f"{passed} passed, {failed} failed")
    return failed > 0 or passed == 0


if __name__ == "__main__":
    sys.exit(main(sys.argv[1:]))
