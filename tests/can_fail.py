"""The test command can fail: its runners are given edits, wrong programs, jobs and words of `rt ci` that must not pass, and some that
must. Tries its edits and wrong programs in the crates `tally` and `laws`. Ends in one line 'N passed, M failed'."""

import contextlib
import difflib
import io
import os
import re
import subprocess
import sys
import tempfile

import edits
import gate
import parts

AT = "# refused at: proofs/Totals/with returns\n"
HOLE = "file: proofs/Fold.antt\nold:     go false v e h = refl\nnew:     go false v e h = ?\n"
COUNTED = "file: src/lib.rt\nold:             count: self.count + 1,\nnew:             count: self.count + 2,\n"
FIRST = "file: src/lib.rt\nold:     if count == 0 ||\nnew:     if count == 1 ||\n"
# what an edit is like, its text, and whether it is refused, and for its reason
EDITS = [
    ("makes a fact fail where it says", AT + COUNTED, True, True),
    ("names the place by its file", AT.replace("with", "with/Answers") + COUNTED, True, True),
    ("names a goal of a function", "# refused at: src/lib.rt first_or returns\n" + FIRST, True, True),
    ("names a goal of another function", "# refused at: src/lib.rt Totals::with returns\n" + FIRST, True, False),
    ("names another goal", "# refused at: src/lib.rt first_or count\n" + FIRST, True, False),
    ("is refused elsewhere than it says", "# refused at: proofs/Laws with_totals\n" + COUNTED, True, False),
    ("names no place", COUNTED, True, False),
    ("names an empty place", "# refused at: \n" + COUNTED, True, False),
    ("is not in the file", AT + "file: src/lib.rt\nold: no such text\nnew: x\n", False, False),
    ("is in the file twice", AT + "file: src/lib.rt\nold: count\nnew: x\n", False, False),
    ("leads out of the crate", AT + "file: src/../../kinds/src/lib.rt\nold: a\nnew: b\n", False, False),
    ("replaces nothing", AT, False, False),
    ("does not parse", AT + "file: src/lib.rt\nold: self.count + 1\nnew: self.count +\n", False, False),
    ("names what is not there", AT + HOLE.replace("?", "no_such"), False, False),
    ("changes nothing", AT + "file: src/lib.rt\nold: of no record.\nnew: of no records.\n", False, False),
    ("has a hole beside", AT + COUNTED + HOLE, True, False),
]
SPECS, CODE, FOLD = "crates/tally/specs/Totals.antt", "crates/tally/src/lib.rt", "crates/tally/proofs/Fold.antt"
FALSE_FUNCTION = "pub fn seven(x: u32) -> u32\n    ensures { result ≡ 7 }\n{\n    x\n}\n"
FALSE_LAW = "pub false_one : (n : ℕ) → n ≡ n + 1\nfalse_one n = "
NO_NAME = ("go false v e h = refl", "go false v e h = no_such")
# what is wrong with a wrong program, the file that it changes, the change, and what the runner says
PATCHES = [
    ("is accepted", SPECS, lambda text: text.replace("of the records", "of records", 1), "accepted"),
    ("has a contract that fails", CODE, lambda text: text + FALSE_FUNCTION, "not only by a law of tally: fn tally::seven"),
    ("has a hole", SPECS, lambda text: text + FALSE_LAW + "?\n", "not admitted: has-holes"),
    ("leaves a proof open", SPECS, lambda text: text + FALSE_LAW + "_\n", "not admitted: unsolved"),
    ("has a name that is not there", FOLD, lambda text: text.replace(*NO_NAME), "first refusal is"),
    ("breaks a layer below", "crates/laws/specs/Totals.antt", lambda text: text + "pub broken : ℕ\n", "law of tally: crates/laws"),
    ("changes a layer beside", "crates/rows/src/lib.rt", lambda text: text + "// more\n", "rows, on which tally does not stand"),
    ("changes what is no crate", "crates.txt", lambda text: text + "# more\n", "on which tally does not stand"),
]
JOBS = [
    ("counts", "echo said; echo '2 passed, 0 failed'", (2, 0)),
    ("counts behind a name", "echo 'all: 2 passed, 0 failed'", (2, 0)),
    ("has a failure", "echo '2 passed, 1 failed'; exit 1", (2, 1)),
    ("ends badly without a failure", "echo '2 passed, 0 failed'; exit 1", (2, 1)),
    ("is killed", "echo '2 passed, 0 failed'; kill -9 $$", (2, 1)),
    ("counts nothing", "true", (0, 1)),
    ("counts none", "echo '0 passed, 0 failed'", (0, 1)),
    ("counts before its end only", "echo '2 passed, 0 failed'; echo broken", (0, 1)),
    ("does not find its command", "exec /no/such/command", (0, 1)),
]
OK = "rt: ok; handles allowed: none; must-fail edits: 3 refused{}; every proof and must-fail edit was done in this run\n"
# what `rt ci` is like, its status, what it says, and what is counted
PROOFS = [
    ("passes", 0, OK.format("") + "9 passed, 0 failed\n", (9, 0)),
    ("has bad edits", 0, OK.format(", 2 bad") + "9 passed, 0 failed\n", (9, 2)),
    ("has bad edits beside a limit", 0, OK.format(", 1 of them only by a limit, 1 bad") + "9 passed, 0 failed\n", (9, 1)),
    ("fails", 1, "rt: FAILED: tally\n8 passed, 1 failed\n", (8, 1)),
    ("is stopped", 2, "0 passed, 1 failed\n", (0, 1)),
    ("does not say that it is well", 0, "9 passed, 0 failed\n", (9, 1)),
    ("ends badly", 1, OK.format("") + "9 passed, 0 failed\n", (9, 1)),
    ("is cut off", -9, "rt: tally proved\n", (0, 1)),
]
passed = failed = 0


def note(name, good, shown=""):
    global passed, failed
    passed, failed = passed + bool(good), failed + (not good)
    if not good:
        print(f"failed: {name}: {shown}")


def try_edits(room):
    paths = [f"{room}/tally/edits/{number}.edit" for number in range(len(EDITS))]
    os.makedirs(f"{room}/tally/edits")
    for path, (_, text, _, _) in zip(paths, EDITS):
        with open(path, "w", encoding="utf8") as file:
            file.write(text)
    outcomes = edits.tried(paths)
    for path, (name, _, refused, reason) in zip(paths, EDITS):
        wrong, other = outcomes[path]
        note(f"an edit that {name}", (not wrong, not other) == (refused, reason), f"{wrong}; {other}")


def patch_of(file, change):
    text = open(f"{edits.TREE}/{file}", encoding="utf8").read()
    lines = difflib.unified_diff(text.splitlines(True), change(text).splitlines(True), f"a/{file}", f"b/{file}")
    return "refused: crates/tally/proofs/Fold.antt encode_with\n" + "".join(lines)


def try_patches(room):
    tries = [(name, patch_of(file, change), wanted) for name, file, change, wanted in PATCHES]
    accepted = tries[0][1]
    tries.append(("names no theorem", accepted.replace("refused:", "not"), "names no theorem"))
    tries.append(("renames a file", accepted + "rename from crates/tally/src/lib.rt\n", "no plain patch"))
    tries.append(("does not apply", accepted.replace("-- The totals", "-- No totals"), "does not apply"))
    for number, (_, text, _) in enumerate(tries):
        with open(f"{room}/{number}.patch", "w", encoding="utf8") as file:
            file.write(text)
    command = [f"{edits.TREE}/wrong/check", *(f"{room}/{number}.patch" for number in range(len(tries)))]
    ended = subprocess.run(command, stdout=subprocess.PIPE, stderr=subprocess.STDOUT, text=True)
    said = dict(re.findall(r"^(\d+)\.patch: (.*)$", ended.stdout, re.M))
    for number, (name, _, wanted) in enumerate(tries):
        note(f"a wrong program that {name}", wanted in said.get(str(number), ""), said.get(str(number)))
    note("the wrong programs in all", ended.returncode == 1 and ended.stdout.endswith(f"\n0 passed, {len(tries)} failed\n"), ended.stdout)


def try_jobs():
    jobs = [parts.Job("part", "first", ["bash", "-c", "echo '1 passed, 0 failed'"])]
    jobs += [parts.Job("part", name, ["bash", "-c", command], after=["first"]) for name, command, _ in JOBS]
    others = [("is not there", (0, 1)), ("waits for a job that failed", (0, 1)), ("is alone", (1, 0))]
    jobs.append(parts.Job("part", "is not there", ["/no/such/command"]))
    jobs.append(parts.Job("part", "waits for a job that failed", ["echo", "1 passed, 0 failed"], after=["has a failure"]))
    jobs.append(parts.Job("part", "is alone", ["echo", "1 passed, 0 failed"], after=["first"], alone=True))
    pool = gate.Pool(["part", "a part without a job"], jobs)
    with contextlib.redirect_stdout(io.StringIO()):
        pool.run()
        totals = pool.report()
    found = {job.name: pool.results[job][:2] for job in jobs}
    for name, wanted in [*((name, wanted) for name, _, wanted in JOBS), *others]:
        note(f"a job that {name}", found[name] == wanted, found[name])
    passed_in_all, failed_in_all = (sum(result[i] for result in found.values()) for i in (0, 1))
    note("what all of them count, and a part without a job", totals == [passed_in_all, failed_in_all + 1], totals)


def try_proofs():
    for name, status, said, wanted in PROOFS:
        note(f"`rt ci` that {name}", gate.of_proofs(status, said) == wanted, gate.of_proofs(status, said))


if __name__ == "__main__":
    with tempfile.TemporaryDirectory(dir=os.environ.get("TEST_ROOM")) as folder:
        try_edits(folder)
        try_patches(folder)
    try_jobs()
    try_proofs()
    print(f"{passed} passed, {failed} failed")
    sys.exit(failed > 0)
