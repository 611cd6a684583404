"""What the test command checks beside `rt ci`: its parts in the order in which they are printed, the jobs of each, and what a job waits
for. The layout of the sources is no part: `rt ci` refuses what `rt fmt` would change."""

PARTS = PROVED, CAN_FAIL, REASONS, EDITS, TEETH, ALONE, COMPARED, FAULTS, READERS = (
    "proofs, must-fail edits and programs",
    "the test command can fail",
    "reasons of the must-fail edits",
    "the other edits, and their reasons",
    "teeth of the promises",
    "the second program by itself",
    "our programs and the second program",
    "seeded faults, against our programs",
    "a stock reader, the longest text, small pieces",
)
PROOFS, SECOND, STARTED = "rt ci", "second program", "programs started"
KINDS, PROGRAMS = ("accepted", "broken", "jobs", "limits", "heavy"), ("totals", "trace")
SECOND_PROGRAM = "target/second/release/second"
PROGRAM = "crates/{0}/out/{0}"


class Job:
    """A command that waits until these jobs have ended well. One that is `alone` has both processors to itself, and comes last."""

    def __init__(self, part, name, command, after=(), alone=False):
        self.part, self.name, self.command = part, name, command
        self.after, self.alone = after, alone

    def missing(self, well):
        return [name for name in self.after if name not in well]


def shell(script):
    return ["bash", "-c", script]


def compared(count):
    """Our programs and the second program print the same, byte for byte, on seeded cases of each kind. A difference is shown with its seed
    and the command that shows it again."""
    script = f"{SECOND_PROGRAM} compare --kind %s --from 1 --count {count} --jobs 1 --%s %s"
    return [
        Job(COMPARED, f"compare {kind} {program}", shell(script % (kind, program, PROGRAM.format(program))), after=[SECOND, STARTED])
        for kind in KINDS
        for program in PROGRAMS
    ]


def jobs(long, log):
    """`log` is what `rt ci` wrote."""
    totals, trace = (PROGRAM.format(program) for program in PROGRAMS)
    catch = f"{SECOND_PROGRAM} catch --totals {totals} --trace {trace} --from 0 --count 300"
    # ./run would prove anew what changed after it was built
    changed = rf"find crates crates.txt -not -path '*/out/*' -newer {totals} \( -name '*.rt' -o -name '*.antt' -o -name crates.txt \) -print"
    started = f"{changed} | grep . && exit 1; ./run > /dev/null && ./run --trace > /dev/null && echo '1 passed, 0 failed'"
    alone = f"command -v cargo > /dev/null || {{ echo 'test: cargo, which builds the second program, is not installed'; exit 1; }}; \
cd second && cargo build --release --quiet && cd .. && {SECOND_PROGRAM} check"
    anew = ["--anew"] if long else []
    return [
        Job(ALONE, SECOND, shell(alone)),
        Job(CAN_FAIL, "can fail", ["python3", "tests/can_fail.py"], after=[PROOFS]),
        Job(REASONS, "reasons", ["python3", "tests/edits.py", "--reasons", log], after=[PROOFS]),
        Job(COMPARED, STARTED, shell(started), after=[PROOFS]),
        *compared(20000 if long else 500),
        Job(FAULTS, "seeded faults", shell(catch), after=[SECOND, STARTED]),
        Job(READERS, "stock reader", ["python3", "tests/readers.py"], after=[STARTED]),
        Job(TEETH, "wrong programs", ["wrong/check"], after=[PROOFS], alone=True),
        Job(EDITS, "the other edits", ["python3", "tests/edits.py", *anew], after=[PROOFS], alone=True),
    ]
