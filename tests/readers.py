"""Our programs and a stock reader and writer of RFC 4180 text, Python's csv module; texts at the limit of 65,536 bytes, far above it, and
in small pieces. Run by ./test, once `rt ci` has built the programs. Ends in one line 'N passed, M failed'."""

import csv
import glob
import io
import os
import subprocess
import sys

TOTALS, TRACE = "crates/totals/out/totals", "crates/trace/out/trace"
TABLE_HEADER = ["task", "count", "sum", "least", "greatest"]
TRACE_HEADER = ["row", "number", "first", "second", "third", "fourth"]
LONGEST = 65_536
# What the programs may use, with the Python that starts them: a few tens of megabytes, and nothing that grows with the input.
MOST_MEMORY = 64 << 20
REFUSED_10 = b"refused\r\n10\r\n"
passed = failed = 0


def note(name, good):
    global passed, failed
    passed, failed = passed + good, failed + (not good)
    if not good:
        print(f"failed: {name}")


def output(program, text):
    return subprocess.run([program], input=text, stdout=subprocess.PIPE, check=True).stdout


def rows(data):
    return list(csv.reader(io.StringIO(data.decode("ascii"), newline=""), strict=True))


def written(lines):
    text = io.StringIO(newline="")
    csv.writer(text, lineterminator="\r\n").writerows(lines)
    return text.getvalue().encode("ascii")


def example(path):
    """What we print is read, with the right number of fields; what the stock writer writes is read by us."""
    with open(path, "rb") as file:
        text = file.read()
    lines = rows(text)
    tasks = sum(line[0] == "task" for line in lines)
    steps = sum(line[0] == "step" for line in lines)
    table, trace = output(TOTALS, text), output(TRACE, text)
    read = rows(table)
    note(f"{path}: the table's header", read[0] == TABLE_HEADER)
    note(f"{path}: one line per task", [line[0] for line in read[1:]] == [str(t) for t in range(tasks)])
    note(f"{path}: five fields", all(len(line) == 5 for line in read))
    note(f"{path}: every field of the table is a number", all(str(int(x)) == x for line in read[1:] for x in line))
    read = rows(trace)
    note(f"{path}: the trace's header", read[0] == TRACE_HEADER)
    note(f"{path}: six fields", all(len(line) == 6 for line in read))
    note(f"{path}: a row for each step", sum(line[0] == "step" for line in read) == steps)
    note(f"{path}: the trace ends in the table", [line[1:] for line in read if line[0] == "total"] == rows(table)[1:])
    note(f"{path}: written again it is the same text", written(lines) == text)
    note(f"{path}: and is read by us", output(TOTALS, written(lines)) == table and output(TRACE, written(lines)) == trace)
    quoted = text.replace(b"task,", b'"task",', 1)
    note(f"{path}: a quoted word, which the stock reader takes, is refused", output(TOTALS, quoted) == REFUSED_10)


def filled(text, length):
    """The text with steps that no job has, up to a length: lines of 13 to 16 bytes."""
    while length - len(text) > 32:
        text += b"step,66,0,0\r\n"
    for left in (2, 1):
        size = (length - len(text)) // left
        text += b"step,%d,0,0\r\n" % (7 * 10 ** (size - 12))
    assert len(text) == length
    return text


def measured(text_pieces):
    """The program's output, how many bytes it took, and its memory at the most."""
    child = subprocess.Popen([TOTALS], stdin=subprocess.PIPE, stdout=subprocess.PIPE)
    taken = 0
    try:
        for piece in text_pieces:
            taken += os.write(child.stdin.fileno(), piece)
        child.stdin.close()
    except BrokenPipeError:
        pass
    data = child.stdout.read()
    _, status, usage = os.wait4(child.pid, 0)
    child.returncode = status
    return (data if status == 0 else b""), taken, usage.ru_maxrss * 1024


def limits(worked):
    table = output(TOTALS, worked)
    exact = filled(worked, LONGEST)
    note("65,536 bytes are read", output(TOTALS, exact) == table)
    note("65,536 bytes are traced", rows(output(TRACE, exact))[-1] == ["total"] + rows(table)[-1])
    note("65,537 bytes are refused", output(TOTALS, filled(worked, LONGEST + 1)) == REFUSED_10)
    step = b"step,66,0,0\r\n" * 5_000
    count = 100_000_000 // len(step) + 1
    data, taken, memory = measured(step for _ in range(count))
    note("100,000,000 bytes are refused", data == REFUSED_10)
    note(f"and not read on: {taken} bytes were taken", LONGEST < taken < 1_000_000)
    note(f"in bounded memory: {memory} bytes", memory < MOST_MEMORY)
    for size in (1, 7, 4_096):
        pieces = [worked[i:i + size] for i in range(0, len(worked), size)]
        note(f"in pieces of {size}", measured(pieces)[0] == table)
    pieces = [exact[i:i + 1_000] for i in range(0, LONGEST, 1_000)]
    note("65,536 bytes in pieces of 1,000", measured(pieces)[0] == table)
    note("nothing at all is a text with no task", output(TOTALS, b"") == b"refused\r\n1\r\n")


for path in sorted(glob.glob("examples/*.csv")):
    example(path)
with open("examples/worked.csv", "rb") as file:
    limits(file.read())
print(f"{passed} passed, {failed} failed")
sys.exit(failed > 0)
