"""The test command: `rt ci` over the whole checkout as it stands, by itself, and then the pool of the jobs that parts.py names, two at a
time (TEST_JOBS in the environment says otherwise). What `rt ci` says is shown as it comes; what a job says is kept and printed at the end,
part by part, in the order in which parts.py names them; in between a line every half minute says what is running and how many are done. A
job ends in one line 'N passed, M failed'; one that could not run, or that ends badly without a failure, counts as failed.
usage: gate.py [--long]"""

import contextlib
import fcntl
import os
import re
import shutil
import signal
import subprocess
import sys
import tempfile
import time
import traceback

import parts

TALLY = re.compile(r"(\d+) passed, (\d+) failed$")
# Edits that `rt ci` could not try: it passes all the same, and this does not.
BAD = re.compile(r"^rt: ok;.*, (\d+) bad", re.M)
SIGNALS = (signal.SIGTERM, signal.SIGHUP, signal.SIGQUIT, signal.SIGINT)


def start(command, log, kept=()):
    """In a session of its own, so that it can be ended with all its children; a job holds the lock as long as it lives."""
    return subprocess.Popen(command, stdout=log, stderr=subprocess.STDOUT, start_new_session=True, pass_fds=kept)


def result(status, said):
    """Passed, failed and what is shown of a job that has ended: all but a last line that only counts."""
    lines = said.splitlines()
    last = TALLY.search(lines[-1]) if lines else None
    passed, failed = (int(last[1]), int(last[2])) if last else (0, 1)
    if passed + failed == 0 or (status != 0 and failed == 0):
        failed += 1
    if not last:
        lines.append(f"(ended with status {status} and no count)")
    elif last.start() == 0:
        lines.pop()
    return passed, failed, "\n".join(lines)


def of_proofs(status, said):
    """Passed and failed of `rt ci`: its own count, and each edit that it calls bad. It ends well only with its line 'rt: ok'."""
    passed, failed, _ = result(status, said)
    failed += sum(map(int, BAD.findall(said)))
    return passed, failed + (failed == 0 and not re.search(r"^rt: ok;", said, re.M))


def end_group(process):
    with contextlib.suppress(ProcessLookupError):
        os.killpg(process.pid, signal.SIGKILL)


class Pool:
    def __init__(self, names, jobs, most=2, lock=None):
        self.parts, self.jobs, self.waiting = names, jobs, list(jobs)
        self.most, self.kept = most, () if lock is None else (lock,)
        assert all(job.part in names for job in jobs)
        self.running, self.results, self.seconds, self.well = {}, {}, {}, set()
        self.began = self.told = time.time()

    def end(self, job, passed, failed, said, took, well=False):
        self.results[job], self.seconds[job] = (passed, failed, said), took
        if well or not failed:
            self.well.add(job.name)
        if failed:
            print(f"failed: {job.part}: {job.name}", flush=True)

    def prove(self, job, log):
        """Runs `rt ci` before all else, and shows and keeps what it says. Bad edits fail it, but nothing else need wait for that."""
        began = time.time()
        process = start(job.command, subprocess.PIPE, self.kept)
        try:
            with open(log, "wb") as kept:
                for line in process.stdout:
                    kept.write(line)
                    print(line.decode("utf8", "replace"), end="", flush=True)
            process.wait()
        finally:
            end_group(process)
        with open(log, encoding="utf8", errors="replace") as kept:
            passed, failed = of_proofs(process.returncode, kept.read())
        self.jobs.insert(0, job)
        self.end(job, passed, failed, "", time.time() - began, process.returncode == 0)

    def reap(self):
        for job, (process, log, began) in list(self.running.items()):
            if process.poll() is not None:
                del self.running[job]
                end_group(process)
                log.seek(0)
                said = log.read().decode("utf8", "replace")
                log.close()
                self.end(job, *result(process.returncode, said), time.time() - began)

    def has_room(self, job):
        if job.alone or any(other.alone for other in self.running):
            return not self.running
        return len(self.running) < self.most

    def fill(self):
        """Starts what is ready. Where nothing runs and nothing is ready, what the others wait for never comes."""
        for job in list(self.waiting):
            if self.has_room(job) and not job.missing(self.well):
                self.waiting.remove(job)
                log = tempfile.TemporaryFile()
                try:
                    self.running[job] = (start(job.command, log, self.kept), log, time.time())
                except OSError as error:
                    self.end(job, 0, 1, f"{job.name}: it cannot be started: {error}", 0)
        if not self.running and all(job.missing(self.well) for job in self.waiting):
            for job in self.waiting:
                self.end(job, 0, 1, f"{job.name}: what it waits for did not end well: {', '.join(job.missing(self.well))}", 0)
            self.waiting = []

    def tell(self):
        now = time.time()
        if now - self.told >= 30:
            self.told = now
            names = ", ".join(f"{job.name} ({now - began:.0f} s)" for job, (_, _, began) in self.running.items())
            print(f"{now - self.began:.0f} s: {len(self.results)} of {len(self.jobs)} done; running: {names or 'none'}", flush=True)

    def run(self):
        try:
            while self.waiting or self.running:
                self.reap()
                self.fill()
                self.tell()
                time.sleep(0.1)
        finally:
            for process, _, _ in self.running.values():
                end_group(process)

    def report(self):
        """Each part's jobs together; gives what passed and failed in all."""
        totals = [0, 0]
        for part in self.parts:
            own = [job for job in self.jobs if job.part == part]
            for job in own:
                print(self.results[job][2], end="\n" if self.results[job][2] else "")
            passed, failed = (sum(self.results[job][i] for job in own) for i in (0, 1))
            failed += not own  # a part that has nothing to try shows nothing
            totals[0], totals[1] = totals[0] + passed, totals[1] + failed
            print(f"{part}: {passed} passed, {failed} failed ({sum(self.seconds[job] for job in own):.0f} s of one job)", flush=True)
        return totals


def run(words, room):
    lock = os.open("tests", os.O_RDONLY)
    try:
        fcntl.flock(lock, fcntl.LOCK_EX | fcntl.LOCK_NB)
    except BlockingIOError:
        print("test: another run, or what it left behind, is still at work in this folder")
        return 0, 1
    most = max(1, int(os.environ.get("TEST_JOBS", "2")))
    pool = Pool(parts.PARTS, parts.jobs(bool(words), f"{room}/rt-ci"), most, lock)
    pool.prove(parts.Job(parts.PROVED, parts.PROOFS, ["rt", "ci"]), f"{room}/rt-ci")
    pool.run()
    totals = pool.report()
    print(f"{time.time() - pool.began:.0f} s in all, {pool.most} jobs at a time on {os.uname().machine}")
    return totals


def stop(*_):
    for number in SIGNALS:
        signal.signal(number, signal.SIG_IGN)
    sys.exit(1)


def main(words):
    if words not in ([], ["--long"]):
        print("usage: ./test [--long]", file=sys.stderr)
        return 2
    sys.stdout.reconfigure(errors="replace")
    for number in SIGNALS:
        signal.signal(number, stop)
    # outside the repository, since `rt ci` reads all that lies in it
    room = os.environ["TEST_ROOM"] = tempfile.mkdtemp(prefix="station-test-")
    try:
        passed, failed = run(words, room)
    except SystemExit:
        print("test: ended by a signal")
        passed, failed = 0, 1
    except Exception:
        traceback.print_exc(file=sys.stdout)
        passed, failed = 0, 1
    finally:
        shutil.rmtree(room, ignore_errors=True)
    print(f"{passed} passed, {failed} failed")
    return failed > 0 or passed == 0


if __name__ == "__main__":
    sys.exit(main(sys.argv[1:]))
