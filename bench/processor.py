"""What programs take of the processor, for the benches: their own work, and no waiting and no other program."""
import functools
import hashlib
import os
import re
import resource
import shutil
import signal
import subprocess
import tempfile
import time


TOP = os.path.dirname(os.path.dirname(os.path.realpath(__file__)))
OWN = ("store_main", "store_shell", "subjectdb-linux-x86_64", "subjectdb-shell-linux-x86_64")


@functools.lru_cache(maxsize=None)
def tunables():
    """What ./subjectdb tells the C library of the programs that it starts."""
    with open(os.path.join(TOP, "subjectdb"), encoding="utf-8") as launcher:
        return re.search(r"^tunables=(\S+)$", launcher.read(), re.MULTILINE)[1]


def as_started(command):
    """The environment of a command: this project's programs have that in which ./subjectdb starts them, also where a shell
    starts them, of which they are a word then."""
    if any(os.path.basename(word) in OWN for word in command) and "GLIBC_TUNABLES" not in os.environ:
        return {**os.environ, "GLIBC_TUNABLES": tunables()}
    return dict(os.environ)


def measured_on(program):
    """A line for the top of a bench: the commit of this checkout, the program by its SHA-256, whether a released one is of other sources
    than those of the checkout, and the machine's processors."""
    done = subprocess.run(["git", "-C", TOP, "rev-parse", "HEAD"], capture_output=True, text=True)
    commit = done.stdout.strip() if done.returncode == 0 else "unknown"
    with open(program, "rb") as file:
        digest = hashlib.file_digest(file, "sha256").hexdigest()
    listed, other = os.path.join(os.path.dirname(os.path.abspath(program)), "sources.sha256"), ""
    if os.path.exists(listed) and subprocess.run([os.path.join(TOP, "tools", "sources-checksum"), "--differences", listed], capture_output=True).stdout:
        other = " (of other sources than this commit's)"
    with open("/proc/cpuinfo") as file:
        models = [line.partition(":")[2].strip() for line in file if line.startswith("model name")]
    model = models[0] if models else "of an unknown model"
    return f"commit {commit}, program {os.path.basename(program)} {digest[:12]}{other}, {os.cpu_count()} processors {model}"


def spent():
    """The seconds of the processor that the processes which this one started, and which have ended, have taken so far."""
    used = resource.getrusage(resource.RUSAGE_CHILDREN)
    return used.ru_utime + used.ru_stime


def spent_by(usage):
    """Those of a process whose end was waited for with its usage."""
    return usage.ru_utime + usage.ru_stime


class Cost:
    """Seconds of the processor, and instructions, or None where the system tells none."""

    def __init__(self, seconds, instructions=None):
        self.seconds, self.instructions = seconds, instructions

    def __sub__(self, other):
        known = self.instructions is not None and other.instructions is not None
        return Cost(self.seconds - other.seconds, self.instructions - other.instructions if known else None)

    def beside(self, other, count):
        """The instructions of one of so many calls, those of the other program, and the ratio; or nothing."""
        if self.instructions is None or other.instructions is None:
            return ""
        here, there = self.instructions / count, other.instructions / count
        return f"{here:,.0f} instructions each beside {there:,.0f}: {here / max(there, 1e-9):.1f}"

    def each(self, count):
        """The instructions of one of so many calls; or nothing."""
        return "" if self.instructions is None else f"{self.instructions / count:,.0f} instructions each"


PERF = ["perf", "stat", "-x,", "-e", "instructions:u"]


def read_from(told):
    """The number that perf wrote, if it counted."""
    cells = [line.split(",") for line in told.read().splitlines() if "instructions" in line]
    return int(cells[0][0]) if cells and cells[0][0].isdigit() else None


def counted(command, source):
    """The instructions that perf counts of a command outside the system, or None where it counts none."""
    with tempfile.NamedTemporaryFile("r") as told:
        done = subprocess.run([*PERF, "-o", told.name, "--", *command], stdin=source, stdout=subprocess.DEVNULL, stderr=subprocess.DEVNULL, env=as_started(command))
        return read_from(told) if done.returncode == 0 else None


@functools.lru_cache(maxsize=None)
def tells_instructions():
    """Whether perf is there, and the system lets it count."""
    return shutil.which("perf") is not None and counted(["true"], subprocess.DEVNULL) is not None


def instructions(command, path):
    """The instructions of a run of the command with the file as its input, where the system tells them."""
    if not tells_instructions():
        return None
    with open(path, "rb") as source:
        return counted(command, source)


def least(command, path, runs, output=subprocess.PIPE):
    """What the command takes with the file as its input, by the least seconds of several runs, and what it wrote last."""
    return least_in_turn([(command, path)], runs, output)[0]


def least_in_turn(commands, runs, output=subprocess.PIPE):
    """The same of several commands, each with its file, which come one after the other in each round, so that what the machine does
    beside them meets all alike."""
    taken, told = [[] for _ in commands], [None] * len(commands)
    for _ in range(runs):
        for number, (command, path) in enumerate(commands):
            with open(path, "rb") as source:
                begin = spent()
                told[number] = subprocess.run(command, stdin=source, stdout=output, check=True, env=as_started(command)).stdout
                taken[number].append(spent() - begin)
    return [(Cost(min(times), instructions(*one)), lines) for times, one, lines in zip(taken, commands, told)]


def taken_by(process):
    """The seconds of the processor that a process which runs has taken so far, all its threads together."""
    nanoseconds = 0
    for thread in os.listdir(f"/proc/{process}/task"):
        with open(f"/proc/{process}/task/{thread}/schedstat") as told:
            nanoseconds += int(told.read().split()[0])
    return nanoseconds / 1e9


def behind(command, path, lines):
    """What a command takes, with the file as its input, from the moment on when it has written so many lines; and what it wrote. It has to
    write each line at once. So what comes before is of the same process, and how its time varies isn't that of what comes behind."""
    with open(path, "rb") as source, subprocess.Popen(command, stdin=source, stdout=subprocess.PIPE, env=as_started(command)) as running:
        begin, end, left, pieces = None, 0.0, lines, []
        while piece := os.read(running.stdout.fileno(), 1 << 16):
            end = taken_by(running.pid)
            pieces.append(piece)
            left -= piece.count(b"\n")
            if begin is None and left <= 0:
                begin = end
    if running.returncode or begin is None:
        raise subprocess.CalledProcessError(running.returncode, command)
    return end - begin, b"".join(pieces)


def least_behind(runs, rounds):
    """The same of several runs, each a command, its file and the lines before, which come one after the other in each round: the least
    seconds of the rounds, and what was written last."""
    taken, told = [[] for _ in runs], [None] * len(runs)
    for _ in range(rounds):
        for number, run in enumerate(runs):
            seconds, told[number] = behind(*run)
            taken[number].append(seconds)
    return [(min(times), lines) for times, lines in zip(taken, told)]


def calls_of(texts):
    """How many calls these texts are, each of which ends a line with a semicolon."""
    return sum(text.count(";\n") for text in texts)


class Watch:
    """Counts the instructions of a process that runs, from now on until it is told to end."""

    def __init__(self, process):
        self.told, self.perf = tempfile.NamedTemporaryFile("r"), None
        if tells_instructions():
            self.perf = subprocess.Popen([*PERF, "-o", self.told.name, "-p", str(process)], stderr=subprocess.DEVNULL)
            # it needs a moment to begin
            time.sleep(0.2)

    def end(self):
        """The instructions so far, where the system tells them."""
        if self.perf is None:
            return None
        self.perf.send_signal(signal.SIGINT)
        self.perf.wait()
        return read_from(self.told)
