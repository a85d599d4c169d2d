"""Runs commands for the benches, each with a file as its input, and tells what each took: of the processor, by the clock, of memory.

What the system tells as the most memory of a process has in it that of the process which started it, up to the moment when the
command takes its place. So a small program in C starts each command, and not Python, which has more memory than many a command.
"""
import functools
import os
import shutil
import subprocess
import sys
import tempfile

from processor import as_started

STARTER = r"""
#include <stdio.h>
#include <sys/resource.h>
#include <sys/wait.h>
#include <time.h>
#include <unistd.h>

/* Runs the command behind the first word, and writes what it took to the file that the first word names: the seconds of the
   processor, the seconds by the clock, and the most KiB of memory that it had. */
int main(int count, char **words) {
    struct timespec begin, end;
    struct rusage used;
    int status;
    clock_gettime(CLOCK_MONOTONIC, &begin);
    pid_t child = fork();
    if (child == 0) {
        execv(words[2], words + 2);
        _exit(127);
    }
    if (count < 3 || child < 0 || wait4(child, &status, 0, &used) != child) return 126;
    clock_gettime(CLOCK_MONOTONIC, &end);
    FILE *told = fopen(words[1], "w");
    if (!told) return 126;
    fprintf(told, "%.6f %.6f %ld\n", used.ru_utime.tv_sec + used.ru_stime.tv_sec + (used.ru_utime.tv_usec + used.ru_stime.tv_usec) / 1e6,
            end.tv_sec - begin.tv_sec + (end.tv_nsec - begin.tv_nsec) / 1e9, used.ru_maxrss);
    if (fclose(told)) return 126;
    return WIFEXITED(status) ? WEXITSTATUS(status) : 125;
}
"""


def built(source, path):
    """A program of C, built to that path."""
    subprocess.run(["gcc", "-O2", "-x", "c", "-o", path, "-"], input=source.encode(), check=True)
    return path


@functools.lru_cache(maxsize=None)
def starter():
    """The program that starts commands, in a folder that goes away at the end; it is kept with it."""
    folder = tempfile.TemporaryDirectory()
    return folder, built(STARTER, os.path.join(folder.name, "start"))


class Run:
    """What a process took: seconds of the processor, seconds by the clock, and the most MiB of memory that it had, if that is known."""

    def __init__(self, processor, wall, memory=None):
        self.processor, self.wall, self.memory = processor, wall, memory

    def least(self, other):
        """The least of each of two runs."""
        memory = None if self.memory is None else min(self.memory, other.memory)
        return Run(min(self.processor, other.processor), min(self.wall, other.wall), memory)


def run(command, path=os.devnull, told=None, settings=None):
    """Runs a command with the file of that path as its input, and gives what it took. What it writes goes to the file `told`, if there
    is one; the settings are variables of its environment besides those that it is started with."""
    command = [shutil.which(command[0]) or command[0], *command[1:]]
    environment = {**as_started(command), **(settings or {})}
    _, start = starter()
    with open(path, "rb") as asked, tempfile.NamedTemporaryFile("r") as taken:
        done = subprocess.run([start, taken.name, *command], stdin=asked, stdout=told or subprocess.DEVNULL, env=environment)
        if done.returncode != 0:
            sys.exit(f"{' '.join(command)} failed: status {done.returncode}")
        processor, wall, memory = taken.read().split()
    return Run(float(processor), float(wall), int(memory) / 1024)


def run_and_read(command, path=os.devnull):
    """What a command took, and what it wrote."""
    with tempfile.TemporaryFile() as told:
        taken = run(command, path, told)
        told.seek(0)
        return taken, told.read()
