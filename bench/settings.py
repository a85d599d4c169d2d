"""Where this program spends its time in a run of bench/large, and what settings of glibc's allocator do to it."""
import os
import subprocess
import sys
import tempfile

from large_items import ratio
from processor import as_started

LINES = 15
SETTINGS = ("glibc.malloc.hugetlb=1", "glibc.malloc.top_pad=67108864", "glibc.malloc.mmap_threshold=33554432", "glibc.malloc.tcache_count=1000")
LARGE_PAGES = "/sys/kernel/mm/transparent_hugepage/enabled"


def profiled(job, event, begin):
    """The first lines of perf's report on a run, from so many percent of its time on."""
    counted = ["-c", "1"] if event == "page-faults" else ["-F", "999"]
    with tempfile.TemporaryDirectory() as folder, open(job.path, "rb") as asked:
        data = os.path.join(folder, "perf.data")
        command = job.command()
        subprocess.run(["perf", "record", "-q", "-e", event, *counted, "-o", data, "--", *command], stdin=asked, stdout=subprocess.DEVNULL, check=True,
                       env=as_started(command))
        window = ["--time", f"{begin:.0f}%-100%"] if begin else []
        told = subprocess.run(["perf", "report", "--stdio", "--no-children", "-g", "none", *window, "-i", data], capture_output=True, text=True, check=True).stdout
    return [line.rstrip() for line in told.splitlines() if line.strip() and not line.startswith("#")][:LINES]


def profile(item, part, best, path):
    """Writes where the runs of a part spend their time, of the first what comes behind the run that is taken off, if there is one."""
    before = 100 * best[part.off].processor / best[part.job].processor if part.off else 0
    with open(path, "w") as file:
        file.write(f"{part.title}: {part.figure(best):.2f}, {'at least' if part.at_least else 'at most'} {part.wanted:.2f} is wanted\n")
        for name, begin in ((part.job, before if before < 100 else 0), (part.also, 0)):
            if name:
                file.write(f"\nsamples of {part.event} in the run `{name}`{f', from {begin:.0f} percent of its time on' if begin else ''}\n\n")
                file.writelines(f"{line}\n" for line in profiled(item.jobs[name], part.event, begin))
    print(f"  a profile of `{part.title}` stands in {path}", flush=True)


def has_allocator_of_glibc(program):
    told = subprocess.run(["nm", "-D", program], capture_output=True, text=True, check=True).stdout
    return "malloc@GLIBC" in told


def try_settings(item, program, rounds):
    """Prints what this program's runs of an item take without any setting, and with each, in turn."""
    if not has_allocator_of_glibc(program):
        sys.exit(f"{program} doesn't take its memory from glibc, so its settings tell nothing")
    parts = timed(item)
    jobs = {name: item.jobs[name] for part in parts for name in (part.job, part.off) if name}
    best = {}
    for _ in range(rounds):
        for name, job in jobs.items():
            for setting in ("", *SETTINGS):
                one = job.take({"GLIBC_TUNABLES": setting})
                best.setdefault(setting, {}).setdefault(name, one)
                best[setting][name] = one.least(best[setting][name])
    with open(LARGE_PAGES) as file:
        print(f"{item.title} (large pages of the system: {file.read().strip()})")
    tell_settings(parts, best)


def timed(item):
    """The parts of an item that are seconds of this program, each run once."""
    return [*{part.job: part for part in reversed(item.parts) if part.job and part.unit in ("s", "us")}.values()][::-1]


def tell_settings(parts, best):
    """A line for each figure of this program and each setting: the figure, the ratio to that without any, and the most memory."""
    for part in parts:
        print(f"  {part.title.partition(', beside')[0]:<64}{'taken':>11}{'ratio':>8}{'memory':>12}")
        for setting, runs in best.items():
            own = part.own(runs)
            print(f"    {setting or 'no setting':<62}{part.show(own):>11}{ratio(own, part.own(best[''])):>8.2f}{runs[part.job].memory:>8.1f} MiB", flush=True)
