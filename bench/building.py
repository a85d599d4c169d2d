"""Small programs over the crates of this repository, for the benches: proved and built in folders of their own."""
import os
import re
import shutil
import subprocess
import sys

TOP = os.path.dirname(os.path.dirname(os.path.realpath(__file__)))


def lay(folder, program, uses):
    """Copies of the crates that a program stands on, and a folder for the program."""
    with open(os.path.join(TOP, "crates.txt")) as file:
        lines = [line for line in file if re.match(r"\w+:", line)]
    below = {line.split(":")[0]: line.split(":")[1].split("#")[0].split() for line in lines}
    wanted = set(uses)
    while more := {name for crate in wanted for name in below.get(crate, ())} - wanted:
        wanted |= more
    os.makedirs(folder)
    with open(os.path.join(folder, "crates.txt"), "w") as file:
        file.writelines([line for line in lines if line.split(":")[0] in wanted] + [f"{program}: {' '.join(uses)}\n"])
    shutil.copy(os.path.join(TOP, "HANDLES"), folder)
    for crate in wanted & below.keys():
        shutil.copytree(os.path.join(TOP, "crates", crate), os.path.join(folder, "crates", crate))
    crate = os.path.join(folder, "crates", program)
    os.makedirs(os.path.join(crate, "src"))
    return crate


def proved(crate):
    """The program of a crate, proved and built."""
    subprocess.run(["rt", "run"], cwd=crate, stdin=subprocess.DEVNULL, stdout=sys.stderr, check=True)
    return os.path.join(crate, "out", os.path.basename(crate))
