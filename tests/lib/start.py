"""The commands of docs/PERF.md, which make a copy at the start of the work on speed, and time it beside this repository.

They are run as they stand there, in a clone of this repository with its files as they are now, but for three things:

- At the start the workload is built by `rt try`, which proves nothing. So what is seen is that rt takes the folder, that the
  workload fits the scanner of the start, and that it prints what it has to.
- In the repository it is not built, since the gate has built it: the program that stands here is taken for both.
- The workloads of bench/run have few texts, and each is run once.
"""

import os
import re
import shutil
import subprocess

from readmes import blocks
from repository import TOP, read

DOCUMENT = "docs/PERF.md"
TAKEN = ["bench", "crates/workloads", "crates.txt"]  # what the commands take from the repository
PROGRAM = "crates/workloads/out/workloads"
BUILD, TRY = "rt run --", "rt try --"
MEASURE = "bench/run "
SECONDS = 900
ROW = r"\| (\w+) \| \d+\.\d{3} \| \d+\.\d{3} \| \d+\.\d\d \|"


def recipe():
    """The commit of the start, and the commands, without their comments."""
    text = read(DOCUMENT)
    lines = next(lines for lines in blocks(text) if lines[0].startswith("git clone"))
    return re.match(r"The start: ([0-9a-f]{40})\n", text)[1], [re.sub(r"\s+#.*", "", line) for line in lines]


def make_clone(top):
    """A clone of this repository with its files as they are now, in which a workload has few texts and nothing is built."""
    subprocess.run(["git", "clone", "-q", TOP, top], check=True, stdin=subprocess.DEVNULL)
    for path in TAKEN:
        source, copy = os.path.join(TOP, path), os.path.join(top, path)
        if os.path.isdir(source):
            shutil.rmtree(copy)
            shutil.copytree(source, copy, ignore=shutil.ignore_patterns("out", "__pycache__"))
        else:
            shutil.copy(source, copy)
    few = "".join(re.sub(r"\d+$", "20", line) + "\n" for line in read("bench/workloads.txt").splitlines())
    with open(os.path.join(top, "bench", "workloads.txt"), "w", encoding="utf-8") as out:
        out.write(few)


def as_tried(line, program):
    """What stands for a command: the build at the start proves nothing, and before the programs are timed they are put in."""
    if line.startswith("cd ../REPOSITORY ") and BUILD in line:
        return "cd ../REPOSITORY"
    if not line.startswith(MEASURE):
        return line.replace(BUILD, TRY)
    put = [f"mkdir -p {top}/{os.path.dirname(PROGRAM)} && cp {program} {top}/{PROGRAM}" for top in ("../old", ".")]
    return "\n".join(["if [ ../old -ef . ]; then echo 'both are the copy at the start' >&2; exit 1; fi", *put, f"TURNS=1 {line}"])


def wanted(has_program):
    """What the commands have to print, besides what rt says on standard error."""
    names = [line.split()[0] for line in read("bench/workloads.txt").splitlines()]
    table = [r"\| Workload .*", r"\|---.*", *(ROW.replace(r"(\w+)", name) for name in names)] if has_program else []
    return "".join(line + r"\n" for line in [re.escape(read("crates/workloads/stdout").strip()), *table])


def reason():
    """Why nothing is run here; None if it can be."""
    start, _ = recipe()
    for tool in ("git", "rt"):
        if shutil.which(tool) is None:
            return f"there is no {tool}"
    known = subprocess.run(["git", "-C", TOP, "cat-file", "-e", f"{start}^{{commit}}"], capture_output=True, check=False)
    return None if known.returncode == 0 else f"this is no checkout that has the commit {start[:8]}"


def try_recipe(room, is_built):
    """What is wrong with the commands, or None; how many are run, and which are not, with the reason."""
    start, lines = recipe()
    if f"git checkout {start[:8]}" not in lines[0]:
        return f"{lines[0]}: this is not the start", 0, []
    make_clone(os.path.join(room, "REPOSITORY"))
    left = [f"{line}: the gate builds it" for line in lines if as_tried(line, "") == "cd ../REPOSITORY"]
    if not is_built:
        left += [f"{line}: no program is built of these sources" for line in lines if line.startswith(MEASURE)]
        lines = [line for line in lines if not line.startswith(MEASURE)]
    commands = [as_tried(line, os.path.join(TOP, PROGRAM)) for line in lines]
    done = subprocess.run(["bash", "-ec", "\n".join(commands)], cwd=os.path.join(room, "REPOSITORY"), stdin=subprocess.DEVNULL,
                          capture_output=True, text=True, timeout=SECONDS, check=False)
    is_right = done.returncode == 0 and re.fullmatch(wanted(is_built), done.stdout)
    return None if is_right else f"status {done.returncode}: {done.stdout}{done.stderr}"[-1500:], len(lines), left
