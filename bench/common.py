"""What the measuring scripts share: the programs, how they are run, and how tables are written."""

import collections
import os
import subprocess
import sys
import tempfile

HERE = os.path.dirname(os.path.abspath(__file__))
CRATES = os.path.join(HERE, "..", "crates")
TESTBENCH = os.path.join(CRATES, "testbench", "out", "testbench")
YAMLTOK = os.path.join(CRATES, "yamltok", "out", "yamltok")
PINNED = ["taskset", "-c", "1"]

# A title, a paragraph that explains the figures, the names of the columns, how many of the first columns are the same in
# every run, and the function that measures: it yields the cells of each row, and is given a folder for files.
Table = collections.namedtuple("Table", "title note columns fixed rows")
# how many bytes were read or tokens scanned, and the best time and the median in nanoseconds
Ours = collections.namedtuple("Ours", "count best median")
# the same, the best time of a copy of the bytes, and how many of the scans came to their end
Libyaml = collections.namedtuple("Libyaml", "bytes count best median copy ended")


def answer_help():
    """Ends a script that is asked what it does, before it measures anything."""
    if {"-h", "--help"} & set(sys.argv[1:]):
        print(sys.modules["__main__"].__doc__.strip())
        sys.exit(0)


def build_libyaml(folder):
    """Compiles the program that scans with libyaml."""
    program = os.path.join(folder, "libyaml_scan")
    if not os.path.exists(program):
        subprocess.run(["cc", "-O2", "-o", program, os.path.join(HERE, "libyaml_scan.c"), "-lyaml"], check=True)
    return program


def write_file(folder, data):
    path = os.path.join(folder, "text")
    with open(path, "wb") as file:
        file.write(data)
    return path


def measure_ours(data, *words):
    done = subprocess.run([*PINNED, TESTBENCH, "measure", *words], input=data, capture_output=True, check=True)
    return Ours(*(int(n) for n in done.stdout.split()))


def measure_libyaml(folder, data, *words):
    path = write_file(folder, data)
    done = subprocess.run([*PINNED, build_libyaml(folder), path, *words], capture_output=True, check=True)
    return Libyaml(*(int(n) for n in done.stdout.split()))


def milliseconds(nanoseconds):
    """Three digits or more, in milliseconds."""
    value = nanoseconds / 1e6
    return f"{value:.0f}" if value >= 100 else f"{value:.1f}" if value >= 10 else f"{value:.2f}" if value >= 1 else f"{value:.3f}"


def ratio(value):
    return f"{value:.0f}" if value >= 20 else f"{value:.1f}" if value >= 2 else f"{value:.2f}"


def line(cells):
    return f"| {' | '.join(cells)} |"


def print_table(table):
    """Measures a table once and prints its rows as they are found."""
    print(line(table.columns))
    print("|---" * len(table.columns) + "|")
    with tempfile.TemporaryDirectory() as folder:
        for cells in table.rows(folder):
            print(line(cells), flush=True)
