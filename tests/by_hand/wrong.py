#!/usr/bin/env python3
"""Shows what wrong programs do: wrong.py [NAME ..], a NAME as in tests/edits.txt, a beginning of one, or a folder of edits.

tests/edits.txt has a line for each edit of crates/*/must-fail and of tests/wrong, with an input that tells the wrong
program from the right one, or with a test that fails. The script builds the wrong programs from the edited sources
without proving them (`rt try`), most of them as one program in which a number chooses the mistake (tests/lib/mistakes.py).
It prints the right answer and the wrong one, or whether the test fails. What was not run counts as wrong.

With --compile it builds each harmless twin once in this way, and sees that it answers the same as the right program. A
harmless twin of an edit has its form, and makes no mistake: other texts stand in the place of the edit's, as
tests/twins.txt has them.

With --twin it asks whether an edit is refused for its mistake, and not for its form. Each twin is made in a copy that
begins with what was proved in this repository, and `rt check` of the crate has to prove it. That takes some minutes for
each, one after the other.

RT in the environment is the command `rt`, if it is another, and JOBS how many are run at once. Needs a C compiler.
"""

import collections
import os
import re
import shlex
import subprocess
import sys
import tempfile
from concurrent.futures import ThreadPoolExecutor

sys.path.insert(0, os.path.join(os.path.dirname(os.path.dirname(os.path.abspath(__file__))), "lib"))
sys.dont_write_bytecode = True
import mistakes

TOP = mistakes.TOP
RT = shlex.split(os.environ.get("RT", "rt"))
JOBS = int(os.environ.get("JOBS", "2"))
PROGRAMS = ("yamltok", "testbench")
TESTS = ("test", "call")
REFUSE, COUNT = "--fail-alloc", "--requests"
MOST, MOST_SAID = 12, 3
SECONDS, MOST_SECONDS = "900", 3600

Row = collections.namedtuple("Row", "name words text")
# The rows of one program, or of the tests of one crate, and the edits of some: bodies by name if a number chooses, else pairs.
Build = collections.namedtuple("Build", "target rows bodies pairs")


def rows():
    with open(os.path.join(TOP, "tests", "edits.txt"), encoding="ascii") as lines:
        for line in lines:
            if line.strip() and not line.startswith("#"):
                name, words, *text = line.rstrip("\n").split("\t")
                yield Row(name, tuple(words.split(" ")), text[0] if text else "")


def bytes_of(text):
    """The bytes that are written with the escapes of Python; `(part)*count` at its front repeats a part."""
    found = re.fullmatch(r"\((.*)\)\*(\d+)(.*)", text)
    if found:
        return bytes_of(found[1]) * int(found[2]) + bytes_of(found[3])
    return text.encode("ascii").decode("unicode_escape").encode("latin-1")


def twins():
    """The texts of the harmless twins, by the names of the edits; `-` is for a text that the twin does not replace."""
    with open(os.path.join(TOP, "tests", "twins.txt"), encoding="utf-8") as lines:
        parts = [line.rstrip("\n").split("\t") for line in lines if line.strip() and not line.startswith("#")]
    return {name: texts for name, *texts in parts}


def rt(folder, *words):
    """What `rt` writes on standard output, and on standard error."""
    done = subprocess.run([*RT, *words], cwd=folder, env={**os.environ, "RT_ALLOW_C": "1"}, capture_output=True,
                          timeout=MOST_SECONDS)
    return done.stdout.decode("utf-8", "replace"), done.stderr.decode("utf-8", "replace")


def without_options(row):
    """The words of a row's program, in which a part may be repeated as in its input, which request for memory is refused, if one
    is, and whether requests are counted."""
    words = [bytes_of(word).decode("ascii") for word in row.words[1:] if word != COUNT]
    refused = words[words.index(REFUSE) + 1] if REFUSE in words else ""
    return words[: words.index(REFUSE)] if refused else words, refused, COUNT in row.words


def answers(folder, cases, refused):
    """The answers of a crate's program to these words and inputs: the lines, and the status, or None if there is none."""
    with tempfile.TemporaryDirectory() as room:
        for number, (words, data) in enumerate(cases):
            with open(os.path.join(room, f"c{number}"), "wb") as file:
                file.write(data)
            mistakes.write(os.path.join(room, f"c{number}.args"), "".join(word + "\n" for word in words))
        listed, said = rt(folder, "try", "--seconds", SECONDS, "--cases", room, *([REFUSE, refused] if refused else []))
    lines = dict(re.findall(r"(?ms)^== c(\d+)\n(.*?)(?=^== c|\Z)", listed))
    ends = dict(re.findall(r"(?m)^case=c(\d+) (run=\S+(?: status=\d+)?)", said))
    none = said.splitlines()[-MOST_SAID:], None
    return [(lines.get(str(n), "").splitlines(), ends[str(n)]) if str(n) in ends else none for n in range(len(cases))]


def program_answers(room, build, numbers):
    """The answers to each row with the number of its edit, and with 0."""
    found = {}
    for refused in sorted({without_options(row)[1] for row in build.rows}):
        some = [row for row in build.rows if without_options(row)[1] == refused]
        asked = [(row, number) for row in some for number in sorted({0, numbers.get(row.name, 0)})]
        cases = []
        for row, number in asked:
            words, _, is_counted = without_options(row)
            cases.append((words, mistakes.front(number, is_counted) + bytes_of(row.text)))
        found.update(zip(asked, answers(os.path.join(room, "crates", build.target), cases, refused)))
    return found


def test_answers(room, build, numbers):
    """Whether the test of each row passes, with the number of its edit, and with 0."""
    asked = {(row, number) for row in build.rows for number in (0, numbers.get(row.name, 0))}
    tests = sorted({(number, row.words[2]) for row, number in asked})
    for module in sorted({row.words[2].split("::")[0] for row in build.rows if row.words[0] == "call"}):
        mistakes.add_calls(room, build.target, module)
    mistakes.ask_tests(room, build.target, tests)
    said = "\n".join(rt(os.path.join(room, "crates", build.target), "try", "--seconds", SECONDS, "--test"))
    found = {(int(n), name): end for n, name, end in re.findall(r"(?m)^test \w+::mistake_(\d+)_(\w+) \.\.\. (\w+)", said)}
    ends = {(row, number): found.get((number, row.words[2].split("::")[1])) for row, number in asked}
    return {key: ([] if end else said.splitlines()[-MOST_SAID:], end) for key, end in ends.items()}


def run(build):
    """What the program or the tests of a build answer, by row and number."""
    with tempfile.TemporaryDirectory() as top:
        room = mistakes.copy_sources(os.path.join(top, "room"))
        texts = mistakes.sources(room)
        numbers = {name: number for number, name in enumerate(build.bodies, 1)}
        edits = {numbers[name]: bodies for name, bodies in build.bodies.items()}
        made = mistakes.files_with_choices(texts, edits) if edits else mistakes.edited(texts, build.pairs)
        for path, text in made.items():
            mistakes.write(os.path.join(room, path), text)
        mistakes.add_number(room)
        is_test = build.rows[0].words[0] in TESTS
        found = (test_answers if is_test else program_answers)(room, build, numbers)
    answered = sum(end is not None for _, end in found.values())
    what = f"{len(build.bodies)} edits" if build.bodies else "one edit" if build.pairs else "no edit"
    print(f"{build.target} with {what}: {answered} of {len(found)} answers", file=sys.stderr, flush=True)
    return {(row, number > 0): answer for (row, number), answer in found.items()}


def run_or_part(build):
    """Runs a build. If its program of many mistakes is none, the half of them that stops it is looked for."""
    found = run(build)
    names = list(build.bodies)
    if len(names) < 2 or any(end for _, end in found.values()):
        return found
    halves = {}
    for part in names[: len(names) // 2], names[len(names) // 2 :]:
        bodies = {name: build.bodies[name] for name in part}
        halves.update(run_or_part(build._replace(rows=[row for row in build.rows if row.name in bodies], bodies=bodies)))
    return halves


def kind_of(row):
    return (row.words[1], True) if row.words[0] in TESTS else (row.words[0], False)


def builds(chosen, pairs):
    """The builds that answer these rows: the right programs, those of many mistakes, and those of one."""
    texts = {path: mistakes.read(os.path.join(TOP, path)) for every in pairs.values() for path, _, _ in every}
    bodies = {name: mistakes.bodies_of(texts, every) for name, every in pairs.items()}
    for target, is_test in sorted({kind_of(row) for row in chosen}):
        some = [row for row in chosen if kind_of(row) == (target, is_test)]
        names = [name for name in dict.fromkeys(row.name for row in some) if bodies[name]]
        if not is_test or not all(bodies[row.name] for row in some):
            yield Build(target, some, {}, [])
        for at in range(0, len(names), mistakes.MOST_NUMBERS):
            part = {name: bodies[name] for name in names[at : at + mistakes.MOST_NUMBERS]}
            yield Build(target, [row for row in some if row.name in part], part, [])
        for name in dict.fromkeys(row.name for row in some if not bodies[row.name]):
            yield Build(target, [row for row in some if row.name == name], {}, pairs[name])


def shown(answer):
    lines, status = answer
    more = [f"({len(lines) - MOST} more lines)"] if len(lines) > MOST else []
    return " / ".join(line[:200] for line in lines[:MOST] + more) + f"   [{status or 'no answer'}]"


def verdict_of(row, right, same, wrong):
    """What is seen of a wrong program. `same` is the right answer of a program of many mistakes, if it is one."""
    if not right[1] or not wrong[1] or same and not same[1]:
        return "NOT RUN"
    if same and same != right or row.words[0] in TESTS and right[1] != "ok":
        return "THE RIGHT PROGRAM IS WRONG"
    if wrong == right:
        return "DO NOT DIFFER"
    return "fails" if row.words[0] in TESTS else "differ"


def run_all(chosen, pairs):
    """The right answers, those of the programs of many mistakes with the number 0, and the wrong answers, by row."""
    right, same, wrong = {}, {}, {}
    with ThreadPoolExecutor(max_workers=JOBS) as pool:
        every = list(builds(chosen, pairs))
        for build, found in zip(every, pool.map(run_or_part, every)):
            is_right = not build.bodies and not build.pairs
            for (row, is_chosen_by_number), answer in found.items():
                where = right if is_right else wrong if is_chosen_by_number or not build.bodies else same
                where[row] = answer
    return {**same, **right}, same, wrong


def show_all(names):
    """Shows what each wrong program does; whether each is told from the right one."""
    chosen = [row for row in rows() if is_chosen(row.name, names)]
    library = [row for row in chosen if row.words[0] == "library"]
    chosen = [row for row in chosen if row.words[0] != "library"]
    known = [row for row in chosen if row.words[0] in PROGRAMS + TESTS]
    right, same, wrong = run_all(known, {row.name: mistakes.pairs_of(row.name) for row in known})
    none, seen = ([], None), collections.Counter()
    for row in chosen:
        verdict = verdict_of(row, right.get(row, none), same.get(row), wrong.get(row, none))
        seen[verdict] += 1
        print(f"{row.name}: {' '.join(row.words)} < {row.text}\n  right {shown(right.get(row, none))}")
        print(f"  wrong {shown(wrong.get(row, none))}\n  {verdict}", flush=True)
    for row in library:
        print(f"{row.name}: shows in a call of the library: {row.text}")
    told = seen["differ"] + seen["fails"]
    print(f"wrong: {len(chosen)} rows run, {len(chosen) - told} not told apart, {len(library)} in the library ({dict(seen)})")
    return 1 if told < len(chosen) or not chosen + library else 0


def compile_twins(names):
    """Builds the twins of these edits; whether each answers the rows of its edit as the right program does."""
    some = {name: mistakes.twin_of(name, texts) for name, texts in twins().items() if is_chosen(name, names)}
    chosen = [with_program(row) for row in rows() if row.name in some]
    right, same, made = run_all(chosen, some)
    none, count = ([], None), 0
    for row in chosen:
        answers_same = right.get(row, none)[1] and right.get(row) == made.get(row) == same.get(row, made.get(row))
        count += bool(answers_same)
        print(f"{row.name}: {' '.join(row.words)}: its twin {'answers the same' if answers_same else 'IS WRONG'}")
        if not answers_same:
            print(f"  right {shown(right.get(row, none))}\n  twin {shown(made.get(row, none))}")
    print(f"wrong: {len(some)} twins built for {len(chosen)} rows, {len(chosen) - count} wrong")
    return 1 if count < len(chosen) or not chosen else 0


def with_program(row):
    """A row that builds something: a program, if the row says nothing that could be run."""
    return row._replace(words=("yamltok", "scan", "any")) if row.words[0] == "library" else row


def prove_twins(names):
    """Proves the twins of these edits; whether each is proved."""
    chosen = [(name, mistakes.twin_of(name, texts)) for name, texts in twins().items() if is_chosen(name, names)]
    count = 0
    with tempfile.TemporaryDirectory() as top:
        room = mistakes.copy_sources(os.path.join(top, "room"), ())
        for name, pairs in chosen:
            kept = {path: mistakes.read(os.path.join(room, path)) for path, _, _ in pairs}
            write_all(room, mistakes.edited(kept, pairs))
            folder = os.path.join(room, "crates", name.split("/")[0])
            done = subprocess.run([*RT, "check", "--jobs", "1"], cwd=folder, capture_output=True, timeout=MOST_SECONDS)
            write_all(room, kept)
            said = (done.stdout + done.stderr).decode("utf-8", "replace")
            why = re.findall(r"(?m)^.*(?:: error|not proved|no proof).*$", said)[:MOST] if done.returncode else []
            count += not done.returncode
            print("\n  ".join([f"{name}: its twin is {'REFUSED' if done.returncode else 'proved'}", *why]), flush=True)
    print(f"wrong: {len(chosen)} twins tried, {len(chosen) - count} refused")
    return 1 if count < len(chosen) or not chosen else 0


def write_all(room, texts):
    for path, text in texts.items():
        mistakes.write(os.path.join(room, path), text)


def is_chosen(name, names):
    """Whether a name or a folder of edits is given that an edit's name begins with; all are, if none is given."""
    plain = [text.removeprefix("./").removeprefix("crates/").removeprefix("tests/") for text in names]
    plain = [text.removesuffix(".edit").replace("/must-fail", "").rstrip("/") for text in plain]
    return not names or any(name == text or name.startswith(text) for text in plain)


def main(words):
    if words[:1] in (["-h"], ["--help"]):
        print(__doc__)
        return 0
    if words[:1] == ["--twin"]:
        return prove_twins(words[1:])
    if words[:1] == ["--compile"]:
        return compile_twins(words[1:])
    return show_all(words)


if __name__ == "__main__":
    sys.exit(main(sys.argv[1:]))
