"""Calls on many inputs by one run of testbench, and its answers in the form of the program's listing."""

import subprocess

STYLES = {"PLAIN": "plain", "SINGLE_QUOTED": "single", "DOUBLE_QUOTED": "double", "LITERAL": "literal", "FOLDED": "folded"}
NOTHING = {"SKIPPED": "SKIP", "NOTHING": "SKIP NOTHING"}


def listed_fault(line):
    """`FAULT KIND OFFSET VALUE CONTEXT-MARK PROBLEM-MARK CONTEXT; PROBLEM` as the listing has it."""
    _, kind, offset, value, context_mark, problem_mark, texts = line.split(" ", 6)
    if kind == "reader":
        return f"FAULT reader {offset} {value} {texts.removeprefix('-; ')}"
    return f"FAULT scanner {context_mark} {problem_mark} {texts}" if kind == "scanner" else f"FAULT {kind}"


def listed_token(line):
    """`TOKEN TYPE START END` and the parts of the token as the listing has it."""
    _, name, *rest = line.split(" ")
    if name == "YAML_NO_TOKEN":
        return "NO-TOKEN"
    name = name.removeprefix("YAML_").removesuffix("_TOKEN").replace("_", "-")
    if name == "STREAM-START":
        rest[2] = rest[2].removeprefix("YAML_").removesuffix("_ENCODING")
    if name == "SCALAR":
        rest[2] = STYLES[rest[2].removeprefix("YAML_").removesuffix("_SCALAR_STYLE")]
    return " ".join([name, *rest])


def listed(line):
    """The answer of testbench to a call as the listing has it, but a peek shows the whole token."""
    if line in NOTHING:
        return NOTHING[line]
    if line.startswith("PEEKED "):
        return "PEEK " + listed_token(line.removeprefix("PEEKED "))
    return listed_fault(line) if line.startswith("FAULT ") else listed_token(line)


def answers_of(testbench, asked):
    """The answers to lists of calls, each of a parser of its own. A list is a setting, a key limit, a word and an input."""
    lines = "".join(f"{setting} {limit} {word} {data.hex() or '-'}\n" for setting, limit, word, data in asked)
    done = subprocess.run([testbench, "rows"], input=lines.encode("ascii"), capture_output=True, timeout=600)
    if done.returncode or done.stderr:
        raise SystemExit(f"testbench rows: status {done.returncode}, {done.stderr!r}")
    return [[listed(line) for line in answers.splitlines()] for answers in done.stdout.decode("ascii").split("\n\n")[:-1]]
