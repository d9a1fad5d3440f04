"""What bash, zsh and fish complete the words of the tools to, with the files of packaging/completions."""

import os
import shutil
import subprocess

from library import TOP

HERE = os.path.dirname(os.path.abspath(__file__))
FOLDER = os.path.join(TOP, "packaging", "completions")
ENCODINGS = {"any", "utf8", "utf16le", "utf16be"}

# Lines whose last word is completed in a folder that has the files `here.yaml` and `other`.
LINES = {
    "yamltok ": {"scan", "follow", "calls", "decode"}, "yamltok --": {"--help", "--version"}, "yamltok s": {"scan"}, "yamltok scan ": ENCODINGS, "yamltok decode utf1": {"utf16le", "utf16be"},
    "yamltok scan any ": set(), "bogzhami-json -e ": ENCODINGS, "bogzhami-json --key-limit ": set(), "bogzhami-json he": {"here.yaml"},
    "bogzhami-json -e any he": {"here.yaml"}, "bogzhami-lint -w ": set(), "bogzhami-lint -w 9 he": {"here.yaml"},
    "bogzhami-highlight he": {"here.yaml"}, "bogzhami-highlight --html ": {"here.yaml", "other"},
}
# The same of bash, which takes a `=` for a word, and so completes what comes after it.
BASH_LINES = {
    "bogzhami-json --encoding=": ENCODINGS, "bogzhami-json --encoding=utf1": {"utf16le", "utf16be"},
    "bogzhami-json --key-limit=": set(), "bogzhami-json --key-limit=he": set(), "bogzhami-lint --width=he": set(),
    "bogzhami-lint --width=9 he": {"here.yaml"},
}
BASH = """. "$1"
read -ra COMP_WORDS <<< "${2//=/ = }"
case $2 in *' ') COMP_WORDS+=("") ;; esac
COMP_CWORD=$((${#COMP_WORDS[@]} - 1))
$(complete -p "${COMP_WORDS[0]}" | sed -E 's/.* -F ([^ ]+) .*/\\1/')
printf '%s\\n' "${COMPREPLY[@]}"
"""


def bash(line):
    return ["bash", "--norc", "-c", BASH, "bash", os.path.join(FOLDER, "yamltok"), line]


def zsh(line):
    return ["zsh", "-f", os.path.join(HERE, "complete.zsh"), FOLDER, line]


def fish(line):
    path = os.path.join(FOLDER, line.split()[0] + ".fish")
    return ["fish", "--no-config", "-c", f"source '{path}'; complete -C '{line}'"]


def completed(command, room):
    """What a shell completes a line to; of fish without what it says of each."""
    environment = {"PATH": os.environ["PATH"], "HOME": room, "TERM": "dumb", "LANG": "C.UTF-8"}
    how = {"stdin": subprocess.DEVNULL, "capture_output": True, "text": True, "timeout": 60}
    done = subprocess.run(command, cwd=room, env=environment, **how)
    return {line.split("\t")[0] for line in done.stdout.splitlines() if line}


def lines(options):
    """The lines, and for each tool one whose last word is `--`, which is completed to all its long options."""
    yield from LINES.items()
    for name, words in options.items():
        yield f"{name} --", {part for word in words for part in word.replace(",", "").split() if part.startswith("--")}


def try_completions(room, options):
    """Whether each shell that is there completes each line as it should. `options` has the options of each tool."""
    for name in ("here.yaml", "other"):
        with open(os.path.join(room, name), "wb"):
            pass
    good = True
    for shell in (bash, zsh, fish):
        if shutil.which(shell.__name__) is None:
            print(f"tools: completions of {shell.__name__} skipped: it is not there")
            continue
        more = BASH_LINES if shell is bash else {}
        found = [(line, completed(shell(line), room), wanted) for line, wanted in [*lines(options), *more.items()]]
        wrong = [(line, got) for line, got, wanted in found if got != wanted]
        print(f"tools: completions of {shell.__name__}: {len(found)} lines, {len(wrong)} wrong {wrong[:3] or ''}", flush=True)
        good = good and not wrong and len(found) > 10
    return good
