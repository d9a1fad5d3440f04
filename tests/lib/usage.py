"""What a script says of itself, and when it is called without the program that it needs, or with words that it does not take."""

import os
import sys


def tell(words, status):
    """Ends a script that says how it is called, and what it does: to standard output if it was asked for that."""
    out = sys.stderr if status else sys.stdout
    out.write(f"usage: {sys.argv[0]} {words}\n\n{sys.modules['__main__'].__doc__}\n")
    sys.exit(status)


def check_words(words, least):
    """Ends a script that is asked what it does, or has not the one word that it may have or, if `least` is 1, needs."""
    given = sys.argv[1:]
    if "-h" in given or "--help" in given:
        tell(words, 0)
    if not least <= len(given) <= 1 or given[:1] and given[0].startswith("-"):
        tell(words, 2)


def answer_questions():
    """For a script that may be given the program: ends it if it is asked what it does, or has other words."""
    check_words("[PROGRAM]", 0)


def given_program():
    """The path of the program, which is the script's one word. Without it the script says what it does and ends with status 2."""
    check_words("PROGRAM", 1)
    if not os.access(sys.argv[1], os.X_OK):
        sys.stderr.write(f"{sys.argv[0]}: there is no program {sys.argv[1]}; ./run builds crates/yamltok/out/yamltok\n")
        sys.exit(2)
    return sys.argv[1]
