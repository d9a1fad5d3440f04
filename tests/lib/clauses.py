"""The clauses that docs/RULES.md names under each heading: for each of the rule's definitions one of the code that cites it.

tests/walks.py fails if no clause cites a definition.
"""

import re

from citing import clauses, file_of, leads_to, lemmas
from repository import found
from rules import files_in, places_in, rules

LINE = re.compile(r"(^\*Definition:\*.*\n)(?:\n\*Clauses:\*.*\n)?", re.M)


def definitions(text):
    """The definitions that a part of a rule names, each as its crate, file and name."""
    return [(*file_of(path), name) for path, names in files_in(text) for name in names]


def citing(path, definition):
    """The clauses of a file of code that cite a definition."""
    return [clause for clause in clauses(path) if definition in clause[-1]] if found(path) else []


def words_for(parts, definition):
    """A definition of a rule and the words of its "Through" that are tied to it: made of it, or in a lemma with it."""
    files = [path for path in places_in(parts["Through"]) if "/proofs/" in path and found(path)]
    shown = [named for path in files for named in lemmas(path).values()]
    yield definition
    for word in definitions(parts["Through"]):
        if leads_to(word, definition) or any(named.issuperset({word, definition}) for named in shown):
            yield word


def clause_of(parts, definition):
    """What a function returns or leaves by a definition: the word cited, the function, which is known best, and the clause's name."""
    for word in words_for(parts, definition):
        every = [clause for path, _ in files_in(parts["Code"]) for clause in citing(path, word) if clause[0] == "ensures"]
        if every:
            _, function, _, clause, _ = min(every, key=lambda one: one[2])
            return word[-1], function, clause
    return None


def told(parts):
    """The clauses of a rule, as RULES names them."""
    for definition in definitions(parts["Definition"]):
        word, function, clause = clause_of(parts, definition) or (None, None, None)
        if function:
            through = f", as `{word}`," if word != definition[-1] else ""
            yield f"`{definition[-1]}`{through} by `{function}`" + (f": `{clause}`" if clause else "")


def with_clauses(text):
    """The text of RULES with its clauses as they would be written now."""
    lines = iter(["; ".join(told(parts)) for _, parts in rules() if parts["Definition"]])
    return LINE.sub(lambda line: f"{line[1]}\n*Clauses:* {next(lines, '')}.\n", text)
