"""Edits of a crate, and what the prover said of them. Shared by `.ci/contracts`, `.ci/refusals` and `tools/mutate`.

An edit is a file that `rt must-fail` reads: `file:` lines, each for the `old:` and `new:` pairs after it. `rt` passes over other lines,
so a line `for: FUNCTION: WORDS` says which wrong answer of which public function the pairs after it try (several such lines in a row:
of which functions, where all of them rest on the function that is made wrong), and a line `breaks: LEMMA` which lemma has to fail: a
claim, or, by the name `FUNCTION_spec`, that a function keeps its promise. In the names of lemmas `-` and `_` count as one.
"""
import re
from typing import NamedTuple

FUNCTION = re.compile(r'^(\s*)(?:pub(?:\(\w+\))? )?(?:extern "C" )?fn (\w+)')

IMPL = re.compile(r"^impl(?:<[^>]*>)? (?:.* for )?(\w+)")

# What the prover says where a fact fails, as against a proof that no longer has the code's form: no name that the proof uses is gone,
# and what differs is not the code that a walk by hand goes through. A note on a proof, such as of its trial runs, is no failure of its own.
FACT = re.compile(
    r"the two (?:types|sides) (?:first differ|differ|are)|expected type|does not follow from what it read|give a proof of that|no proof of|it is not proved that"
)
FORM = re.compile(r"^`walk`:|^note: |has no field|can be named from here|is not in scope|is no name")
# A goal that no answer closes, and an answer to a goal that is not there: Rattle names a goal after its condition.
OPEN = re.compile(r"it is not proved that")
GONE = re.compile(r"^`[^`]+`: `goal\.[^`]+`: module .* can be named from here")
# Two sides that the prover compared late, on the lines behind an error.
LATE = re.compile(r"^  ≟ .*\n  does not hold", re.M)
# Lemmas that fail since another did: one by one, or those of a file, three of them by name.
RESTS = re.compile(r"^`([^`]+)`: `([^`]+)` was (?:not admitted|rejected)")
REST = re.compile(r"^\d+ declarations? that depends? on `([^`]+)`, which was (?:not admitted|rejected), (?:was|were) not checked: (.*)$")
MORE = re.compile(r" and \d+ more$")
# Where a lemma begins.
SIGNATURE = re.compile(r"^( *)(?:(?:abbrev|unfoldable|pub) )*([^\s:(){},;.]+) :(?=\s)", re.M)
# The prover's word on a crate. Where libraries below it are built too, the last one is the crate's.
VERDICT = re.compile(r"^logic=(proved|not-proved)\b", re.M)
# An error of a proof, and a note on a function that the prover walks by itself, with its place in the crate.
SAID = re.compile(r"^(?:note: )?(?:\S*/)?((?:src|specs|proofs)/\S+?):(\d+):\d+: (?:error: )?(.*)")
# What it says of a function whose calls it could not go by, since what they call is not proved.
CALLS = re.compile(r"^fn \S+::(\w+): (?:not proved|no proof)[;:] it calls ", re.M)


class Wrong(NamedTuple):
    """A wrong answer of a public function, in words."""

    function: str
    words: str


class Pair(NamedTuple):
    """One replacement of an edit: the file in its crate, the text as it is and as it is to be, and the wrong answers that it tries."""

    file: str
    old: str
    new: str
    wrong: tuple


class Said(NamedTuple):
    """A place in the crate that the prover spoke of, and what it said."""

    file: str
    line: int
    words: str


def read_edit(path):
    """The pairs of an edit."""
    file, old, wrong, pairs, goes_on = "", "", (), [], False
    for line in path.read_text(encoding="utf-8").split("\n"):
        word, _, rest = line.partition(": ") if line != "new:" else ("new", "", "")
        if word == "file":
            file, wrong = rest.strip(), ()
        elif word == "for":
            function, _, words = rest.partition(": ")
            wrong = (*(wrong if goes_on else ()), Wrong(function, words))
        elif word == "old":
            old = rest
        elif word == "new":
            pairs.append(Pair(file, old, rest, wrong))
        goes_on = word == "for"
    return pairs


def made(crate, pairs):
    """The files of a crate with these pairs made, and those whose old text is not just once in its file; as `rt must-fail` reads them."""
    texts, found = {}, []
    for pair in pairs:
        file = crate / pair.file
        if pair.file not in texts:
            texts[pair.file] = file.read_text(encoding="utf-8") if file.is_file() else ""
        if texts[pair.file].count(pair.old) != 1:
            found.append(pair)
        texts[pair.file] = texts[pair.file].replace(pair.old, pair.new, 1)
    return texts, found


def misfits(crate, path):
    """The pairs of an edit whose old text is not just once in its file, with the pairs before it made."""
    return made(crate, read_edit(path))[1]


def function_of(crate, pair):
    """The function of src/ that a pair makes wrong, or none."""
    if not pair.wrong or not pair.file.startswith("src/"):
        return None
    text = (crate / pair.file).read_text(encoding="utf-8")
    return function_at(text, line_of(text, pair.old))


def plain(name):
    """The name of a lemma, as it is compared."""
    return name.replace("-", "_")


def to_break(path):
    """The lemmas that an edit has to break."""
    return [line.partition(": ")[2].strip() for line in path.read_text(encoding="utf-8").split("\n") if line.startswith("breaks: ")]


def function_spans(text):
    """The functions of a source file: each name, with its first line, attributes and all, and its last."""
    lines = text.split("\n")
    spans = []
    for number, line in enumerate(lines, 1):
        if found := FUNCTION.match(line):
            first = number
            while first > 1 and lines[first - 2].startswith(f"{found[1]}#["):
                first -= 1
            last = next((n for n in range(number, len(lines) + 1) if lines[n - 1] == f"{found[1]}}}"), number)
            spans.append((found[2], first, last))
    return spans


def function_at(text, line):
    """The name of the function that a line stands in, or none."""
    return next((name for name, first, last in function_spans(text) if first <= line <= last), None)


def span_at(text, line):
    """The first and the last line of the function that a line stands in, or none."""
    return next(((first, last) for _, first, last in function_spans(text) if first <= line <= last), None)


def type_at(text, number):
    """The type of whose methods that function is one in which a line stands, or none."""
    first = (span_at(text, number) or (0, 0))[0]
    for line in reversed(text.split("\n")[: max(first - 1, 0)]):
        if line == "}":
            return None
        if found := IMPL.match(line):
            return found[1]
    return None


def line_of(text, part):
    """The line in which a part of a text begins, or 0 where the part is not there just once."""
    return text[: text.index(part)].count("\n") + 1 if text.count(part) == 1 else 0


def said(log):
    """What the prover said of places of the crate."""
    lines, all_said = log.split("\n"), []
    for number, line in enumerate(lines):
        if found := SAID.match(line):
            late = LATE.match("\n".join(lines[number + 1: number + 3]))
            all_said.append(Said(found[1], int(found[2]), found[3] + (" the two sides differ" if late else "")))
    return all_said


def facts(log):
    """What it said of facts that fail."""
    return [one for one in said(log) if FACT.search(one.words) and not FORM.search(one.words)]


def gone(log):
    """What it said of answers whose goals are gone."""
    return [one for one in said(log) if GONE.search(one.words)]


def declarations(text):
    """The lemmas of a file of proofs: each name, with all that stands from its signature to the next one that stands no deeper."""
    text = re.sub(r"(?m)--.*$", "", text)
    heads = [(len(found[1]), found[2], found.start()) for found in SIGNATURE.finditer(text)]
    ends = [next((at for deep, _, at in heads[i + 1:] if deep <= head[0]), len(text)) for i, head in enumerate(heads)]
    return {name: text[at:end] for (_, name, at), end in zip(heads, ends)}


def names_in(text):
    """The names that stand in a text, as they are compared."""
    return {plain(name) for name in re.findall(r"[^\s(){}\[\],;.`]+", text)}


def broken(log, crate):
    """The lemmas of a crate that fail, because of a fact or since one fails on which they rest; and, as `FUNCTION_spec`, the functions whose
    proofs do. The prover names three of the lemmas of a file that rest on one that failed, and counts the others: of these one
    in that file fails whose text has the name of a lemma that does."""
    lemmas = {plain(found[1]) for one in facts(log) if (found := re.match(r"`([^`]+)`: ", one.words))}
    resting, counted = set(), set()
    for one in said(log):
        if found := RESTS.match(one.words):
            resting.add((plain(found[1]), plain(found[2])))
        elif found := REST.match(one.words):
            named = MORE.sub("", found[2])
            resting |= {(plain(name.partition(" ")[0]), plain(found[1])) for name in named.split(", ")}
            if named != found[2]:
                counted.add(one.file)
    for file in counted:
        path = crate / file
        texts = declarations(path.read_text(encoding="utf-8")) if path.is_file() else {}
        resting |= {(plain(lemma), on) for lemma, text in texts.items() for on in names_in(text) - {plain(lemma)}}
    while more := {lemma for lemma, on in resting if on in lemmas} - lemmas:
        lemmas |= more
    lost = {of_function(crate, one) for one in gone(log)}
    failing = [one for one in facts(log) if not OPEN.search(one.words) or of_function(crate, one) not in lost]
    failing += [one for one in said(log) if (found := REST.match(one.words)) and plain(found[1]) in lemmas]
    return lemmas | {f"{name}_spec" for one in failing if (name := of_function(crate, one))}


def of_function(crate, one):
    """The function that the prover spoke of, by its proof's folder or its place in the source, or none."""
    if found := re.match(r"proofs/(?:\S+/)?(\w+)/\w+\.antt$", one.file):
        return found[1]
    path = crate / one.file
    return function_at(path.read_text(encoding="utf-8"), one.line) if one.file.startswith("src/") and path.is_file() else None


def verdict(log):
    """Whether the crate is `proved` or `not-proved`, or none where the prover did not come to it."""
    found = VERDICT.findall(log)
    return found[-1] if found else None


def waits(log, function):
    """Whether the prover did not judge a function since what it calls is not proved."""
    return function in CALLS.findall(log)


def fails(found, file, text, line, gone=()):
    """Whether one of these is of the function that a line of a source stands in: in its own proof, or in its source. A method's proof stands in a folder of its type's, below
    that of the type's module. Where an answer of the function's lost its goal, a goal that is open shows nothing: it may be the same one
    under another name."""
    module = file[len("src/"): -len(".rt")]
    kind, span, function = type_at(text, line), span_at(text, line), function_at(text, line)
    if not span:
        return False
    above = rf"(?:\S+/)?{kind}\w*/" if kind else "" if module in ("lib", "main") else rf"{re.escape(module)}/"
    proof = re.compile(rf"proofs/{above}{re.escape(function)}/")
    lost = any(proof.match(one.file) for one in gone)
    return any(
        proof.match(one.file) or (one.file == file and span[0] <= one.line <= span[1] and not (lost and OPEN.search(one.words)))
        for one in found
    )
