"""What shows each rule of docs/rules: the comments that name it, and the definition, contract, edit, plant, case or test
behind each. For the scripts `rule` and `rules`.

A comment is a line directly above what it speaks of:

    in a file of specs, above a definition                      `-- rule: NAME; NAME`
    in a source file, above a function (its contract) or test   `// rule: NAME`
    in an edit that the prover must refuse                      `# rule: NAME`
    in the settings of a case, a table of cases, a script       `# rule: NAME`
    the same, to say what of a rule no contract says            `# only tested: NAME: WORDS`

A planted bug has its rules in the column `rule` of docs/history/planted.tsv, with semicolons between them.
"""
import re
from collections import namedtuple
from functools import cache

from names import CRATES, TOP, text_of

PAGES = "docs/rules"
PLANTED = "docs/history/planted.tsv"
KINDS = ("definition", "contract", "edit", "plant", "case", "test")
COMMENT = re.compile(r"^\s*(?:--|//|#) (rule|only tested): (.+)$")
FUNCTION = re.compile(r"^\s*(?:pub(?:\(\w+\))? )?(?:const )?fn (\w+)")
CONSTANT = re.compile(r"^\s*(?:pub(?:\(\w+\))? )?const (\w+):")
DEFINITION = re.compile(r"^\s*(?:(?:unfoldable|abbrev)\s+)?pub (?:(?:record|data)\s+)?([^\s:]+)")
OWNER = re.compile(r"^(?:impl|pub trait|trait)\b(?:<[^{]*?>)? ?(?:.*\bfor )?(\w+)")

# A rule: its page, the line of its heading, its name and its sentences.
Rule = namedtuple("Rule", "page line name text")
# What shows a rule: its kind, its name, its file from the top and its line, and what no contract says of it, if anything.
Evidence = namedtuple("Evidence", "rule kind name file line untold")


def pages():
    """The pages of rules."""
    return sorted((TOP / PAGES).glob("*.md"))


@cache
def rules():
    """All rules, in the order of the pages."""
    found = []
    for page in pages():
        lines = page.read_text().splitlines()
        for number, line in enumerate(lines, 1):
            if line.startswith("## "):
                found.append(Rule(page.stem, number, line[3:], lines[number] if number < len(lines) else ""))
    return found


def key_of(name):
    """By what a rule is found: its name in small letters."""
    return name.strip().lower()


def files():
    """The files in which a comment may name a rule, by their paths from the top."""
    patterns = ["crates/*/specs/**/*.antt", "crates/*/src/**/*.rt", "crates/*/must-fail/*.edit", "examples/*/settings.toml",
                "scripts/*", "tests/**/*", "bench/*"]
    found = {path for pattern in patterns for path in TOP.glob(pattern)}
    named = [path for path in found if path.is_file() and "__pycache__" not in path.parts]
    return sorted(str(path.relative_to(TOP)) for path in named)


def named_in(comment):
    """The rules that a comment names, and what it says that no contract says of them."""
    word, said = comment
    if word == "rule":
        return [(name.strip(), None) for name in said.split(";")]
    name, _, untold = said.partition(":")
    return [(name.strip(), untold.strip())]


def item_below(file, lines, number):
    """The kind, the name and the line of what is below a comment, if it is something that shows a rule."""
    if file.endswith(".edit"):
        return "edit", f"{file.split('/')[1]}/{file.split('/')[-1][:-5]}", 1
    if file.endswith("settings.toml"):
        return "case", file.split("/")[-2], 1
    if file.endswith(".tsv"):
        return "case", file.split("/")[-1][:-4], 1
    is_test = False
    for at in range(number, len(lines)):
        line = lines[at]
        is_test = is_test or line.strip() == "#[test]"
        if re.match(r"\s*(?:--|//|#)", line) or not line.strip():
            continue
        if file.endswith(".antt"):
            match = DEFINITION.match(line)
            return ("definition", match[1], at + 1) if match else None
        if file.endswith(".rt"):
            match = FUNCTION.match(line) or CONSTANT.match(line)
            return ("test" if is_test else "contract", owned(match[1], lines, at), at + 1) if match else None
        match = re.match(r"def (\w+)\(", line) or re.match(r"(\w+)\(\) \{", line)
        return ("case", match[1] if match else file.split("/")[-1], at + 1)
    return None


def owned(name, lines, at):
    """A function's name, with its type's if it is in an `impl` or a trait."""
    if not lines[at].startswith(" "):
        return name
    for line in reversed(lines[:at]):
        if line and not line.startswith((" ", "}", "/", "#", ")", "w")):
            match = OWNER.match(line)
            return f"{match[1]}::{name}" if match else name
    return name


def planted():
    """The rows of planted bugs: the line and the cells of each, by the names of the columns."""
    lines = [(number, line) for number, line in enumerate(text_of(PLANTED).splitlines(), 1) if line and not line.startswith("#")]
    columns = lines[0][1].split("\t")
    return [(number, dict(zip(columns, line.split("\t")))) for number, line in lines[1:]]


def evidence_of_plants():
    """What the planted bugs show."""
    for number, row in planted():
        for name in filter(None, row["rule"].split(";")):
            yield Evidence(name.strip(), "plant", row["what is wrong"], PLANTED, number, None)


def evidence_of_file(file, text):
    """What the comments of a file show; a comment above nothing has no kind."""
    lines = text.splitlines()
    for number, line in enumerate(lines, 1):
        match = COMMENT.match(line)
        if match:
            kind, name, at = item_below(file, lines, number) or (None, "", number)
            for rule, untold in named_in(match.groups()):
                yield Evidence(rule, kind, name, file, at, untold)


@cache
def evidence():
    """All that shows rules, in the order of the kinds, then of the files."""
    found = list(evidence_of_plants())
    for file in files():
        try:
            text = text_of(file)
        except UnicodeDecodeError:
            continue
        if not file.endswith(".md") and ("rule: " in text or "only tested: " in text):
            found += evidence_of_file(file, text)
    order = {kind: place for place, kind in enumerate(KINDS)}
    return sorted(found, key=lambda it: (order.get(it.kind, len(order)), it.file, it.line))


def changed_by(edit):
    """The functions and constants that an edit changes: file and line of each."""
    crate = CRATES / edit.split("/")[1]
    file, found = None, set()
    for line in text_of(edit).splitlines():
        if line.startswith("file: "):
            file = str((crate / line[6:].strip()).relative_to(TOP))
        elif line.startswith("old: ") and file:
            found |= {(file, at) for at in [holder_of(text_of(file).splitlines(), line[5:])] if at}
    return found


def holder_of(lines, old):
    """The line of the function or the constant in which a text is."""
    places = [at for at, line in enumerate(lines) if old in line]
    for at in range(places[0] if places else -1, -1, -1):
        match = FUNCTION.match(lines[at]) or (CONSTANT.match(lines[at]) if at == places[0] else None)
        if match:
            return at + 1
    return None
