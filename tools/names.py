"""Where the pages of the repository find what they name: files, tests and cases. For the scripts that check pages."""
import re
from functools import cache
from pathlib import Path

TOP = Path(__file__).resolve().parent.parent
CRATES = TOP / "crates"
SERVING = ("serve", "serve_hostile", "serve_hostile_masters", "serve_log", "serve_proxies", "serve_relays")
# The folders of scripts.
SCRIPTS = ("scripts", "tests", "tests/live", "tests/lib", "bench", "tools")


@cache
def text_of(file):
    """The text of a file, by its path from the top, or nothing if there is none."""
    path = TOP / file
    return path.read_text() if path.is_file() else ""


@cache
def sources_of(crate):
    """The texts of all source files of a crate."""
    return [text_of(file) for file in sorted((CRATES / crate / "src").glob("**/*.rt"))]


def is_of_tests(crate):
    """Whether the crate has tests, or is a library of such crates alone."""
    return crate.endswith("_tests") or crate.startswith("test_")


@cache
def tests():
    """The names of all tests."""
    test = re.compile(r"#\[test\]\s*(?:#\[[^\n]*\]\s*)*(?:pub )?fn (\w+)")
    return {name for file in CRATES.glob("*/src/**/*.rt") for name in test.findall(text_of(file))}


@cache
def served():
    """The cases of the scripts that use a running station."""
    texts = [text_of(f"tests/live/{script}") for script in SERVING]
    return {name for text in texts for name in re.findall(r"^def (\w+)\(\):$", text, re.MULTILINE)}


def is_case(name):
    """Whether there is such a case, table of scripts or test."""
    files = [f"examples/{name}/script", f"tests/cases/*/{name}/script", f"tests/tables/{name}.tsv"]
    return any(any(TOP.glob(file)) for file in files) or name in served() or name in tests()
