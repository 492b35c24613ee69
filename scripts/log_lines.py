"""Lines of a station's log, as docs/FORMATS.md has them."""
import urllib.parse


def read(line):
    """The moment, the kind and the fields of a line; `None` if it is no line of the log."""
    moment, _, rest = line.rstrip("\n").partition(" ")
    kind, *words = rest.split(" ")
    if not moment.endswith("Z") or not kind or any("=" not in word for word in words):
        return None
    fields = dict(word.split("=", 1) for word in words)
    return moment, kind, {name: urllib.parse.unquote(value, errors="replace") for name, value in fields.items()}
