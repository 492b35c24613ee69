"""Where the files of a station go when `scripts/install` or `scripts/package` puts them in their places.

The program is the proved one; `RADIOD` in the environment names another.
"""
import os
import pathlib
import re

TOP = pathlib.Path(__file__).resolve().parent.parent
PROGRAM = pathlib.Path(os.environ.get("RADIOD") or TOP / "crates/radiod/out/radiod")
EXAMPLE = TOP / "examples/on_the_air"
# Scripts that an operator calls, and what these import.
TOOLS = ["drain", "exporter", "combined", "follower"]
SHARED = ["admin.py", "log_lines.py"]
PAGES = ["README.md", "CHANGELOG.md", "LICENSE-MIT", "LICENSE-APACHE"]
GUIDES = ["STATION.md", "USERS.md", "FORMATS.md"]
RULES = sorted((TOP / "docs/rules").glob("*.md"))
UNITS = ["radiod.service", "radiod-exporter.service", "radiod-follower.service"]
# Read and written by root, read by the station's group: it holds passwords.
SETTINGS_MODE = 0o640


class Failure(Exception):
    """Why something cannot be put in its place, in one line."""


def version():
    """The version of the program, as its sources have it."""
    text = (TOP / "crates/radio_startup/src/notices.rt").read_text()
    return re.search(r'^pub const VERSION: &str = "([^"]+)";$', text, re.M)[1]


def read_program():
    try:
        return PROGRAM.read_bytes()
    except OSError:
        raise Failure("there is no proved program: call scripts/build first") from None


class Layout:
    """The folders of an installation, as the installed files name them."""

    def __init__(self, prefix, config, units, sysusers):
        self.bin, self.tools = prefix / "bin", prefix / "lib/radiod"
        self.man, self.doc = prefix / "share/man/man1", prefix / "share/doc/radiod"
        self.config, self.units, self.sysusers = config, units, sysusers

    def files(self):
        """Path, what reads the content, and mode of each file but the settings, which are their owner's once they are there."""
        yield self.bin / "radiod", read_program, 0o755
        for name in TOOLS:
            yield self.tools / name, (TOP / "scripts" / name).read_bytes, 0o755
        for name in SHARED:
            yield self.tools / name, (TOP / "scripts" / name).read_bytes, 0o644
        yield self.man / "radiod.1", manual, 0o644
        for name in PAGES:
            yield self.doc / name, (TOP / name).read_bytes, 0o644
        for name in GUIDES:
            yield self.doc / name, (TOP / "docs" / name).read_bytes, 0o644
        for page in RULES:
            yield self.doc / "rules" / page.name, page.read_bytes, 0o644
        yield self.doc / "settings.toml", (EXAMPLE / "settings.toml").read_bytes, 0o644
        for name in UNITS:
            yield self.units / name, lambda name=name: self.unit(name), 0o644
        if self.sysusers:
            yield self.sysusers / "radiod.conf", lambda: self.unit("radiod.conf"), 0o644

    def settings(self):
        return self.config / "settings.toml", (EXAMPLE / "settings.toml").read_bytes(), SETTINGS_MODE

    def unit(self, name):
        """A file of systemd with the paths of this installation."""
        text = (EXAMPLE / name).read_text()
        text = text.replace("/usr/local/bin/radiod", str(self.bin / "radiod"))
        text = text.replace("/usr/local/lib/radiod", str(self.tools)).replace("/etc/radiod", str(self.config))
        return (text if self.sysusers else of_own_systemd(text)).encode()


def of_own_systemd(text):
    """A unit that a user's own systemd runs, which has no other users and no new rights to give."""
    dropped = ("User=", "Group=", "SupplementaryGroups=", "CapabilityBoundingSet=", "PrivateUsers=", "ProtectHome=")
    lines = text.replace("multi-user.target", "default.target").splitlines(keepends=True)
    return "".join(line for line in lines if not line.startswith(dropped))


def manual():
    """The manual page, with the version."""
    return (TOP / "docs/radiod.1").read_text().replace("@VERSION@", version()).encode()


def of_system(prefix):
    """The folders under a prefix for the whole machine. Units stay where systemd looks for them."""
    prefix = pathlib.Path(prefix)
    of_machine = str(prefix) in ("/usr", "/usr/local")
    config = pathlib.Path("/etc/radiod") if of_machine else prefix / "etc/radiod"
    return Layout(prefix, config, prefix / "lib/systemd/system", prefix / "lib/sysusers.d")


def of_home(home):
    """The folders of a user, whose own systemd runs the units."""
    home = pathlib.Path(home)
    return Layout(home / ".local", home / ".config/radiod", home / ".config/systemd/user", None)


def put(root, path, content, mode):
    """Writes a file below a root folder, with the folders above it. What was there goes in one step."""
    to = below(root, path)
    to.parent.mkdir(parents=True, exist_ok=True)
    made = to.with_name(f".{to.name}.new")
    made.write_bytes(content)
    made.chmod(mode)
    made.rename(to)
    return to


def below(root, path):
    return pathlib.Path(root) / path.relative_to("/") if root else path
