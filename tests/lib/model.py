"""A plain model of the server, written from docs/rules and not from the code: what a script's lines yield.

It knows what `tests/try_random` makes: whole heads of SOURCE and GET, plain bodies, pulls of relays, also on demand, commands, listings, titles of
ASCII; no address lists.
"""
import base64
import collections
import hashlib
import json

STATUSES = {
    400: ("Bad Request", ["bad-mount", "missing-argument", "same-mount"]),
    401: ("Unauthorized", ["source-password", "listener-password", "admin-password", "relay-password"]),
    403: ("Forbidden", ["too-many-clients", "too-many-sources", "mount-in-use", "user-twice", "mount-full"]),
    404: ("Not Found", ["no-mount", "not-live", "fallback-depth", "no-command", "no-destination", "no-client", "no-users", "no-user"]),
}
STATUS_OF = {rule: status for status, (_, rules) in STATUSES.items() for rule in rules}
WELCOME = b"HTTP/1.0 200 OK\r\n\r\n"
REQUEST = b"GET /live HTTP/1.0\r\nHost: master:8000\r\nUser-Agent: radiod\r\nIcy-MetaData: 1\r\n\r\n"
ADMIN = ("admin", "letmein")
# the arguments of each command; those that a mount's source may give too
COMMANDS = {
    "moveclients": ["mount", "destination"],
    "killclient": ["mount", "id"],
    "killsource": ["mount"],
    "metadata": ["mount", "song"],
    "fallbacks": ["mount", "fallback"],
    "users": ["mount", "action", "username"],
}
OF_SOURCES = ["metadata", "fallbacks"]
# what is shown of the station, and the arguments of each
LISTINGS = {"status.json": [], "stats": [], "listmounts": [], "listclients": ["mount"], "streamlist.txt": []}
PLAIN, JSON = "text/plain; charset=utf-8", "application/json"


def denial(rule):
    return answer(STATUS_OF[rule], STATUSES[STATUS_OF[rule]][0], f"denied: {rule}\n")


def in_json(value):
    return json.dumps(value, separators=(",", ":"), sort_keys=True)


def answer(status, phrase, body, kind=PLAIN):
    lines = [f"HTTP/1.0 {status} {phrase}", f"Content-Type: {kind}", f"Content-Length: {len(body)}"]
    lines += ['WWW-Authenticate: Basic realm="radio"'] * (status == 401) + ["Connection: close", "", body]
    return "\r\n".join(lines).encode()


def escaped(text):
    known = {13: "\\r", 10: "\\n", 92: "\\\\"}
    return "".join(known.get(byte) or (chr(byte) if 32 <= byte < 127 else f"\\x{byte:02x}") for byte in text)


class Mount:
    """The settings of a mount."""

    def __init__(self, name, table, limits):
        self.name = name
        self.most, self.duration = table.get("max-listeners"), table.get("max-listener-duration")
        self.fallback, self.override = table.get("fallback-mount"), table.get("fallback-override", False)
        self.when_full = table.get("fallback-when-full", False)
        self.duplicates = table.get("allow_duplicate_users", True)
        self.burst = min(table.get("burst-size", limits["burst-size"]), limits["queue-size"])
        self.interval, self.shown = table.get("mp3-metadata-interval", 16000), table.get("stream-name", "")
        self.hidden = table.get("hidden", False)


class Session:
    def __init__(self, mount, source, now):
        self.mount, self.source, self.data, self.starts, self.title, self.last = mount, source, b"", [], None, now


class Relay:
    """A pull of a relay, which has a number once it is up. `rule` is the one by which it was finished."""

    def __init__(self, mount):
        self.feeding, self.number, self.state, self.rule = mount, None, "asked", None


class Client:
    """A client that was admitted. `rule` is the one that finished it; a listener that sits has a `mount` and a `session`."""

    def __init__(self, number, peer, now):
        self.number, self.peer, self.arrived, self.state, self.rule = number, peer, now, "new", None
        self.mount = self.session = self.home = self.pair = self.since = None
        self.place, self.sound, self.sent = 0, 0, None


class Model:
    def __init__(self, settings):
        self.limits = {"clients": 100, "sources": 2, "queue-size": 524288, "burst-size": 65536, "source-timeout": 10, "header-timeout": 15}
        self.limits |= settings.get("limits", {})
        self.relay = settings.get("relay")
        self.tables = {table["mount-name"]: table for table in settings.get("mounts", [])}
        self.now, self.last, self.clients, self.live, self.labels = 0, 0, {}, {}, {}
        # of each mount that a relay feeds, whether it does so on demand
        self.relays = settings.get("relays", {})
        # the fallbacks that commands have set
        self.fallbacks = {}
        # of each mount that has users, their passwords
        self.users = {name: dict(reversed(table["users"])) for name, table in self.tables.items() if "users" in table}
        # how often what was met, so that it can be seen what scripts try
        self.met = collections.Counter()

    def mount(self, name):
        mount = Mount(name, self.tables.get(name, {}), self.limits)
        mount.fallback = self.fallbacks.get(name, mount.fallback)
        return mount

    def lets_in(self, name, pair):
        return name not in self.users or (pair is not None and self.users[name].get(pair[0]) == pair[1])

    def heard_at(self, name):
        """The session of the mount, or an empty one if it waits for one; `None` if it does not."""
        return self.live.get(name) or (Session(name, None, self.now) if self.relays.get(name) else None)

    # who sits where

    def seats(self):
        return [one for _, one in sorted(self.clients.items()) if one.mount is not None and one.rule is None]

    def at(self, name, but=None):
        return [one for one in self.seats() if one.mount == name and one is not but]

    def is_twice(self, name, pair, but=None):
        return not self.mount(name).duplicates and pair is not None and any(one.pair and one.pair[0] == pair[0] for one in self.at(name, but))

    def is_full(self, name, but=None):
        most = self.mount(name).most
        return most is not None and len(self.at(name, but)) >= most

    def stop(self, name, pair, but=None):
        """The rule that keeps a client with this pair from the mount; `None` if it may sit there."""
        if self.heard_at(name) is None:
            return "not-live"
        if self.is_full(name, but):
            return "mount-full"
        if not self.lets_in(name, pair):
            return "listener-password"
        return "user-twice" if self.is_twice(name, pair, but) else None

    def walk(self, name, pair, but=None):
        """Where a walk ends: the mount, or the rule that stops it."""
        for _ in range(10):
            mount = self.mount(name)
            hands_on = self.heard_at(name) is None or (self.is_full(name, but) and mount.when_full)
            if not hands_on or mount.fallback is None:
                rule = self.stop(name, pair, but)
                return (None, rule) if rule else (name, None)
            name = mount.fallback
        return None, "fallback-depth"

    def goes_to(self, one, name):
        session = self.heard_at(name)
        one.mount, one.session, one.place = name, session, len(session.data)

    def ends(self, name):
        """The mount's session is over: its listeners walk on, one after another."""
        del self.live[name]
        for one in self.seats():
            if one.mount == name:
                lands, rule = self.walk(name, one.pair, one)
                if lands is None:
                    one.rule = rule
                    self.met["out by " + rule] += 1
                else:
                    self.goes_to(one, lands)
                    self.met["moved on" if lands in self.live else "waits again" if lands == name else "moved where one waits"] += 1

    def begins(self, name, source):
        """A session of the mount: the listeners that waited there get it, and those that the mount calls come home."""
        self.live[name] = Session(name, source, self.now)
        for one in self.at(name):
            one.session = self.live[name]
            self.met["hears what he waited for"] += 1
        if self.mount(name).override:
            for one in self.seats():
                if one.home == name and one.mount != name and self.stop(name, one.pair, one) is None:
                    self.goes_to(one, name)
                    self.met["came home"] += 1

    # what is asked

    def source_pair(self, name):
        table = self.tables.get(name, {})
        return table.get("username", "source"), table.get("password", "hackme")

    def gives(self, command, arguments, pair):
        """The rule that denies the command, or what is said of it."""
        if command not in COMMANDS:
            return "no-command", None
        of_source = command in OF_SOURCES
        if pair != ADMIN and not (of_source and pair == self.source_pair(arguments.get("mount"))):
            return "source-password" if of_source else "admin-password", None
        if any(name not in arguments for name in COMMANDS[command]):
            return "missing-argument", None
        if command == "users":
            return self.changes_users(arguments["mount"], arguments["action"], arguments["username"], arguments.get("password"))
        mount, other = [arguments[name] for name in COMMANDS[command]][0], [arguments[name] for name in COMMANDS[command]][-1]
        if mount not in self.live:
            return "no-mount", None
        if command == "moveclients" and other not in self.live:
            return "no-destination", None
        if command == "moveclients" and other == mount:
            return "same-mount", None
        if command == "killclient" and all(one.number != other for one in self.at(mount)):
            return "no-client", None
        return None, self.does(command, mount, other)

    def changes_users(self, mount, action, user, password):
        """The rule that denies it, or how many have finished by it."""
        if action == "add" and password is None:
            return "missing-argument", None
        if mount not in self.users:
            return "no-users", None
        users = self.users[mount]
        if action == "delete" and user not in users:
            return "no-user", None
        if action == "add":
            users[user] = password
        else:
            del users[user]
        ended = [one for one in self.at(mount) if not self.lets_in(mount, one.pair)]
        for one in ended:
            one.rule = "listener-password"
        self.met["shut out"] += len(ended)
        return None, f"ended: {len(ended)}\n"

    # what is shown

    def rows(self):
        """The live mounts by their names, each with its session and its settings."""
        return [(name, self.live[name], self.mount(name)) for name in sorted(self.live)]

    def seen(self, name, session, mount):
        """What everybody may see of a mount."""
        title = (session.title or b"").decode()
        return {"genre": "", "listeners": len(self.at(name)), "mount": name, "name": mount.shown, "title": title, "type": "audio/mpeg"}

    def shows(self, listing, arguments, pair):
        """The rule that denies the listing, or its text."""
        if listing == "streamlist.txt" and pair != ADMIN and (self.relay is None or pair != self.relay):
            return "relay-password", None
        if listing not in ["status.json", "streamlist.txt"] and pair != ADMIN:
            return "admin-password", None
        if any(name not in arguments for name in LISTINGS[listing]):
            return "missing-argument", None
        if listing == "listclients" and arguments["mount"] not in self.live:
            return "no-mount", None
        return None, self.shown(listing, arguments.get("mount"))

    def shown(self, listing, at):
        rows, number = self.rows(), {name: session.source.number for name, session in self.live.items()}
        if listing == "status.json":
            return in_json({"mounts": [self.seen(*row) for row in rows if not row[2].hidden]})
        if listing == "streamlist.txt":
            return "".join(f"{name}\r\n" for name, _, mount in rows if not mount.hidden)
        if listing == "listclients":
            return in_json({"listeners": [self.heard(one) for one in self.at(at)], "mount": at})
        if listing == "listmounts":
            shown = [{"fallback": mount.fallback or "", "hidden": mount.hidden, "listeners": len(self.at(name)), "mount": name} for name, _, mount in rows]
            return in_json({"mounts": shown})
        shown = [self.seen(*row) | {"hidden": row[2].hidden, "session": number[row[0]]} for row in rows]
        count = sum(mount["listeners"] for mount in shown)
        return in_json({"clients": len(self.clients), "listeners": count, "mounts": shown, "sources": len(rows)})

    def heard(self, one):
        user = one.pair[0] if one.pair else ""
        seconds = (self.now - one.since) // 1000
        return {"home": one.home, "id": one.number, "mount": one.mount, "peer": one.peer, "seconds": seconds, "user": user}

    def does(self, command, mount, other):
        if command == "moveclients":
            goes = 0
            for one in self.at(mount):
                if self.stop(other, one.pair, one) is None:
                    self.goes_to(one, other)
                    goes += 1
                self.met["sent on" if one.mount == other else "not let in"] += 1
            return f"moved: {goes}\n"
        if command == "killclient":
            self.clients[other].rule = "killed"
        elif command == "killsource":
            source = self.live[mount].source
            self.ends(mount)
            source.rule, source.state = "source-killed", "ended"
        elif command == "metadata":
            self.live[mount].title = other
        else:
            self.fallbacks[mount] = other
        return "done\n"

    def feeds(self, client, name, pair):
        if pair != self.source_pair(name):
            return "source-password"
        if len(self.live) >= self.limits["sources"]:
            return "too-many-sources"
        if name in self.live:
            return "mount-in-use"
        client.state, client.feeding = "feeds", name
        self.begins(name, client)
        return None

    def listens(self, client, name, pair):
        if name not in self.tables and name not in self.live and name not in self.relays:
            return "no-mount"
        if not self.lets_in(name, pair):
            return "listener-password"
        if self.is_twice(name, pair):
            return "user-twice"
        lands, rule = self.walk(name, pair)
        if lands is None:
            return rule
        self.met["waits" if lands not in self.live else "sat down" if lands == name else "sat down elsewhere"] += 1
        session = self.heard_at(lands)
        most = self.mount(lands).burst
        end = len(session.data)
        client.state, client.home, client.mount, client.session = "listens", name, lands, session
        client.pair, client.since = pair, self.now
        client.place = min([start for start in session.starts if end - start <= most] + [end])
        return None

    def takes(self, client, data):
        session = self.live[client.feeding]
        for at in range(0, len(data), 4096):
            session.starts.append(len(session.data))
            session.data += data[at : at + 4096]
            session.last = self.now
            for one in self.at(session.mount):
                if len(session.data) - one.place > self.limits["queue-size"]:
                    one.rule = "lagged"

    def clock(self, ms):
        if ms < self.now:
            return
        self.now = ms
        for one in self.clients.values():
            if one.state == "new" and one.rule is None and ms - one.arrived >= 1000 * self.limits["header-timeout"]:
                one.rule = "header-timeout"
        for one in self.seats():
            duration = self.mount(one.home).duration
            if duration is not None and ms - one.since >= 1000 * duration:
                one.rule = "time-over"
        for name in sorted(name for name, session in self.live.items() if ms - session.last >= 1000 * self.limits["source-timeout"]):
            source = self.live[name].source
            self.ends(name)
            source.rule, source.state = "source-silent", "ended"

    def leaves(self, client):
        if client.state == "feeds":
            self.ends(client.feeding)
        self.clients.pop(client.number, None)

    def draws(self, client, room):
        data = client.session.data[client.place : client.place + room]
        client.place += len(data)
        if not client.wants:
            return data
        every, out = self.mount(client.home).interval, b""
        while data:
            piece, data = data[: every - client.sound], data[every - client.sound :]
            out += piece
            client.sound += len(piece)
            if client.sound == every:
                client.sound = 0
                title = client.session.title
                if title is not None and title != client.sent:
                    text = b"StreamTitle='" + title + b"';"
                    size = -(-len(text) // 16)
                    out += bytes([size]) + text.ljust(16 * size, b"\0")
                    client.sent = title
                else:
                    out += b"\0"
        return out

    # deliveries

    def says(self, label, text=b"", word=None):
        lines = [f"out {label} {escaped(text)}"] if text else []
        if word is not None:
            self.met["shut by " + word] += 1
            lines.append(f"shut {label} {word}")
            client = self.labels[label]
            self.labels[label] = None
            if client is not None:
                self.leaves(client)
        return lines

    def opens(self, label, peer):
        self.labels[label] = None
        if len(self.clients) >= self.limits["clients"]:
            return self.says(label, denial("too-many-clients"), "too-many-clients")
        self.last += 1
        self.labels[label] = self.clients[self.last] = Client(self.last, peer, self.now)
        return []

    def asks(self, label, method, name, pair, wants):
        client = self.labels[label]
        if client is None or client.state != "new":
            return []
        if client.rule:
            return self.says(label, word=client.rule)
        client.wants = wants
        rule = self.feeds(client, name, pair) if method == "SOURCE" else self.listens(client, name, pair)
        if rule:
            client.state = "answered"
            return self.says(label, denial(rule), rule)
        return self.says(label, WELCOME if method == "SOURCE" else self.head(client))

    def commands(self, label, command, arguments, pair):
        client = self.labels[label]
        if client is None or client.state != "new":
            return []
        if client.rule:
            return self.says(label, word=client.rule)
        rule, text = self.gives(command, arguments, pair)
        self.met[f"{command}: {rule or text.strip()}"] += 1
        client.state = "answered"
        return self.says(label, denial(rule), rule) if rule else self.says(label, answer(200, "OK", text), "done")

    def lists(self, label, listing, arguments, pair):
        client = self.labels[label]
        if client is None or client.state != "new":
            return []
        if client.rule:
            return self.says(label, word=client.rule)
        rule, text = self.shows(listing, arguments, pair)
        self.met[f"{listing}: {rule or 'shown'}"] += 1
        client.state = "answered"
        kind = PLAIN if listing == "streamlist.txt" else JSON
        return self.says(label, denial(rule), rule) if rule else self.says(label, answer(200, "OK", text, kind), "done")

    def head(self, client):
        shown = self.mount(client.mount).shown
        lines = ["HTTP/1.0 200 OK", "Content-Type: audio/mpeg"] + [f"icy-name: {shown}"] * (shown != "")
        lines += [f"icy-metaint: {self.mount(client.home).interval}"] * client.wants + ["Connection: close", "", ""]
        return "\r\n".join(lines).encode()

    def pulls(self, label, name):
        self.labels[label] = Relay(name)
        return self.says(label, REQUEST)

    def answers(self, label, data):
        """The head of a master's answer, and data behind it."""
        relay = self.labels[label]
        if len(self.live) >= self.limits["sources"]:
            return self.says(label, word="too-many-sources")
        if relay.feeding in self.live:
            return self.says(label, word="mount-in-use")
        self.last += 1
        relay.number, relay.state = self.last, "feeds"
        self.begins(relay.feeding, relay)
        return self.brings(label, data)

    def brings(self, label, data):
        client = self.labels[label]
        if client is None or client.state not in ("feeds", "ended") or not data:
            return []
        if client.rule:
            return self.says(label, word=client.rule)
        self.takes(client, data)
        return []

    def titles(self, label, title):
        client = self.labels[label]
        if client is None:
            return []
        if client.rule:
            return self.says(label, word=client.rule)
        if client.state == "feeds":
            self.live[client.feeding].title = title
        return []

    def rooms(self, label, room):
        client = self.labels[label]
        if client is None:
            return []
        if client.rule:
            return self.says(label, word=client.rule)
        return self.says(label, self.draws(client, room)) if client.state == "listens" else []

    def closes(self, label):
        client = self.labels[label]
        return [] if client is None else self.says(label, word="done")


def basic(pair):
    return "" if pair is None else "Authorization: Basic " + base64.b64encode(":".join(pair).encode()).decode() + "\\r\\n"


def user_line(pair):
    return f"{pair[0]}:{hashlib.md5(pair[1].encode()).hexdigest()}\n"
