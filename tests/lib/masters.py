"""Masters that scripts play, for stations that pull relays of them, and the tables of such relays and slaves."""
import contextlib
import socket
import threading
import time

from station import head

UP = b"HTTP/1.0 200 OK\r\n\r\n"
RELAYS = 'relay-password = "follow"\n'


def relay(port, mount="/a", more="", server="127.0.0.1"):
    """The table of a relay of a master at this port."""
    return f'[[relay]]\nserver = "{server}"\nport = {port}\nmount = "{mount}"\n{more}'


def slave(port, interval=1):
    """The table of a slave whose master is at this port."""
    return (
        f'[slave]\nmaster-server = "127.0.0.1"\nmaster-port = {port}\n'
        f'master-password = "follow"\nmaster-update-interval = {interval}\n'
    )


def is_live(station, mount=b"/a"):
    """Whether the mount is live there."""
    line = station.ask(b"GET " + mount + b" HTTP/1.0\r\n\r\n")
    with line:
        return head(line).startswith(b"HTTP/1.0 200 OK")


class Master:
    """A master of a few words: the function `answer` says what it answers to the head of a request."""

    def __init__(self, answer):
        self.answer, self.asked, self.lines = answer, [], []
        self.bound = socket.create_server(("127.0.0.1", 0))
        self.port = self.bound.getsockname()[1]
        threading.Thread(target=self.run, daemon=True).start()

    def run(self):
        with contextlib.suppress(OSError):
            while True:
                line, _ = self.bound.accept()
                threading.Thread(target=self.serve, args=(line,), daemon=True).start()

    def serve(self, line):
        with contextlib.suppress(OSError, AssertionError):
            asked = head(line)
            self.asked.append((time.monotonic(), asked))
            self.lines.append(line)
            self.tell(line, asked)

    def tell(self, line, asked):
        told = self.answer(asked)
        if told is not None:
            line.sendall(told)

    def __enter__(self):
        return self

    def __exit__(self, *_):
        self.bound.close()
        for line in self.lines:
            line.close()


class ActingMaster(Master):
    """A master whose function `answer` is given the line and the head of each request, and does there what it likes."""

    def tell(self, line, asked):
        self.answer(line, asked)
