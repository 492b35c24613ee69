"""What scripts ask of a running station with the admin's pair of its settings file.

A script is found by its own folder, so it works from a checkout and where `scripts/install` has put it.
"""
import base64
import http.client
import json
import pathlib
import urllib.parse


class Failure(Exception):
    """Why a script can't do its work, in one line."""


class Admin:
    """A station, as its settings file says where it is and what its admin's pair is."""

    def __init__(self, path):
        try:
            import tomllib
        except ImportError:
            raise Failure("Python 3.11 or later is needed, which reads TOML") from None
        try:
            read = tomllib.loads(pathlib.Path(path).read_text())
        except (OSError, UnicodeDecodeError, tomllib.TOMLDecodeError) as error:
            raise Failure(f"cannot read {path}: {getattr(error, 'strerror', None) or error}") from None
        listen = read.get("listen", {})
        address = listen.get("address", "127.0.0.1")
        self.host = {"0.0.0.0": "127.0.0.1", "::": "::1"}.get(address, address)
        self.port = listen.get("port", 8000)
        pair = f"{read.get('admin-user', 'admin')}:{read.get('admin-password', '')}"
        self.headers = {"Authorization": f"Basic {base64.b64encode(pair.encode()).decode()}"}

    def ask(self, path, **arguments):
        """The status and the body of an answer. An `OSError` says that no station answers."""
        query = f"?{urllib.parse.urlencode(arguments)}" if arguments else ""
        line = http.client.HTTPConnection(self.host, self.port, timeout=5)
        try:
            line.request("GET", path + query, headers=self.headers)
            answer = line.getresponse()
            return answer.status, answer.read()
        except http.client.HTTPException as error:
            raise OSError(0, f"no answer of HTTP: {error!r}") from None
        finally:
            line.close()

    def listing(self, path, **arguments):
        """A listing in JSON. Another status than 200 is a `Failure`."""
        status, body = self.ask(path, **arguments)
        if status != 200:
            raise Failure(f"{path} was answered {status}: {body.decode('utf-8', 'replace').strip()}")
        return json.loads(body)
