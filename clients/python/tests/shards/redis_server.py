"""A Redis server for tests: a folder, a Unix socket and no port; it replies after each change is on the disk."""

from __future__ import annotations

import importlib.util
import shutil
import subprocess
import time
from collections.abc import Mapping
from pathlib import Path

from bpfhost.shards.errors import Away
from tests.shards.blocking_redis import connect

SERVER = shutil.which("redis-server")
_SECONDS = 20


def missing() -> str | None:
    """What tests of shards lack on this machine, as a word, or None."""
    if SERVER is None:
        return "redis-server is missing"
    return next((f"python3-{name} is missing" for name in ("redis", "hiredis") if not importlib.util.find_spec(name)), None)


class RedisServer:
    """A running redis-server in a folder. It is a context manager, which kills it."""

    def __init__(self, folder: Path, fsync: str = "always", user: str = "", options: Mapping[str, str] | None = None) -> None:
        """With a user, as `name:password`, who may send PING; and with more options."""
        self.folder, self._fsync, self._options = folder, fsync, options or {}
        # The path of a Unix socket has 107 bytes at most.
        self.url = f"unix://{user}{'@' if user else ''}{folder}/s"
        self.process: subprocess.Popen[bytes] | None = None
        self.start()

    def __enter__(self) -> RedisServer:
        return self

    def __exit__(self, *_error: object) -> None:
        self.kill()

    def start(self) -> None:
        """Starts the server on the files in its folder, and waits until it replies."""
        options = {
            "port": "0",
            "unixsocket": f"{self.folder}/s",
            "dir": str(self.folder),
            "appendonly": "yes",
            "appendfsync": self._fsync,
            "save": "",
            "daemonize": "no",
            "loglevel": "warning",
            **self._options,
        }
        words = [part for name, value in options.items() for part in (f"--{name}", value)]
        log = open(self.folder / "log", "ab")
        self.process = subprocess.Popen([str(SERVER), *words], stdin=subprocess.DEVNULL, stdout=log, stderr=log)
        log.close()
        try:
            self._wait()
        except BaseException:
            self.kill()
            raise

    def _wait(self) -> None:
        redis = connect(self.url)
        until = time.monotonic() + _SECONDS
        while not (self.folder / "s").exists() and time.monotonic() < until:
            time.sleep(0.005)
        while time.monotonic() < until:
            try:
                redis.call("PING")
                redis.close()
                return
            except Away:
                time.sleep(0.01)
        raise AssertionError(f"redis-server does not answer: {(self.folder / 'log').read_text()}")

    def kill(self) -> None:
        """Ends the server by SIGKILL."""
        if self.process:
            self.process.kill()
            self.process.wait()
            self.process = None
