"""Gateways for tests, each on its own event loop in a thread, and connections that send bytes to them."""

from __future__ import annotations

import asyncio
import importlib.util
import socket
import ssl
import threading
from collections.abc import Sequence
from pathlib import Path
from typing import Any

from bpfhost.shards.gateway.customers import hash_of
from bpfhost.shards.gateway.limits import GatewayLimits
from bpfhost.shards.gateway.protocol import GATEWAY, Why, Word, hello, read_told
from bpfhost.shards.gateway.server import Gateway
from bpfhost.state import split

# Why nothing is counted, or None.
UNCOUNTED = None if importlib.util.find_spec("prometheus_client") else "python3-prometheus-client is missing"


def customers_file(folder: Path, text: str = "", **tokens: str) -> Path:
    """A file of customers with tokens, and more text."""
    file = folder / "customers.toml"
    file.write_text("".join(f'[customers.{name}]\ntoken-sha256 = "{hash_of(token)}"\n' for name, token in tokens.items()) + text)
    return file


class GatewayThread:
    """A gateway in a thread."""

    def __init__(self, url: str, customers: Path, limits: GatewayLimits, addresses: Sequence[tuple[str, Any]]) -> None:
        """Listens at addresses, each with the files of TLS or None."""
        self.told: list[str] = []
        self.addresses: list[str] = []
        self._loop, begun = asyncio.new_event_loop(), threading.Event()

        async def begin() -> None:
            self.gateway = Gateway(url, customers, limits, tell=self.told.append)
            self.addresses = [await self.gateway.listen(address, tls) for address, tls in addresses]
            begun.set()

        def run() -> None:
            asyncio.set_event_loop(self._loop)
            self._loop.run_until_complete(begin())
            self._loop.run_forever()
            self._loop.close()

        self._thread = threading.Thread(target=run, daemon=True)
        self._thread.start()
        assert begun.wait(30)

    def call(self, function: Any) -> None:
        """Calls a function of the gateway in its thread."""
        done = threading.Event()

        def run() -> None:
            function()
            done.set()

        self._loop.call_soon_threadsafe(run)
        assert done.wait(30)

    def stop(self) -> None:
        """Ends the gateway."""
        if self._thread.is_alive():
            asyncio.run_coroutine_threadsafe(self.gateway.end(), self._loop).result(60)
            self._loop.call_soon_threadsafe(self._loop.stop)
            self._thread.join(30)


class Raw:
    """A connection to a gateway that sends any bytes it is given."""

    def __init__(self, address: str, tls: ssl.SSLContext | None = None) -> None:
        if address.startswith("unix:"):
            self._socket = socket.socket(socket.AF_UNIX)
            self._socket.settimeout(30)
            self._socket.connect(address[5:])
        else:
            host, _, port = address.rpartition(":")
            self._socket = socket.create_connection((host, int(port)), 30)
            if tls:
                self._socket = tls.wrap_socket(self._socket, server_hostname=host)
        self._came = bytearray()

    def __enter__(self) -> Raw:
        return self

    def __exit__(self, *_error: object) -> None:
        self._socket.close()

    def say(self, data: bytes) -> Raw:
        """Sends bytes."""
        self._socket.sendall(data)
        return self

    def greet(self, token: str, session: str | None = None, answered: int = 0) -> dict[str, Any]:
        """Sends the first frame, and returns the gateway's reply."""
        self.say(hello(token, session, answered))
        return self.told()[2]

    def ends(self) -> None:
        """Ends the sent data."""
        self._socket.shutdown(socket.SHUT_WR)

    def frame(self) -> bytes:
        """The next frame; raises ConnectionError at the end."""
        while len(self._came) < 4 or len(self._came) < 4 + int.from_bytes(self._came[:4], "little"):
            data = self._socket.recv(1 << 16)
            if not data:
                raise ConnectionResetError
            self._came += data
        size = 4 + int.from_bytes(self._came[:4], "little")
        found = bytes(self._came[:size])
        del self._came[:size]
        return found

    def told(self) -> tuple[Word, Why | None, dict[str, Any]]:
        """The next frame of the gateway itself."""
        found = self.frame()
        assert int.from_bytes(found[4:6], "little") == GATEWAY, found
        word, why, said = read_told(found)
        return word, why, dict(said)

    def rest(self) -> list[bytes]:
        """All frames until the end."""
        while data := self._socket.recv(1 << 16):
            self._came += data
        return split(bytes(self._came))
