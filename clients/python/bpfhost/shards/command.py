"""The command `python3 -m bpfhost.shards`: a worker of a shard, a gateway, calls of a customer, moves, and operators' commands.

Its exit status is 0 on success; 1 if an input is refused, a customer can't be moved, a call is set aside or a stream can't be written; 2
if the arguments are wrong; 3 if the host or Redis fails, a reply does not come, or a package is missing; 4 if another worker has the
lease on the shard; 5 if the shard is not the one that the directory knows, which an operator has to look at. Each error is one sentence
on standard error.
"""

from __future__ import annotations

import asyncio
import json
import signal
import sys
from argparse import Namespace
from collections.abc import Callable, Sequence
from contextlib import AbstractContextManager, closing, nullcontext
from dataclasses import asdict
from typing import TextIO, cast

from bpfhost.program import find_program
from bpfhost.shards import moving, operating
from bpfhost.shards.arguments import OF_LIMITS, OF_SETTINGS, given, parse
from bpfhost.shards.client import AsyncClient
from bpfhost.shards.connection import Redis
from bpfhost.shards.directory import Seat
from bpfhost.shards.errors import LeaseHeld, LeaseLost, MemoryRefused, NoReply, OtherShard, RedisError, SetAside, ShardError
from bpfhost.shards.gateway.customers import hash_of, new_token
from bpfhost.shards.gateway.limits import GatewayLimits
from bpfhost.shards.gateway.server import Gateway, Tls
from bpfhost.shards.library import find_library
from bpfhost.shards.logs import JsonLines
from bpfhost.shards.loop import RoundsLoop
from bpfhost.shards.metrics import Page
from bpfhost.shards.names import ShardKeys
from bpfhost.shards.settings import Settings
from bpfhost.shards.system import Work
from bpfhost.shards.worker import Worker
from bpfhost.state import split
from bpfhost.stopping import Stopping
from bpfhost.telling import FAILED, GOOD, REFUSED, status_of

NO_LEASE, OTHER = 4, 5
_STATUSES: dict[type[Exception], int] = {
    LeaseHeld: NO_LEASE,
    LeaseLost: NO_LEASE,
    OtherShard: OTHER,
    RedisError: FAILED,
    MemoryRefused: FAILED,
    SetAside: REFUSED,
    NoReply: FAILED,
}


def main(words: Sequence[str] | None = None) -> int:
    """Runs the command with these arguments, or those of the process, and returns its exit status."""
    said = parse(words)

    def run() -> int:
        _ALONE.get(said.word, run_with_client)(said)
        return GOOD

    return status_of("bpfhost.shards", run, _STATUSES)


def run_with_client(said: Namespace) -> None:
    """Does what a subcommand does with a client of the directory."""

    async def run() -> None:
        async with AsyncClient(said.redis, said.prefix) as client:
            await _RUNS[said.word](client, said)

    asyncio.run(run())


def run_worker(said: Namespace) -> None:
    """Serves a shard until SIGTERM or SIGINT; the shard is in the directory from then on."""
    # A second signal ends the worker without the wait for snapshots.
    with Stopping() as stopping:
        settings = Settings(demand_durable=not said.volatile, **given(said, OF_SETTINGS))
        _log(said, shard=said.shard)
        keys, program, directory = ShardKeys(said.shard, said.prefix), find_program(said.bpfhost), Redis(said.directory) if said.directory else None
        worker = Worker(Redis(said.redis), keys, program, settings, _say, directory, find_library(said.library, program))
        with _page(said, worker):
            worker.run(lambda: stopping.signal is not None)


def _page(said: Namespace, worker: Worker) -> AbstractContextManager[object]:
    """The metrics of a worker. If nothing can listen at their address, it serves all the same."""
    if not said.metrics:
        return nullcontext()
    try:
        return closing(Page(metrics_of(said.metrics, said.shard), worker.metrics.text, worker.health))
    except ShardError as error:
        _say(f"shard {said.shard}: {error}; it is served without")
        return nullcontext()


def metrics_of(address: str, shard: int) -> str:
    """The address of a shard's metrics: one file of configuration may have an address for all workers of a machine."""
    host, _, port = address.removesuffix("+").rpartition(":")
    return f"{host}:{int(port) + shard}" if address.endswith("+") and port.isdecimal() else address


def run_gateway(said: Namespace) -> None:
    """Accepts customers until SIGTERM or SIGINT."""
    _log(said)
    with asyncio.Runner(loop_factory=RoundsLoop) as runner:
        runner.run(_serve(said))


async def _serve(said: Namespace) -> None:
    """Runs a gateway; SIGHUP reads the file of customers again. A TCP address that other machines reach needs TLS.

    Raises ShardError if a file of TLS is missing.
    """
    if bool(said.certificate) != bool(said.key) or said.clients and not said.certificate:
        raise ShardError("TLS needs both --certificate and --key")
    tls = Tls(said.certificate, said.key, said.clients) if said.certificate else None
    gateway = Gateway(said.redis, said.customers, GatewayLimits(**given(said, OF_LIMITS)), said.prefix, _say)
    page: Page | None = None
    ended, loop = asyncio.Event(), asyncio.get_running_loop()
    for number in (signal.SIGTERM, signal.SIGINT):
        loop.add_signal_handler(number, ended.set)
    loop.add_signal_handler(signal.SIGHUP, gateway.reload)
    looking = asyncio.create_task(gateway.look())
    try:
        if said.metrics:
            page = Page(said.metrics, gateway.told.text, gateway.health)
            _say(f"metrics are read at {page.address}")
        for address in said.listen or ["127.0.0.1:7443"]:
            is_local = address.startswith(("unix:", "127.", "localhost:", "[::1]:"))
            if not tls and not is_local:
                raise ShardError(f"at {address} others could read tokens: TLS needs --certificate and --key")
            own = None if address.startswith("unix:") else tls
            _say(f"the gateway serves {len(gateway.customers)} customers at {await gateway.listen(address, own)}{', by TLS' if own else ''}")
        await ended.wait()
    finally:
        await gateway.end()
        looking.cancel()
        if page:
            page.close()


def run_token(_said: Namespace) -> None:
    """Prints a new token, and its hash."""
    token = new_token()
    print(f"{token}\ntoken-sha256 = \"{hash_of(token)}\"")


def _log(said: Namespace, **of_all: object) -> None:
    """From now on writes lines on standard error as JSON, if the arguments ask for it."""
    if said.log == "json":
        sys.stderr = cast(TextIO, JsonLines(sys.stderr, word=said.word, **of_all))


def _say(sentence: str) -> None:
    print(sentence, file=sys.stderr, flush=True)


async def run_client(client: AsyncClient, said: Namespace) -> None:
    """Sends the frames of standard input, and writes their replies, as `bpfhost serve` does for one tenant."""
    frames = split(sys.stdin.buffer.read())
    async for reply in client.customer(said.name, said.seconds).ask_bytes(frames):
        sys.stdout.buffer.write(reply)


async def run_move(said: Namespace, moved: Work[Seat]) -> None:
    """Moves a customer, or takes a move back, and prints its new seat."""
    print(operating.place(said.name, await moved))


async def run_word(client: AsyncClient, said: Namespace) -> None:
    """Decides on what is set aside of a customer."""
    print(f"{said.name}: {await operating.say(client, said.name, said.word, said.seconds)}")


async def run_drain(client: AsyncClient, said: Namespace) -> None:
    """Empties a shard, or offers it again."""
    if said.undo:
        await client.directory.drain(said.shard, False)
        return
    async for name, seat in operating.drain(client, said.shard, said.seconds):
        print(operating.place(name, seat))


async def run_show(client: AsyncClient, said: Namespace) -> None:
    """Prints the state of the shards, moves and customers."""
    seen = await operating.look(client)
    if said.json:
        print(json.dumps(asdict(seen)))
        return
    for line in operating.lines(seen):
        print(line)


_ALONE: dict[str, Callable[[Namespace], None]] = {"worker": run_worker, "gateway": run_gateway, "token": run_token}
_RUNS: dict[str, Callable[[AsyncClient, Namespace], Work[None]]] = {
    "client": run_client,
    "move": lambda client, said: run_move(said, moving.move(client, said.name, said.to, said.seconds)),
    "remove": lambda client, said: moving.remove(client, said.name, said.seconds),
    "abort-move": lambda client, said: run_move(said, moving.abort_move(client, said.name, said.seconds)),
    "skip": run_word,
    "retry": run_word,
    "drain": run_drain,
    "remove-shard": lambda client, said: operating.remove_shard(client, said.shard, said.lost),
    "show": run_show,
}
