"""The arguments of the command."""

from __future__ import annotations

import argparse
import os
import sys
from collections.abc import Callable, Mapping, Sequence
from pathlib import Path
from typing import Any

from bpfhost.shards.client import SECONDS
from bpfhost.shards.configuration import configure
from bpfhost.shards.directory import MOST_SHARD, demand_name
from bpfhost.shards.gateway.limits import GatewayLimits
from bpfhost.shards.names import PREFIX
from bpfhost.shards.settings import LEAST_REPLY_BYTES, MOST_ENTRIES, Settings
from bpfhost.telling import WRONG_WORDS, Parser, Version, add_program, called, complete, in_range, named

_ABOUT = "Serves customers by many hosts, behind Redis Streams (docs/SCALING.md)."

_shard = in_range(int, f"shard from 0 to {MOST_SHARD}", 0, MOST_SHARD)
_seconds = in_range(float, "number of seconds from 0.1 on", 0.1, 1e6)
_many = in_range(int, f"number from 1 to {MOST_ENTRIES}", 1, MOST_ENTRIES)
_bytes = in_range(int, f"number of bytes from {LEAST_REPLY_BYTES} on", LEAST_REPLY_BYTES)
_drain = in_range(float, "number of seconds from 0 on", 0.0, 1e6)
_rate = in_range(float, "number from 0.1 on", 0.1)
_name = named(demand_name, "name of 1 to 255 printable characters without spaces")
# An option: its word, what its value is called, how that is parsed, and what it does.
_Option = tuple[str, str, Callable[[str], object], str]
# The options of a worker that are fields of its settings, and those of a gateway that are fields of its limits.
OF_SETTINGS: dict[str, _Option] = {
    "lease_seconds": ("--lease", "S", _seconds, "the seconds of the lease (5)"),
    "snapshot_entries": ("--snapshot-entries", "N", _many, "calls that are played again at most (50000)"),
    "reply_seconds": ("--keep-replies", "S", _seconds, "how long replies stay that nobody has read (3600)"),
    "reply_bytes": ("--keep-bytes", "N", _bytes, "of so many bytes replies stay at most (1073741824)"),
    "reply_bytes_of_customer": ("--keep-bytes-of-customer", "N", _bytes, "the same of one customer (268435456)"),
    "drain_seconds": ("--drain", "S", _drain, "how long snapshots are taken at the end (10)"),
}
OF_LIMITS: dict[str, _Option] = {
    "connections": ("--connections", "N", _many, "connections at once (1000)"),
    "new": ("--new-connections", "N", _rate, "new connections a second (200)"),
    "seconds": ("--seconds", "S", _seconds, "how long a call waits for a worker (60)"),
}
# Subcommands for one customer, and for one shard, with what they do.
_OF_CUSTOMERS = {
    "client": "send the frames on standard input for a customer, and write their replies",
    "move": "move a customer to another shard; what was begun is ended",
    "remove": "remove a customer, with all that it has",
    "abort-move": "take a move back that was begun: the customer is on the shard where it was",
    "skip": "go on behind what is set aside of a customer: its frames are not done, or what this build makes of its state is taken",
    "retry": "try again what is set aside of a customer",
}
_OF_SHARDS = {
    "drain": "offer a shard to no customer any more, and move its customers away",
    "remove-shard": "take a shard out of the directory that has no customers and is not served",
}


def _parser() -> tuple[Parser, Mapping[str, Parser]]:
    parser = Parser(prog=called("bpfhost-shards", "bpfhost.shards"), description=_ABOUT)
    parser.add_argument("--version", action=Version, nargs=0, help="the client's version, and the program that it uses")
    words = parser.add_subparsers(metavar="WORD", required=True, parser_class=Parser, dest="word")
    _add_worker(words)
    for word, does in _OF_CUSTOMERS.items():
        one = words.add_parser(word, help=does)
        one.add_argument("name", metavar="NAME", type=_name)
        _add_seconds(one)
        if word == "move":
            one.add_argument("--to", metavar="SHARD", type=_shard, help="else the least loaded other one")
    for word, does in _OF_SHARDS.items():
        one = words.add_parser(word, help=does)
        one.add_argument("shard", metavar="SHARD", type=_shard)
        _add_seconds(one)
        if word == "drain":
            one.add_argument("--undo", action="store_true", help="offer it again")
        else:
            one.add_argument("--lost", action="store_true", help="also with its customers, whose data are lost")
    _add_gateway(words)
    words.add_parser("token", help="write a new token for a customer, and what the file of customers has of it")
    show = words.add_parser("show", help="show the shards, their workers, moves, what is set aside, and where each customer is")
    show.add_argument("--json", action="store_true", help="as one JSON object")
    for word, one in words.choices.items():
        if word == "token":
            continue
        whose = "the shard's Redis" if word == "worker" else "the directory's Redis"
        one.add_argument("--redis", metavar="URL", help=f"{whose}; else that of the variable BPFHOST_REDIS, or of this machine")
        one.add_argument("--prefix", metavar="WORD", default=PREFIX, help="with which all keys begin (bpfhost)")
        one.add_argument("--config", metavar="FILE", type=Path, help="what is not said here; else that of the variable BPFHOST_SHARDS_CONFIG")
        if word in ("worker", "gateway"):
            one.add_argument("--log", choices=("text", "json"), default="text", help="how lines on standard error are written (text)")
            one.add_argument("--metrics", metavar="ADDRESS", help="host:port where /metrics and /health are read; `host:port+` adds the shard's number")
    return parser, words.choices


def _add_worker(words: argparse._SubParsersAction[Parser]) -> None:
    parser = words.add_parser("worker", help="serve a shard until SIGTERM")
    parser.add_argument("shard", metavar="SHARD", type=_shard)
    parser.add_argument("--directory", metavar="URL", help="the directory's Redis, where it is another one")
    add_program(parser)
    library = "the library, for a host in the worker; else that of BPFHOST_LIBRARY or beside the program; or none"
    parser.add_argument("--library", metavar="PATH", help=library)
    _add_fields(parser, Settings(drain_seconds=10.0), OF_SETTINGS)
    parser.add_argument("--volatile", action="store_true", help="also on a Redis that may lose what it has answered")


def _add_gateway(words: argparse._SubParsersAction[Parser]) -> None:
    parser = words.add_parser("gateway", help="let customers in until SIGTERM; SIGHUP reads the file of customers again")
    parser.add_argument("--listen", metavar="ADDRESS", action="append", help="host:port or unix:PATH; more than once (127.0.0.1:7443)")
    parser.add_argument("--customers", metavar="FILE", type=Path, required=True, help="who the customers are")
    parser.add_argument("--certificate", metavar="FILE", type=Path, help="the gateway's certificate, for TLS")
    parser.add_argument("--key", metavar="FILE", type=Path, help="its key")
    parser.add_argument("--clients", metavar="FILE", type=Path, help="the certificate of who signs the customers' certificates")
    _add_fields(parser, GatewayLimits(), OF_LIMITS)


def _add_fields(parser: argparse.ArgumentParser, usual: Settings | GatewayLimits, options: Mapping[str, _Option]) -> None:
    """Options that are fields of settings, whose defaults they have."""
    for field, (word, metavar, kind, does) in options.items():
        parser.add_argument(word, metavar=metavar, type=kind, dest=field, default=getattr(usual, field), help=does)


def given(said: argparse.Namespace, options: Mapping[str, _Option]) -> dict[str, Any]:
    """The values of such options, by the names of their fields."""
    return {field: getattr(said, field) for field in options}


def _add_seconds(parser: argparse.ArgumentParser) -> None:
    parser.add_argument("--seconds", metavar="S", type=_seconds, default=SECONDS, help="how long to wait for a worker (30)")


def parse(words: Sequence[str] | None) -> argparse.Namespace:
    """The parsed arguments; wrong ones end the process with the status 2. A shell may complete them (`complete`)."""
    parser, of_words = _parser()
    complete(parser)
    given = list(sys.argv[1:] if words is None else words)
    if file := _config_of(given):
        try:
            configure(Path(file), of_words)
        except ValueError as error:
            parser.exit(WRONG_WORDS, f"bpfhost.shards: {error}\n")
    return parser.parse_args(given)


def _config_of(words: Sequence[str]) -> str | None:
    """The configuration file that the arguments or the variable name."""
    reader = argparse.ArgumentParser(add_help=False, allow_abbrev=False, exit_on_error=False)
    reader.add_argument("--config")
    try:
        said = reader.parse_known_args(words)[0].config
    except (argparse.ArgumentError, SystemExit):
        # Errors in the arguments are reported after all of them are read.
        return None
    return said or os.environ.get("BPFHOST_SHARDS_CONFIG") or None
