"""A gateway's customers: a file names them, with the hash of a token or the name in a certificate, and their limits.

    [customers.acme]
    token-sha256 = "9f86d081884c7d659a2feaa0c55ad015a3bf4f1b2b0b822cd15d6c15b0f00a08"
    certificate = "acme.example"
    connections = 8
    frames = 100000
    bytes = 67108864

The file has no secret: a token is 32 random bytes, which nobody can find from its hash.
"""

from __future__ import annotations

import hashlib
import re
import secrets
import tomllib
from collections.abc import Mapping
from dataclasses import dataclass
from pathlib import Path
from typing import Any

from bpfhost.shards.directory import demand_name
from bpfhost.shards.errors import ShardError
from bpfhost.shards.gateway.limits import Limits
from bpfhost.shards.gateway.protocol import Refusal, Why

_HASH = re.compile(r"[0-9a-f]{64}")
_LONGEST_TOKEN = 1000
_NUMBERS = ("connections", "frames", "bytes")


@dataclass(frozen=True)
class Known:
    """A customer that a gateway knows, with the hash of a token or the name in a certificate by which it is known."""

    name: str
    limits: Limits = Limits()
    by: str = ""


def new_token() -> str:
    """A new random token."""
    return secrets.token_urlsafe(32)


def hash_of(token: str) -> str:
    """The hash of a token for the file of customers."""
    return hashlib.sha256(token.encode()).hexdigest()


class Customers:
    """The customers of a file."""

    def __init__(self, file: Path) -> None:
        """Reads the file; raises ShardError if it has something else than such a file."""
        try:
            said = tomllib.loads(file.read_text())
        except (ValueError, OSError) as error:
            raise ShardError(f"{file}, the file of customers: {error}") from None
        self._by_token: dict[str, Known] = {}
        self._by_certificate: dict[str, Known] = {}
        customers = said.pop("customers", {})
        if said or not isinstance(customers, dict):
            raise ShardError(f"{file}: a file of customers has tables [customers.NAME], and not {', '.join(said) or 'customers alone'}")
        for name, what in customers.items():
            try:
                self._add(demand_name(name), what)
            except ValueError as error:
                raise ShardError(f"{file}: {error}") from None

    def _add(self, name: str, what: object) -> None:
        if not isinstance(what, dict):
            raise ValueError(f"customer {name} is no table")
        limits = _limits(name, what)
        hashes, certificate = what.get("token-sha256", []), what.get("certificate")
        given: list[object] = hashes if isinstance(hashes, list) else [hashes]
        for one in given:
            if not isinstance(one, str) or not _HASH.fullmatch(one):
                raise ValueError(f"token-sha256 of customer {name} is 64 digits of 0 to f, or a list of such")
            _put(self._by_token, one, Known(name, limits, one))
        if certificate is not None:
            if not isinstance(certificate, str) or not certificate:
                raise ValueError(f"certificate of customer {name} is a name")
            _put(self._by_certificate, certificate, Known(name, limits, certificate))
        if not hashes and certificate is None:
            raise ValueError(f"customer {name} has neither token-sha256 nor certificate")

    def __len__(self) -> int:
        return len({known.name for known in (*self._by_token.values(), *self._by_certificate.values())})

    def again(self, known: Known) -> Known | None:
        """A customer that was known by an earlier file, as this file has it; None if it is not known by the same token or certificate."""
        found = self._by_token.get(known.by) or self._by_certificate.get(known.by)
        return found if found and found.name == known.name else None

    def of(self, token: str | None, certificate: Mapping[str, Any] | None) -> Known:
        """The customer with this token, or with this certificate, which was verified; raises Refusal if there is none."""
        if token is not None:
            known = self._by_token.get(hash_of(token)) if len(token) <= _LONGEST_TOKEN else None
            if known is None:
                raise Refusal(Why.WHO, "no customer has this token")
            return known
        if not certificate:
            raise Refusal(Why.WHO, "a customer says a token, or has a certificate")
        for name in _names(certificate):
            if name in self._by_certificate:
                return self._by_certificate[name]
        raise Refusal(Why.WHO, "no customer has this certificate")


def _limits(name: str, what: Mapping[str, object]) -> Limits:
    unknown = set(what) - {"token-sha256", "certificate", *_NUMBERS}
    if unknown:
        raise ValueError(f"customer {name} has {sorted(unknown)[0]}, which is not known")
    numbers = {key: what[key] for key in _NUMBERS if key in what}
    for key, value in numbers.items():
        if isinstance(value, bool) or not isinstance(value, (int, float)) or value <= 0 or key == "connections" and value != int(value):
            raise ValueError(f"{key} of customer {name} is a number above 0, and not {value}")
    return Limits(**numbers)  # type: ignore[arg-type]


def _put(of: dict[str, Known], key: str, known: Known) -> None:
    if key in of:
        raise ValueError(f"customers {of[key].name} and {known.name} have the same token or certificate")
    of[key] = known


def _names(certificate: Mapping[str, Any]) -> list[str]:
    """The names in a certificate: the common name, and the alternative names."""
    found = [value for part in certificate.get("subject", ()) for key, value in part if key == "commonName"]
    return found + [value for kind, value in certificate.get("subjectAltName", ()) if kind in ("DNS", "URI", "email")]
