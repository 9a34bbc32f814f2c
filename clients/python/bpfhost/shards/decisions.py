"""Operators' decisions on what is set aside, which a worker applies."""

from __future__ import annotations

from bpfhost.shards.agenda import Agenda
from bpfhost.shards.aside import ENTRY, LOST, RETRY, SKIP, Aside
from bpfhost.shards.calls import size_of
from bpfhost.shards.log import Log
from bpfhost.shards.names import FAULT, weight
from bpfhost.shards.patience import Patience
from bpfhost.shards.serving import Serving, Written
from bpfhost.shards.states import States
from bpfhost.shards.suspects import Suspects
from bpfhost.shards.tenants import Tenants
from bpfhost.shards.writing import Writing

SECONDS_TO_LOOK = 1.0


class Decisions:
    """The decisions for one shard."""

    def __init__(
        self, serving: Serving, tenants: Tenants, agenda: Agenda, writing: Writing, states: States, suspects: Suspects, patience: Patience
    ) -> None:
        self._serving, self._tenants, self._agenda, self._writing = serving, tenants, agenda, writing
        self._states, self._suspects, self._patience = states, suspects, patience
        self._redis, self._keys = writing.redis, writing.keys
        self._looked = -SECONDS_TO_LOOK

    async def look(self) -> None:
        """Applies the decisions on tenants that are set aside, now and then."""
        now = self._redis.system.now()
        if now < self._looked + SECONDS_TO_LOOK:
            return
        self._looked = now
        aside = [log for log in self._tenants.logs if log.aside and log.tenant not in self._agenda.busy]
        if not aside:
            return
        said = await self._redis.hgetall(self._keys.words)
        for log in aside:
            word, _, entry = said.get(b"%d" % log.tenant, b"").decode().partition(" ")
            if log.aside and word and entry == log.aside.entry:
                await self._agenda.begin(log.tenant, self._decide(log, log.aside, word))

    async def _decide(self, log: Log, aside: Aside, word: str) -> None:
        """Applies a decision on a tenant that is set aside."""
        self._suspects.given_up.pop(log.tenant, None)
        if aside.kind == ENTRY:
            await self._decide_entry(log, aside, word)
        elif word == RETRY or aside.kind != LOST:
            log.aside = None
            self._serving.empty(log.tenant)
            await self._states.make(log, word)
        await self._writing.note(self._keys.words, log.tenant, b"")
        self._patience.tell(f"shard {self._keys.number}, tenant {log.tenant}: an operator said {word}")

    async def _decide_entry(self, log: Log, aside: Aside, word: str) -> None:
        """Skips an entry that is set aside, or lets it be tried again."""
        entry = aside.entry.encode()
        if word == SKIP:
            sentence = f"entry {aside.entry} was skipped by an operator: its frames were not done, and won't be"
            size = sum(size_of(fields) for _, fields in await self._redis.xrange(log.frames, entry, entry, 1))
            await self._writing.write([Written(log.tenant, entry, FAULT, sentence.encode(), weight(size))])
            log.place = entry
        else:
            self._suspects.careful[log.tenant] = entry
        await self._tenants.forget_aside(log.tenant)
        log.aside = None
