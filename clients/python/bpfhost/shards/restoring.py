"""Restores a tenant's state from its last snapshot, the one before it, or only its stream, and from the calls since then."""

from __future__ import annotations

from bpfhost.shards.aside import DIFFERS, LOST, STATE, Aside
from bpfhost.shards.calls import Arrives, Call, Leaves, NoCall, item_of, size_of
from bpfhost.shards.errors import RepliesDiffer, SnapshotDamaged, StateRefused
from bpfhost.shards.log import Log, Replies, Since
from bpfhost.shards.manifest import Manifest
from bpfhost.shards.names import FAULT, START, after, order
from bpfhost.shards.serving import Serving
from bpfhost.shards.steps import in_steps, step


async def restored(serving: Serving, log: Log, accepts: bool = False) -> tuple[str, Aside | None]:
    """Restores the state of a tenant that is empty, in steps; returns a sentence to log, or an empty one, and what has to be set aside.

    With `accepts`, an operator accepts what this build makes of it: programs that it refuses are closed, and replies that differ from the
    written ones are ignored.
    """
    await log.read_marks()
    last = await log.redis.last_id(log.replies)
    try:
        return await _from_best(serving, log, last, accepts), None
    except RepliesDiffer as error:
        aside = Aside(DIFFERS, after(log.place).decode(), str(error))
    except StateRefused as error:
        aside = Aside(STATE, after(last).decode(), str(error))
    except SnapshotDamaged as error:
        aside = Aside(LOST, after(last).decode(), str(error))
    serving.empty(log.tenant)
    log.place = last
    return "", aside


async def _from_best(serving: Serving, log: Log, last: bytes, accepts: bool) -> str:
    """Restores from the last snapshot that is whole, or the whole stream; returns a sentence if a later snapshot is damaged."""
    kept = await log.redis.hget(log.keys.snapshots, f"{log.tenant}")
    manifests = await log.manifests()
    damaged = SnapshotDamaged("what a snapshot says of itself is damaged") if kept and (not manifests or kept != manifests[0].to_bytes()) else None
    for manifest in manifests:
        try:
            stream = await log.stream_of(manifest)
        except SnapshotDamaged as error:
            damaged = damaged or error
            continue
        if not await log.reaches(manifest.place.encode(), last):
            damaged = damaged or SnapshotDamaged(f"entries behind {manifest.place} were dropped that are in no snapshot")
            continue
        log.snapshot, log.before = manifest, (manifests[1] if manifest is manifests[0] and len(manifests) > 1 else None)
        await _made(serving, manifest, stream, log, accepts)
        await _played(serving, log, manifest.place.encode(), last, accepts)
        break
    else:
        if not await log.reaches(START, last):
            raise SnapshotDamaged(f"{damaged or 'there is no snapshot'}, and the stream does not reach to what came before it")
        await _played(serving, log, START, last, accepts)
    if not damaged:
        return ""
    await _mend(log)
    return f"{damaged}; the state was made of {'the snapshot before it' if log.snapshot else 'the stream'}"


async def _mend(log: Log) -> None:
    """Removes a damaged snapshot, so that it does not become the one before the next one."""
    await log.redis.call("HDEL", log.keys.snapshots, f"{log.tenant}", f"{log.tenant}:before")
    if log.snapshot:
        await log.redis.call("HSET", log.keys.snapshots, f"{log.tenant}", log.snapshot.to_bytes())


async def _made(serving: Serving, manifest: Manifest, stream: bytes, log: Log, accepts: bool) -> None:
    try:
        await in_steps(serving.make(log.tenant, stream, accepts))
    except StateRefused as error:
        raise StateRefused(f"{error}; build {manifest.build or '?'} made its snapshot at entry {manifest.place}") from None


async def _played(serving: Serving, log: Log, place: bytes, last: bytes, accepts: bool) -> None:
    """Plays the calls after a place that have replies, and compares the replies."""
    log.place, log.since = place, Since(changed=True)
    async for entries, replies in log.both(place, last):
        serving.alive()
        for entry in entries:
            item = item_of(log.tenant, entry)
            if isinstance(item, (Leaves, Arrives)):
                # One with a fault changed nothing: nobody has arrived.
                if FAULT not in replies.get(item.entry, {}):
                    await _play_control(serving, log, item)
            else:
                _play(serving, log, item, replies, accepts)
            log.since.entries += 1
            log.since.size += size_of(entry[1]) + size_of(replies.get(entry[0], {}))
            log.place = entry[0]
        await step()
    if order(log.place) < order(last):
        sentence = f"the stream of tenant {log.tenant} of shard {log.keys.number} has no entry {last.decode()}, and a reply to it"
        raise SnapshotDamaged(sentence)


async def _play_control(serving: Serving, log: Log, item: Leaves | Arrives) -> None:
    serving.empty(log.tenant)
    if isinstance(item, Arrives):
        await in_steps(serving.make(log.tenant, await log.stream_of(Manifest.read(item.manifest))))


def _play(serving: Serving, log: Log, item: Call | NoCall, replies: Replies, accepts: bool) -> None:
    """Plays a call again; raises RepliesDiffer if the reply differs."""
    was = replies.get(item.entry)
    if was is not None and FAULT in was:
        # It was skipped, or is no call.
        return
    log.since.frames += item.count if isinstance(item, Call) else 0
    ((written, _),) = serving.play([item])
    if was == {written.name: written.value} or accepts:
        return
    told_before = "none" if was is None else _shown(b"".join(was.values()))
    raise RepliesDiffer(
        f"entry {item.entry.decode()} of shard {log.keys.number} is answered {_shown(written.value)} when it is played again, and was"
        f" answered {told_before}"
    )


def _shown(value: bytes) -> str:
    return value[:60].hex() + (".." if len(value) > 60 else "")
