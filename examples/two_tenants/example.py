#!/usr/bin/env python3
"""Two tenants in one stream, one of them hostile. usage: example.py BPFHOST"""

import random
import sys
from pathlib import Path

HERE = Path(__file__).resolve().parent
sys.dont_write_bytecode = True
sys.path.insert(0, str(HERE.parents[1] / "clients/python"))

from bpfhost import HostError, MapType, ReplyError, assemble, frames, read_replies, serve  # noqa: E402
from bpfhost.words import command_name  # noqa: E402
from attacks import HONEST, attacks  # noqa: E402

TENANTS = 2
TOTALS, NAMES, FILTER = 3, 4, 5
# How many of the honest tenant's frames open what the attacks aim at.
OPENING = 3
SEEDS = range(8)
BEFORE_LIE = 10


def honest_frames(bpfhost):
    """Two maps, a program that adds up the lengths of packets, and commands on them."""
    slots = assemble(bpfhost, (HERE / "totals.txt").read_text())
    index, keys = bytes(4), [b"one", b"two", b"six"]
    runs = [frames.prog_test_run(HONEST, FILTER, b"x" * length) for length in (3, 50, 1500)]
    return [
        frames.map_create(HONEST, MapType.ARRAY, 4, 8, 1),
        frames.map_create(HONEST, MapType.HASH, 3, 16, 4),
        frames.prog_load(HONEST, slots),
        runs[0],
        *[frames.map_update_elem(HONEST, NAMES, key, key * 5 + b".") for key in keys],
        runs[1],
        frames.map_lookup_elem(HONEST, NAMES, b"two"),
        frames.map_delete_elem(HONEST, NAMES, b"two"),
        frames.map_lookup_elem(HONEST, NAMES, b"two"),
        *[frames.map_get_next_key(HONEST, NAMES, key) for key in (b"", b"one", b"six")],
        runs[2],
        frames.map_lookup_elem(HONEST, TOTALS, index),
        frames.map_update_elem(HONEST, TOTALS, index, bytes(8)),
        *runs,
        frames.map_lookup_elem(HONEST, TOTALS, index),
        *[frames.close(HONEST, descriptor) for descriptor in (NAMES, FILTER, TOTALS, TOTALS)],
    ]


def merged(ours, theirs, ours_next):
    """Both lists in one, each in its own order; `ours_next` is called with what is left of each."""
    ours, theirs, stream = list(ours), list(theirs), []
    while ours or theirs:
        ours_now = not theirs or bool(ours) and ours_next(len(ours), len(theirs))
        stream.append((ours if ours_now else theirs).pop(0))
    return stream


def in_proportion(ours, theirs):
    """The frames that open, and then the rest of both, spread evenly."""
    share = (len(ours) - OPENING) / len(theirs)
    return ours[:OPENING] + merged(ours[OPENING:], theirs, lambda left, others: left > share * others)


def by_chance(ours, theirs, seed):
    chance = random.Random(seed)
    return merged(ours, theirs, lambda left, others: chance.random() * (left + others) < left)


def replies(bpfhost, sent):
    """The replies to these frames, one for each."""
    told = list(read_replies(serve(bpfhost, TENANTS, b"".join(sent))))
    if len(told) != len(sent):
        raise ReplyError(f"{len(sent)} frames have {len(told)} replies")
    return told


def split(all_replies):
    """The replies to the honest tenant, and all others."""
    honest = [reply for reply in all_replies if reply.tenant == HONEST]
    return honest, [reply for reply in all_replies if reply.tenant != HONEST]


def show_attacks(tried, answers):
    left = iter(answers)
    for attack in tried:
        said = [next(left) for _ in attack.frames]
        done = [reply.says() for reply in said if reply.status >= 0]
        refused = [reply.says() for reply in said if reply.status < 0]
        told = [f"{len(done)} times done" if len(done) > 1 else it for it in done[:1]]
        told += [f"{len(refused)} times {it}" if len(refused) > 1 else it for it in refused[:1]]
        print(f"  {attack.does}: {', then '.join(told)}")
        if attack.is_refused and done:
            sys.exit(f"two_tenants: an attack was not refused: {attack.does}")


def in_words(same):
    return "the same bytes" if same else "OTHER BYTES"


def show_mixed(bpfhost, ours, theirs, alone):
    """Whether each tenant gets the same replies in every mixed stream as it gets when its frames are sent without the other's."""
    mixed = {
        "the attacks first": [theirs + ours],
        "the attacks last": [ours + theirs],
        "spread evenly": [in_proportion(ours, theirs)],
        f"by chance, {len(SEEDS)} times": [by_chance(ours, theirs, seed) for seed in SEEDS],
    }
    size = sum(len(reply.to_bytes()) for reply in alone[0])
    print(f"Tenant 1's {len(ours)} frames alone have {size} bytes of replies.")
    print(f"With {len(theirs)} hostile frames between them:")
    for how, streams in mixed.items():
        told = [split(replies(bpfhost, stream)) for stream in streams]
        same = [all(one[side] == alone[side] for one in told) for side in (0, 1)]
        print(f"  {how}: {in_words(same[0])} to tenant 1, {in_words(same[1])} to the hostile frames")
        if not all(same):
            sys.exit(f"two_tenants: {how}: a tenant was told something else than alone")


def show_cut_off(bpfhost, ours, alone):
    """A frame with a false length: the frames after it are taken for its body."""
    print(f"Between {BEFORE_LIE} frames of tenant 1 and the others, a frame that says it has 4 GiB:")
    lie = b"\xff\xff\xff\xff" + bytes(4)
    try:
        serve(bpfhost, TENANTS, b"".join([*ours[:BEFORE_LIE], lie, *ours[BEFORE_LIE:]]))
    except HostError as error:
        same = list(read_replies(error.written)) == alone[:BEFORE_LIE]
        print(f"  {error}; {in_words(same)} to tenant 1 for its {BEFORE_LIE} frames, and none for the others")
        if same:
            return
    sys.exit("two_tenants: a frame that is cut off did not end the stream, or changed what came before")


def show(bpfhost):
    ours, tried = honest_frames(bpfhost), attacks(bpfhost)
    theirs = [frame for attack in tried for frame in attack.frames]
    print("Tenant 0 attacks, while tenant 1 works:")
    to_honest, to_hostile = split(replies(bpfhost, in_proportion(ours, theirs)))
    show_attacks(tried, to_hostile)
    print("Tenant 1 is told meanwhile:")
    for reply in to_honest:
        print(f"  {command_name(reply.command)}: {reply.says()}")
    alone = replies(bpfhost, ours), replies(bpfhost, theirs)
    show_mixed(bpfhost, ours, theirs, alone)
    show_cut_off(bpfhost, ours, alone[0])


def main():
    if len(sys.argv) != 2:
        sys.exit("usage: example.py BPFHOST")
    try:
        show(sys.argv[1])
    except (HostError, ReplyError) as error:
        sys.exit(f"two_tenants: {error}")


main()
