"""Makes calls that find a packet too short fewer.

A packet that is too short for any result except 0 ends at the first call that finds it so, and a call that can't fail has no such case.
"""

from __future__ import annotations

from bpfhost.classic.steps import CALLS, Fetch, Graph, LoadHeader, LoadPacket, Place, Return, Step

# No packet has so many bytes.
_NEVER = 2**32


def with_short_packets_ended(graph: Graph) -> Graph:
    """The same program; a packet without the headers that come to the stack ends with 0 there, if none so short has another result."""
    found, needed = graph.copy(), dict[Place, int]()
    for place in reversed(graph.order()):
        step, followers = graph.steps[place], graph.followers[place]
        behind = [needed[each] for each in followers]
        if isinstance(step, Fetch) and behind[1] >= step.headers.end:
            found.put(place, step, followers[0], found.end(place.view))
        needed[place] = _needed(step, behind)
    return found


def _needed(step: Step, followers: list[int]) -> int:
    """How many bytes a packet must have for a result other than 0, if its followers need so many."""
    match step:
        case Return(value=0):
            return _NEVER
        case Return():
            return 0
        case LoadHeader() | LoadPacket() | Fetch():
            return min(max(_end(step), followers[0]), *followers[1:], _NEVER)
    return min(followers)


def _end(step: LoadHeader | LoadPacket | Fetch) -> int:
    """The least end of the bytes that a step has loaded: X may be 0, and so may a sum that wraps."""
    match step:
        case Fetch(headers=headers):
            return headers.end
        case LoadPacket(wraps=True):
            return 0
    return step.offset + step.size


def without_known_lengths(graph: Graph) -> Graph:
    """The same program without the case that a call finds the packet too short, if a call before it has found it long enough."""
    found, known = graph.copy(), {graph.entry: 0}
    for place in graph.order():
        if place not in known:
            # Only left-out cases lead here.
            continue
        step, least = graph.steps[place], known[place]
        behind = least
        if isinstance(step, CALLS):
            is_known = _end(step) <= least and not (isinstance(step, LoadPacket) and step.is_behind_x)
            if is_known:
                found.put(place, step, graph.followers[place][0])
            behind = max(least, _end(step))
        for number, follower in enumerate(found.followers[place]):
            met = least if number and isinstance(step, CALLS) else behind
            known[follower] = min(known.get(follower, met), met)
    return found
