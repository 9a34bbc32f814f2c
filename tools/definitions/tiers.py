"""What the theorems rest on, in tiers: each tier is what a reader needs for one more claim.

A tier ends at its stops: definitions whose names it cites and whose meaning it does not need. So the cut between two tiers is a list of
names, which a later tier defines.
"""

from __future__ import annotations

from dataclasses import dataclass

from definitions.sources import Name, Place, closure, file_of


def name(place: str, word: str) -> Name:
    return Name(Place(*place.split("/", 1)), word)


LAWS, SERVED, HOST = "host_core/specs/Laws.antt", "host_core/specs/Served.antt", "host_core/src/host.rt"
MACHINE, STATE, REPLIES = "tenant/specs/Machine.antt", "tenant/specs/State.antt", "tenant/specs/Alone.antt"
VERDICT, OF_LAWS = "verifier/specs/Verdict.antt", "host_core/src/laws.rt"
# The first theorem: two statements on hosts and lists of frames, each the contract of a function in src/laws.rt.
THEOREM = [name(LAWS, "SameFramesSameReplies"), name(LAWS, "EachIsServedAloneUntilRefused")]
# The same by replies: what a tenant gets on each stretch of frames on which none of its replies has the status -12.
STRETCHES = [name(LAWS, "EachStretchIsServedAlone")]
# The second one: `serve`, what a host begins with, and what the program passes to `serve`.
STREAMS = [name("host_core/src/server.rt", "serve"), name(HOST, "new"), name("host_core/src/stream.rt", "Counted")]
# Definitions that get only a tenant's own frames, replies and states: what its machine replies to a frame, and to a list of them.
OF_THE_MACHINE = frozenset({*(name(REPLIES, word) for word in ("RepliesUnder", "IsServedAlone", "IsFault")), name(STATE, "TenantState")})
# The verdict on a program.
OF_THE_VERDICT = frozenset({name(VERDICT, "IsAccepted"), name(VERDICT, "IsRefused")})
# The definitions between the contract of `serve` and the reply to a command.
TO_AN_ANSWER = frozenset({
    name("host_core/src/server.rt", "serve"),
    name(SERVED, "ServesAlone"),
    *(name(REPLIES, word) for word in ("RepliesUnder", "IsFrameResult")),
    name(MACHINE, "Answers"),
})
# The tiers: title, what the tier is about besides what those before it are about, and its stops.
TIERS: tuple[tuple[str, list[Name], frozenset[Name]], ...] = (
    ("For noninterference", THEOREM, OF_THE_MACHINE),
    ("For stretches", STRETCHES, OF_THE_MACHINE | {name(REPLIES, "IsRefusedMemory")}),
    ("For streams", STREAMS, OF_THE_MACHINE | {name(REPLIES, "IsRefusedMemory"), name(STATE, "new_tenant")}),
    ("For what is replied", [], OF_THE_VERDICT),
    ("For which programs are accepted", [], frozenset[Name]()),
    ("For the library", [name(OF_LAWS, "calls_are_served_alone")], frozenset[Name]()),
    ("For batches", [name(HOST, "run_packets"), name(OF_LAWS, "batch_is_its_calls")], frozenset[Name]()),
    ("For saves", [name(HOST, "save"), name(HOST, "tenants_are_restored"), name(OF_LAWS, "tenants_are_restored")], frozenset[Name]()),
    ("For installed programs", [name("host_core/src/installing.rt", "install")], frozenset[Name]()),
)
# The crates whose definitions, with some exceptions, say which programs are accepted.
VERIFIER = ("verifier", "transfer", "reg_kinds", "interval")


@dataclass(frozen=True)
class Tier:
    """`title` is its heading on the page; `stops` are the names that it cites of later tiers."""

    title: str
    names: frozenset[Name]
    stops: frozenset[Name]

    @property
    def files(self) -> list[Place]:
        return sorted({name.place for name in self.names})

    @property
    def lines(self) -> int:
        return lines_of(self.names)


def lines_of(names: frozenset[Name]) -> int:
    """Lines of the sources, without blank lines and comments."""
    return sum(file_of(name.place).counts[name.word] for name in names)


def tiers() -> list[Tier]:
    found, roots, above = [], list[Name](), frozenset[Name]()
    for title, more, stops in TIERS:
        roots = [*roots, *more]
        below = frozenset(closure(roots, stops))
        found.append(Tier(title, below - above, stops))
        above |= below
    return found


def roots() -> list[Name]:
    return [root for _, more, _ in TIERS for root in more]


def idle_stops(found: list[Tier]) -> list[str]:
    """Stops that cut nothing: no definition of the tier, or of one above it, cites them."""
    wrong = []
    above: set[Name] = set()
    for tier in found:
        above |= tier.names
        cited = {cited for each in above for cited in file_of(each.place).cited(each.word)}
        wrong += [f"{stop} is a stop of \"{tier.title}\", and nothing there cites it" for stop in sorted(tier.stops - cited)]
    return wrong


def of_verifier(tier: Tier) -> dict[str, list[str]]:
    """The definitions of a tier that the crates of the verifier have, by the crate."""
    return {crate: words for crate in VERIFIER
            if (words := sorted({each.word for each in tier.names if each.place.crate == crate}, key=str.lower))}


def read_for_no_fault() -> frozenset[Name]:
    """What a reader needs for "no test run faults": how a run's reply is computed, what a program is run on, and what a fault is; and the
    definitions between the contract of `serve` and the reply to a command.
    """
    begin = [name(MACHINE, "run_of"), name(MACHINE, "loaded_program"), name(SERVED, "NoneFaults")]
    return frozenset(closure(begin, OF_THE_VERDICT)) | TO_AN_ANSWER


def of_kit() -> dict[str, set[str]]:
    """The definitions of the kit that the tiers cite, by the kit's files."""
    found: dict[str, set[str]] = {}
    for each in closure(roots()):
        for file, word in file_of(each.place).cited_of_kit(each.word):
            found.setdefault(file, set()).add(word)
    return found


def in_order(names: frozenset[Name]) -> list[Place]:
    """The files of these names, each before those that it cites."""
    done: list[Place] = []
    seen: set[Place] = set()

    def visit(place: Place) -> None:
        if place in seen:
            return
        seen.add(place)
        cited = {other.place for each in names if each.place == place for other in file_of(place).cited(each.word) if other in names}
        for other in sorted(cited, reverse=True):
            visit(other)
        done.append(place)

    for place in [root.place for root in reversed(roots())] + sorted({each.place for each in names}):
        visit(place)
    return [place for place in reversed(done) if any(each.place == place for each in names)]
