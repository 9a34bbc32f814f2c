"""Damages captures and reads them: each read ends with packets, or with packets and an error, within seconds.

usage: python3 -m tests.damaged_captures [--count N] [--seed N] [--runs N]   (in clients/python)

It takes captures of both formats and both byte orders, and one with all kinds of blocks, sections of both orders and several
interfaces. Each is damaged as objects are (`tests.damaging`) and read in pieces of several sizes: all reads give the same packets, with
the same times, and the same fault; so does a read from a pipe, in which nothing is read twice. `--runs` passes that many to the command
`run` too, with the program of the variable BPFHOST. A capture for which this does not hold is kept, and its name printed.
"""

from __future__ import annotations

import contextlib
import io
import os
import random
import sys
import threading
from pathlib import Path

from bpfhost import CaptureError
from bpfhost.captures import open_capture
from bpfhost.captures.piece import Stamp
from bpfhost.command import main as command
from tests.capture_bytes import NANO, RAW_IP, block, enhanced, interface, old, pcap, pcapng, section, simple
from tests.common import without_notice
from tests.damaging import Original, Trial, limit

OBJECT = Path(__file__).resolve().parents[3] / "examples/capture/counter.o"
# Lengths near those of an Ethernet header, of a word, and of the padding of a block.
_LENGTHS = (0, 1, 5, 13, 14, 15, 16, 60, 61, 62, 63, 200)
_PIECES = (1, 2, 3, 1024)
# How many first bytes of each packet are read along with its header.
_REACHES = (0, 1, 14, 62, 300)

Told = tuple[list[tuple[bytes, int, Stamp]], str]


def originals(chance: random.Random) -> list[Original]:
    """The captures that are damaged."""
    records = [(chance.randbytes(length), Stamp(length, length * 1000, 300)) for length in _LENGTHS]
    good = {
        "pcap": pcap(records),
        "pcap-of-nanoseconds": pcap(records, "<", NANO),
        "pcap-big-endian": pcap(records, ">"),
        "pcapng": pcapng(records),
        "pcapng-big-endian": pcapng(records, ">"),
        "pcapng-of-all-kinds": _all_kinds(chance) + pcapng(records, ">") + pcapng(records, "<"),
    }
    return [Original(name, content, (range(100), range(len(content)))) for name, content in good.items()]


def _all_kinds(chance: random.Random) -> bytes:
    """A section with three interfaces of two link types, and all kinds of blocks, some of them with options."""
    comment = b"\1\0\5\0hello\0\0\0\0\0\0\0"
    blocks = [section("<"), interface("<"), interface("<", RAW_IP), interface("<", options=comment)]
    for number, length in enumerate(_LENGTHS):
        packet = chance.randbytes(length)
        blocks.append(enhanced("<", packet, number, 300, of=(0, 0, 2, 1, 0, 2)[number % 6]))
        blocks.append(enhanced("<", packet + bytes(-length % 4) + comment, number, 300, kept=length))
    blocks[8:8] = [simple("<", b"simple..", 9), old("<", b"old", 5_000_000, 4)]
    blocks[16:16] = [block(5, bytes(8), "<"), block(0x0BAD, b"", "<")]
    return b"".join(blocks)


def told_of(path: Path | str, most: int, reach: int | None = None) -> Told:
    """The packets of a capture with their link types and timestamps, read in pieces of so many, and the fault after them."""
    packets: list[tuple[bytes, int, Stamp]] = []
    try:
        with open_capture(path) as capture:
            capture.reach = reach
            for piece in capture.pieces(most):
                packets += [(piece[at], piece.link_type, piece.stamp(at)) for at in range(len(piece))]
                if reach is not None:
                    assert piece.beginnings(reach).split_bodies() == [packet[:reach] for packet in piece], reach
    except CaptureError as error:
        sentence = str(error)
        assert sentence.startswith(f"{path}: ") and len(sentence.splitlines()) == 1, sentence
        return packets, sentence.removeprefix(f"{path}: ")
    return packets, ""


def told_through_pipe(content: bytes, most: int) -> Told:
    """The same for a capture that comes through a pipe."""
    read, write = os.pipe()

    def feed() -> None:
        with contextlib.suppress(BrokenPipeError), open(write, "wb", buffering=0) as file:
            file.write(content)

    feeder = threading.Thread(target=feed)
    feeder.start()
    try:
        return told_of(f"/dev/fd/{read}", most)
    finally:
        os.close(read)
        feeder.join()


def outcome_of(path: Path) -> str:
    """The outcome of reading a capture: `read` to its end, or `refused`, at once or after some packet."""
    with limit():
        told = [told_of(path, most) for most in _PIECES]
        told += [*(told_of(path, _PIECES[-1], reach) for reach in _REACHES), told_through_pipe(path.read_bytes(), _PIECES[-1])]
    assert all(each == told[0] for each in told), [(len(packets), fault) for packets, fault in told]
    return "refused" if told[0][1] else "read"


def outcome_of_run(path: Path, program: str) -> str:
    """The outcome of the command `run`, with its status. Its errors are one sentence, and one for each link type."""
    written, errors = io.StringIO(), io.StringIO()
    with limit(), contextlib.redirect_stdout(written), contextlib.redirect_stderr(errors):
        status = command(["run", "--bpfhost", program, "--json", str(OBJECT), str(path)])
    lines = without_notice(errors.getvalue().encode()).decode().splitlines()
    faults = [line for line in lines if not any(note in line for note in _NOTES)]
    assert status in (0, 1) and len(faults) == status, (status, lines)
    assert all(line.startswith("bpfhost: ") for line in lines), lines
    return f"run with status {status}"


# What a capture says about packets besides faults.
_NOTES = ("are passed to the filter as they are", "cut short in it: skb->len is", "longer than 65,536 bytes, and run")

TRIAL = Trial("capture", "", lambda chance, _: originals(chance), outcome_of, outcome_of_run)

if __name__ == "__main__":
    sys.exit(TRIAL.main("damaged_captures", "reads", "run"))
