"""The errors of lowering."""

from __future__ import annotations

from bpfhost.errors import BpfhostError


class LoweringError(BpfhostError):
    """A program that can't be written in a form that the host accepts; the text is one sentence."""


class Cycle(Exception):
    """Blocks that form a cycle, by their numbers: the graph has no topological order."""

    def __init__(self, blocks: list[int]) -> None:
        super().__init__(f"blocks {blocks} are a cycle")
        self.blocks = blocks
