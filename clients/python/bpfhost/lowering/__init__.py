"""Writes a program in a form that the host accepts, if the form that the compiler wrote is rejected.

The verifier's rules are a written definition, and do not change (docs/VERIFIER.md). A loader may write the same program in another form, as
a linker does. These are the steps; each is done only if it is needed:

1. Calls of functions of the object are inlined (`inlining`, `frames`); instructions that the host does not have become sequences
   (`sequences`).
2. Loops whose count is bounded are unrolled (`loops`).
3. Blocks are put in topological order, so that all jumps go forward; unreachable code is removed (`graph`).
4. By the reason of the rejection, scratch words of the context become words of the stack (`scratch`), and what says more to the verifier is
   added: trees of comparisons of an index into the stack (`indexing`), moves after comparisons (`equal`), comparisons with numbers that are
   known (`known`), zeros at the start (`zeroing`).
5. Blocks with several incoming edges are copied for each edge, if facts are lost where the edges meet (`copies`).

`checker` checks the result independently of the steps: each path of it is a path of the program, with the same instructions or sequences.
"""

from bpfhost.lowering.checker import WrongForm
from bpfhost.lowering.errors import LoweringError
from bpfhost.lowering.lower import Ask, Lowered, as_is, lower

__all__ = ["Ask", "Lowered", "LoweringError", "WrongForm", "as_is", "lower"]
