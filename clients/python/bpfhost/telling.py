"""What the commands of this package share: they parse arguments, and report an error as one sentence on standard error and a status."""

from __future__ import annotations

import argparse
import contextlib
import math
import os
import sys
from collections.abc import Callable, Mapping
from typing import NoReturn, TypeVar

from bpfhost.errors import PACKAGES, BpfhostError, HostError, MissingPackage, SourceRefused

GOOD, REFUSED, WRONG_WORDS, FAILED, INTERRUPTED = 0, 1, 2, 3, 130

Value = TypeVar("Value")
Number = TypeVar("Number", int, float)


_AS_MODULE = "python3 -m "
# The variable with which a shell asks for completions (argcomplete).
_COMPLETES = "_ARGCOMPLETE"


class Parser(argparse.ArgumentParser):
    """The arguments of a command `python3 -m NAME`, or of an installed script; a wrong one is reported in one sentence, with status 2."""

    def error(self, message: str) -> NoReturn:
        self.exit(WRONG_WORDS, f"{self.prog.removeprefix(_AS_MODULE).split()[0]}: {message}\n")


class Version(argparse.Action):
    """`--version`: writes the client's version, and which program it uses, and ends the process."""

    def __call__(self, parser: argparse.ArgumentParser, _space: object, _values: object, _option: str | None = None) -> None:
        from bpfhost.command.version import version

        print(version())
        parser.exit()


def complete(parser: argparse.ArgumentParser) -> None:
    """Completes the arguments for a shell that asks for it, by argcomplete, if it is installed (Debian: python3-argcomplete)."""
    if _COMPLETES in os.environ:
        with contextlib.suppress(ModuleNotFoundError):
            import argcomplete

            argcomplete.autocomplete(parser)


def called(script: str, module: str) -> str:
    """How this process was called: by the name of the installed script, or else as a module."""
    return script if os.path.basename(sys.argv[0]) == script else f"{_AS_MODULE}{module}"


def named(read: Callable[[str], Value], name: str) -> Callable[[str], Value]:
    """A parser of an argument, and the name of what the argument should be; a wrong one, for which the parser raises ValueError, is reported
    with it.
    """

    def value(word: str) -> Value:
        return read(word)

    value.__name__ = name
    return value


def in_range(read: Callable[[str], Number], name: str, least: Number, most: float = math.inf) -> Callable[[str], Number]:
    """The same for a number from `least` to `most`."""

    def number(word: str) -> Number:
        found = read(word)
        if not least <= found <= most:
            raise ValueError
        return found

    return named(number, name)


def add_program(parser: argparse.ArgumentParser) -> None:
    """The argument that names the program."""
    parser.add_argument("--bpfhost", metavar="PATH", help="the program; else that of the variable BPFHOST, of PATH, or of this clone")


def status_of(name: str, call: Callable[[], int], statuses: Mapping[type[Exception], int] | None = None) -> int:
    """Runs the command of a name and returns its status; an error is printed after the name.

    `statuses` has those of this command's own errors.
    """
    try:
        status = call()
        sys.stdout.flush()
        return status
    except BrokenPipeError:
        # Nobody reads any more, so nothing may be written at the end either.
        os.dup2(os.open(os.devnull, os.O_WRONLY), sys.stdout.fileno())
        return _told(name, "the reader of the output has ended", REFUSED)
    except ModuleNotFoundError as error:
        module = (error.name or "").partition(".")[0]
        if module not in PACKAGES:
            raise
        return _told(name, str(MissingPackage(module, PACKAGES[module])), FAILED)
    except (BpfhostError, ValueError) as error:
        of_kinds = {**(statuses or {}), HostError: FAILED, MissingPackage: FAILED}
        status = _told(name, str(error), next((each for kind, each in of_kinds.items() if isinstance(error, kind)), REFUSED))
        if isinstance(error, SourceRefused):
            print(error.log or "", end="", file=sys.stderr)
        return status
    except OSError as error:
        # A stream without a name is one of the standard streams.
        return _told(name, f"{error.filename or 'standard input or output'}: {error.strerror or error}", REFUSED)
    except KeyboardInterrupt:
        return _told(name, "interrupted", INTERRUPTED)


def _told(name: str, sentence: str, status: int) -> int:
    print(f"{name}: {sentence}", file=sys.stderr)
    return status
