"""The arguments of the command."""

from __future__ import annotations

import argparse
import importlib
import sys
from collections.abc import Callable, Sequence
from functools import cache
from typing import TYPE_CHECKING, TypeAlias

from bpfhost.command.subjects import CLASSIC, EXPRESSION, EXPRESSION_FILE, Source, settled
from bpfhost.command.words import link_type, seconds, setting
from bpfhost.numbers import MOST_TENANTS
from bpfhost.packets import ETHERNET
from bpfhost.telling import Parser, Version, add_program, called, complete, in_range, named

if TYPE_CHECKING:
    _Words: TypeAlias = "argparse._SubParsersAction[_Intermixed]"

_ABOUT = """\
Runs filters on captures, by a bpfhost: expressions as for tcpdump, and programs that clang compiled. Checks them; reads and writes programs
and frames as text.

examples:
  %(prog)s run --filter 'tcp port 443' capture.pcap
  %(prog)s run filter.o capture.pcap
  %(prog)s check --filter 'tcp port 443'"""

_seconds = named(seconds, "time, as 1s or 500ms")
_setting = named(setting, "NAME=VALUE")
_link_type = named(link_type, "link type")
# Words of the context that a run leaves 0: a capture has nothing that their names could mean.
_TIMED = ("mark", "priority", "queue_mapping")
_number = in_range(int, "number of at least 0", 0)
_count = in_range(int, "number of at least 1", 1)
_tenants = in_range(int, f"number from 1 to {MOST_TENANTS}", 1, MOST_TENANTS)
_hex = named(bytes.fromhex, "bytes in hexadecimal digits")


class _Intermixed(Parser):
    """The arguments of a word, which are added when the word is used; files may be between the options."""

    add: Callable[[Parser], None] | None = None
    _is_inside = False

    def parse_known_args(self, args=None, namespace=None):  # type: ignore[no-untyped-def]
        if self._is_inside:
            return super().parse_known_args(args, namespace)
        add, self.add, self._is_inside = self.add, None, True
        if add is not None:
            add(self)
        try:
            return self.parse_known_intermixed_args(args, namespace)
        finally:
            self._is_inside = False


@cache
def _parser(prog: str) -> Parser:
    """The parser of a process that is called like this, which may run the command several times."""
    parser = Parser(prog=prog, description=_ABOUT, formatter_class=argparse.RawDescriptionHelpFormatter)
    version = "print the version, which program is used, and whether it is proved"
    parser.add_argument("--version", action=Version, nargs=0, help=version)
    words = parser.add_subparsers(metavar="WORD", required=True, parser_class=_Intermixed)
    _add_words(words)
    return parser


def _add_words(words: _Words) -> None:
    run = "run filters on every packet of a capture, or of an interface"
    _subject_word(words, "run", _add_run, ("run.run_object", "run.run_filters"), run, "--filter 'tcp port 443' capture.pcap")
    check = "verify each program of an object, or filters, and show the verifier's log if there is one"
    _subject_word(words, "check", _add_check, ("check.run", "filters.check"), check, "--filter 'tcp port 443'")
    build = "write a program of an object with its maps, or a filter, as a file that is loaded without Python"
    _subject_word(words, "build", _add_build, ("build.run", "filters.build"), build, "--filter 'tcp port 443' -o https.json")
    report = "write a page of HTML on a program or a filter: its verdict, its lines and blocks, and what a capture gives"
    _subject_word(words, "report", _add_report, ("report.run_object", "report.run_filter"), report, "filter.o capture.pcap -o filter.html")
    _word(words, "asm", _add_asm, "texts.asm", "write the slots of a program's text as hex lines")
    dis = "write the text of hex lines, of an object's programs with their source, or of filters"
    _subject_word(words, "dis", _add_dis, ("texts.dis", "filters.dis"), dis, "--filter 'tcp port 443'")
    _word(words, "replies", _add_nothing, "frames.show_replies", "show the replies on standard input as text")
    _word(words, "load", _add_tenant, "frames.write_load", "write a frame that loads the hex lines on standard input")
    _word(words, "test-run", _add_test_run, "frames.write_test_run", "write a frame that runs a program on a packet")


def _called(place: str) -> Callable[[argparse.Namespace], int]:
    """The function at a place in this folder, as `run.run`. Its module is imported when it is called: each word imports what it needs."""
    module, _, name = place.partition(".")

    def call(said: argparse.Namespace) -> int:
        return int(getattr(importlib.import_module(f"bpfhost.command.{module}"), name)(said))

    return call


def _word(words: _Words, name: str, add: Callable[[Parser], None], place: str, does: str, example: str | None = None) -> Parser:
    """A subcommand: what adds its arguments, the function that it calls, and a description, which begins with an example."""
    described = f"%(prog)s {example}\n\n{does}" if example else None
    parser = words.add_parser(name, help=does, description=described, formatter_class=argparse.RawDescriptionHelpFormatter)
    parser.add = add
    parser.set_defaults(run=_called(place), wrong=parser.error)
    return parser


def _subject_word(
    words: _Words, name: str, add: Callable[[Parser], None], places: tuple[str, str], does: str, example: str
) -> None:
    """A subcommand for an object, or for filters as tcpdump has them."""
    parser = _word(words, name, add, places[0], does, example)
    calls = [_called(place) for place in places]
    parser.set_defaults(run=lambda said: calls[bool(said.filters)](said), is_subject=True)


def _add_run(parser: Parser) -> None:
    _add_object(parser)
    parser.add_argument("capture", metavar="CAPTURE", nargs="?", help="a capture, pcap or pcapng, also compressed by gzip; - is standard input")
    _add_filters(parser, is_run=True)
    interface = "the packets of a network interface, or of any, in place of a capture (needs root)"
    parser.add_argument("--interface", metavar="IF", help=interface)
    parser.add_argument("--tenants", metavar="N", type=_tenants, default=1, help="how many tenants run a filter, each on every packet")
    parser.add_argument("--limit", metavar="N", type=_number, help="the most packets to run")
    written = parser.add_mutually_exclusive_group()
    written.add_argument("--json", action="store_true", help="write JSON in place of tables")
    written.add_argument("--csv", metavar="MAP", nargs="?", const="", help="write the entries of a map, or the table of filters, as CSV")
    parser.add_argument("--every", metavar="TIME", type=_seconds, help="show the tables again after each interval, as 1s")
    parser.add_argument(
        "--accepted", metavar="FILE", help="write the packets that are kept, as tcpdump -w does; *.pcapng is pcapng, - standard output"
    )
    _add_of_object_runs(parser)
    add_program(parser)


def _add_of_object_runs(parser: Parser) -> None:
    """The arguments of runs that are only for objects."""
    of_objects = parser.add_argument_group("for OBJECT")
    _add_section(of_objects)
    top = "show only so many entries of each map, those with the greatest numbers"
    of_objects.add_argument("--top", metavar="N", type=_number, help=top)
    of_objects.add_argument("--by", metavar="FIELD", help="the field with these numbers, as bytes or flow.port; else the first one of a value")
    of_objects.add_argument("--set", metavar="NAME=VALUE", type=_setting, action="append", default=[], help="give a global variable a value")
    timed = f"milliseconds since the first packet, in a word of the context: {', '.join(_TIMED)}"
    of_objects.add_argument("--time", metavar="WORD", choices=_TIMED, help=timed)
    short = "packets that are cut short in the capture: with zeros up to their length on the wire"
    of_objects.add_argument("--short", choices=("pad", "as-is"), default="pad", help=short)
    long = "packets of more than 65,536 bytes: run the first of these, or none"
    of_objects.add_argument("--long", choices=("cut", "skip"), default="cut", help=long)
    _add_form(of_objects)


def _add_object(parser: Parser) -> None:
    parser.add_argument("object", metavar="OBJECT", nargs="?", help="an ELF object of machine BPF, as clang -target bpf -g writes it")


def _add_filters(parser: Parser, is_run: bool = False) -> None:
    """The arguments that name filters in place of an object, and say how to read them."""
    group = parser.add_argument_group("filters as for tcpdump, in place of OBJECT")
    for words, metavar, kind, told in (
        (("--filter",), "EXPRESSION", EXPRESSION, "an expression as for tcpdump"),
        (("-F",), "FILE", EXPRESSION_FILE, "a file with an expression; - is standard input"),
        (("--classic",), "FILE", CLASSIC, "a classic program as tcpdump -dd or -ddd writes it, or iptables' bytecode; - is standard input"),
    ):
        read = named(lambda word, kind=kind: Source(kind, word), metavar)  # type: ignore[misc]
        group.add_argument(*words, metavar=metavar, dest="filters", action="append", type=read, default=[], help=told)
    if is_run:
        count = "end the run after so many packets that the filter keeps"
        group.add_argument("-c", metavar="N", dest="count", type=_count, help=count)
    semantics = "whose results to return if they differ"
    group.add_argument("--semantics", choices=("libpcap", "kernel"), default="libpcap", help=semantics)
    group.add_argument("--link-type", metavar="TYPE", type=_link_type, help="of packets that come from no capture, by number or name: EN10MB")


def _add_section(group: argparse._ActionsContainer) -> None:
    group.add_argument("--section", metavar="S", help="the section of the filter, or its function's name")


def _add_form(group: argparse._ActionsContainer) -> None:
    """The arguments that name the form in which an object is read."""
    forms = group.add_mutually_exclusive_group()
    forms.add_argument("--strict", action="store_true", help="refuse maps that the host does not have, and change none")
    forms.add_argument("--as-is", action="store_true", help="take programs as they are compiled, and change nothing")


def _add_check(parser: Parser) -> None:
    _add_object(parser)
    _add_filters(parser)
    of_objects = parser.add_argument_group("for OBJECT")
    of_objects.add_argument("--dot", action="store_true", help="write control-flow graphs, for Graphviz, in place of verdicts")
    _add_form(of_objects)
    add_program(parser)


def _add_build(parser: Parser) -> None:
    _add_object(parser)
    _add_filters(parser)
    parser.add_argument("-o", "--output", metavar="FILE", required=True, help="the file")
    of_objects = parser.add_argument_group("for OBJECT")
    _add_section(of_objects)
    _add_form(of_objects)
    add_program(parser)


def _add_report(parser: Parser) -> None:
    _add_object(parser)
    parser.add_argument("capture", metavar="CAPTURE", nargs="?", help="a capture whose packets are run")
    _add_filters(parser)
    parser.add_argument("-o", "--output", metavar="FILE", required=True, help="the page")
    of_objects = parser.add_argument_group("for OBJECT")
    _add_section(of_objects)
    _add_form(of_objects)
    add_program(parser)


def _add_asm(parser: Parser) -> None:
    parser.add_argument("file", metavar="FILE", nargs="?", help="the input; standard input if it is not named")
    add_program(parser)


def _add_dis(parser: Parser) -> None:
    _add_asm(parser)
    _add_filters(parser)
    form = "write the classic program itself, as tcpdump and iptables do"
    parser.add_argument("--form", choices=("d", "dd", "ddd", "bytecode"), help=f"of filters: {form}")
    _add_form(parser.add_argument_group("for OBJECT"))


def _add_nothing(_parser: Parser) -> None:
    """A word without arguments."""


def _add_tenant(parser: Parser) -> None:
    parser.add_argument("tenant", metavar="TENANT", type=_number)


def _add_test_run(parser: Parser) -> None:
    _add_tenant(parser)
    parser.add_argument("descriptor", metavar="DESCRIPTOR", type=_number)
    parser.add_argument("packet", metavar="PACKET", type=_hex, nargs="?", default=b"", help="bytes in hexadecimal digits")


def parse(words: Sequence[str] | None) -> argparse.Namespace:
    """The parsed arguments; wrong ones end the process with status 2. A shell may complete them (`complete`)."""
    parser = _parser(called("bpfhost-py", "bpfhost"))
    complete(parser)
    said = parser.parse_args(sys.argv[1:] if words is None else words)
    return settled(said)
