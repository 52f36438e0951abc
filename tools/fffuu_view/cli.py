"""The command line of fffuu-view."""
import argparse
import os
import sys
import textwrap
from typing import Callable, List, Optional, Tuple

from . import NOTE, addresses, fleet, graph, json_out, report, version, why
from . import program as programs
from .asking import Asked, open_dump
from .refusal import FIELDS
from .services import named_ports, read_services
from .trouble import Trouble

MOST_NAMED = 4
FORMS = {".svg": "svg", ".png": "png", ".dot": "dot", ".gv": "dot"}
DUMP = "a file that iptables-save wrote, packed by gzip or not; - is standard input"
FOOT = textwrap.fill(NOTE, 100)
EPILOG = FOOT + """

A DUMP is a file that iptables-save or ip6tables-save wrote, packed by gzip or not; `-` is standard input. Its family is found from its
text. The program is the one that --program names, or the environment variable FFFUU, or that stands beside fffuu-view, or on PATH.

Exit status: 0 done; 1 the words or the tools aren't right; else the program's own status after a refusal (2 a file can't be read,
5 the text is no dump, 9 an unsupported target, and so on: see the manual)."""


class Words(argparse.ArgumentParser):
    """A parser that ends with 1 where the words aren't right."""

    def error(self, message: str):
        """Prints how it is called and what is wrong, and ends."""
        self.print_usage(sys.stderr)
        self.exit(1, f"{self.prog}: {message}\n")


def common(sub: argparse.ArgumentParser, chain: Optional[str] = "FORWARD") -> None:
    """The options that all subcommands share."""
    sub.add_argument("--program", metavar="PATH", help="the program fffuu")
    sub.add_argument("--family", type=int, choices=(4, 6), help="IPv4 or IPv6; without it found from the text")
    if chain:
        sub.add_argument("--chain", default=chain, metavar="NAME", help=f"the asked chain (without it {chain})")


def add(subs, name: str, about: str, run: Callable, example: str, chain: Optional[str] = "FORWARD") -> argparse.ArgumentParser:
    """A subcommand with its help."""
    sub = subs.add_parser(name, help=about, description=about[0].upper() + about[1:] + ".", epilog=f"example: {example}\n\n{FOOT}",
                          formatter_class=argparse.RawDescriptionHelpFormatter)
    sub.set_defaults(run=run)
    common(sub, chain)
    return sub


def parser() -> argparse.ArgumentParser:
    """The whole command line."""
    top = Words(prog="fffuu-view", description="Shows what fffuu says of dumps of iptables.", epilog=EPILOG,
                formatter_class=argparse.RawDescriptionHelpFormatter)
    top.add_argument("--version", action="version", version=f"fffuu-view {version()}")
    subs = top.add_subparsers(dest="command", metavar="COMMAND", required=True)
    one = add(subs, "why", "what decides one packet, with lines of the dump", run_why, "fffuu-view why dump.v4 --chain INPUT in=eth0 proto=tcp dport=22")
    one.add_argument("dump", metavar="DUMP", help=DUMP)
    one.add_argument("fields", nargs="*", metavar="FIELD=VALUE", help=", ".join(FIELDS))
    one = add(subs, "json", "an answer of the program as JSON", run_json, "fffuu-view json matrix dump.v4 tcp:40000:22 --side lower")
    one.add_argument("mode", choices=("check", "upper", "lower", "matrix", "spoof", "explain"))
    one.add_argument("dump", metavar="DUMP", help=DUMP)
    one.add_argument("words", nargs="*", metavar="WORD", help="the service, the claims or the fields of the mode")
    one.add_argument("--side", choices=("upper", "lower"), default="upper", help="of a matrix")
    one = add(subs, "graph", "a matrix as a picture, by Graphviz", run_graph, "fffuu-view graph dump.v4 tcp:40000:22 -o ssh.svg")
    one.add_argument("dump", metavar="DUMP", help=DUMP)
    one.add_argument("service", metavar="SERVICE", help="PROTO:SPORT:DPORT, PROTO:PORT or a usual name as ssh")
    one.add_argument("--side", choices=("upper", "lower"), default="upper", help="who may, or who must be let (without it upper)")
    one.add_argument("--format", choices=("svg", "png", "dot"), help="without it by the ending of the file, else svg")
    one.add_argument("--names", metavar="FILE", help="names of sets of addresses, lines NAME = SET")
    one.add_argument("-o", "--output", default="-", metavar="FILE", help="without it standard output")
    add_report(subs)
    add_fleet(subs)
    return top


def add_report(subs) -> None:
    """The subcommand `report`."""
    one = add(subs, "report", "one page of HTML for a dump, that stands alone", run_report,
              "fffuu-view report dump.v4 --names names.txt --claim eth1=10.0.0.0/8 -o dump.html", None)
    one.add_argument("dump", metavar="DUMP", help=DUMP)
    one.add_argument("--services", metavar="LIST", help="with commas: a usual name (ssh), PROTO:PORT, PROTO:SPORT:DPORT, NAME= before it; without it "
                     "the usual ones and a few ports that rules name")
    one.add_argument("--names", metavar="FILE", help="names of sets of addresses, lines NAME = SET")
    one.add_argument("--claim", action="append", default=[], metavar="NAME=SET", help="behind this interface live these addresses; may stand again")
    one.add_argument("--claim-chain", default="FORWARD", metavar="NAME", help="the chain that claims are asked of (without it FORWARD)")
    one.add_argument("-o", "--output", default="-", metavar="FILE", help="without it standard output")


def add_fleet(subs) -> None:
    """The subcommand `fleet`."""
    one = add(subs, "fleet", "many dumps at once: a table, and pages with an index", run_fleet,
              "fffuu-view fleet dumps/*.v4 --pages out --format csv > table.csv", None)
    one.add_argument("dumps", nargs="+", metavar="DUMP", help="files that iptables-save wrote, packed by gzip or not")
    one.add_argument("--services", metavar="LIST", help="as for report")
    one.add_argument("--names", metavar="FILE", help="as for report")
    one.add_argument("--pages", metavar="FOLDER", help="writes a report for each dump there, and index.html")
    one.add_argument("--format", choices=("text", "csv", "json"), default="text", help="of the table (without it text)")
    one.add_argument("--jobs", type=int, default=os.cpu_count() or 1, metavar="N", help="dumps at once (without it the number of processors)")


def asked_of(words: argparse.Namespace, beside: str) -> Asked:
    """The dump that the words name, ready to be asked."""
    return open_dump(words.dump, programs.find(words.program, beside), words.family)


def write(path: str, data: bytes) -> None:
    """Writes to a file, or to standard output for `-`."""
    try:
        if path == "-":
            sys.stdout.buffer.write(data)
            sys.stdout.buffer.flush()
        else:
            with open(path, "wb") as out:
                out.write(data)
    except OSError as fault:
        raise Trouble(f"{path}: can't be written: {fault.strerror}", 3) from None


def encoded(text: str) -> bytes:
    """A text as bytes, with the bytes of the dump as they were."""
    return text.encode("utf-8", "surrogateescape")


def run_why(words: argparse.Namespace, beside: str) -> int:
    """`why`."""
    why.packet_words(words.fields)
    write("-", encoded(why.show(asked_of(words, beside), words.chain, words.fields)))
    return 0


def run_json(words: argparse.Namespace, beside: str) -> int:
    """`json`. A refusal is printed as JSON too, and its words on standard error."""
    status = 0
    try:
        found = json_out.answer(asked_of(words, beside), words.mode, words.chain, words.words, words.side)
    except Trouble as trouble:
        found, status = json_out.refused(words.dump, words.mode, trouble), trouble.status
        print(f"fffuu-view: {trouble.words}", file=sys.stderr)
    write("-", json_out.as_text(found).encode())
    return status


def run_graph(words: argparse.Namespace, beside: str) -> int:
    """`graph`."""
    asked = asked_of(words, beside)
    names = addresses.read_names(words.names, asked.family) if words.names else {}
    service = read_services(words.service)[0]
    source = graph.dot(asked, words.chain, service.words(), words.side, names)
    form = words.format or FORMS.get(os.path.splitext(words.output)[1].lower(), "svg")
    write(words.output, graph.picture(source, form))
    return 0


def run_report(words: argparse.Namespace, beside: str) -> int:
    """`report`."""
    services = read_services(words.services)
    asked = asked_of(words, beside)
    if not words.services:
        rules = [rule for chain in ("INPUT", "FORWARD") for rule in asked.dump.reach_rules(chain)]
        services += named_ports(rules, MOST_NAMED)
    names = addresses.read_names(words.names, asked.family) if words.names else {}
    wanted = report.Wanted(services, names, words.claim, words.claim_chain)
    write(words.output, report.show(asked, wanted).encode())
    return 0


def run_fleet(words: argparse.Namespace, beside: str) -> int:
    """`fleet`. The status is 1 where some dump was refused."""
    program = programs.find(words.program, beside)
    found = fleet.run(words.dumps, program, words.family, read_services(words.services), words.names, words.pages, words.jobs)
    write("-", encoded(fleet.table(found, words.format)))
    return 1 if any(done.status for done in found) else 0


def main(beside: str, given: Optional[List[str]] = None) -> int:
    """Runs the command line; the exit status."""
    try:
        words = arguments(given)
        return words.run(words, beside)
    except Trouble as trouble:
        sys.stderr.buffer.write(encoded(f"fffuu-view: {trouble.words}\n"))
        return trouble.status
    except BrokenPipeError:
        return 3
    except KeyboardInterrupt:
        return 130


def arguments(given: Optional[List[str]]) -> argparse.Namespace:
    """The words of the command line. Options may stand between the words of a subcommand."""
    top = parser()
    words, rest = top.parse_known_args(given)
    extra, fault = further(rest)
    if fault or (extra and not hasattr(words, "fields") and not hasattr(words, "words") and not hasattr(words, "dumps")):
        top.error(f"not understood: {fault or ' '.join(extra)} (see fffuu-view {words.command} --help)")
    for name in ("fields", "words", "dumps"):
        if hasattr(words, name):
            setattr(words, name, getattr(words, name) + extra)
    return words


def further(rest: List[str]) -> Tuple[List[str], str]:
    """Of the words that are left, those that are no options, and the first one that is."""
    return [word for word in rest if not word.startswith("--")], next((word for word in rest if word.startswith("--")), "")
