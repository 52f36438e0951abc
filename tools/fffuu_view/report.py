"""`report`: one page of HTML for a dump, that stands alone.

A page is a list of sections, each a function of the dump and what was asked; a section that has nothing to say is left out. So
what further modes of the program tell becomes a section, or rows of a table, of its own."""
import os
from concurrent.futures import ThreadPoolExecutor
from dataclasses import dataclass, field
from typing import Callable, Dict, List, Optional, Tuple

from . import NOTE, addresses, cells, page, version
from . import program as programs
from .addresses import Ranges
from .asking import Asked, unknown_matches
from .cells import Cell, Row
from .dump import Rule
from .services import Service
from .trouble import Trouble

MOST_LINES = 1500
MOST_PIECES = 24


@dataclass
class Wanted:
    """What a report is to show."""
    services: List[Service]
    names: Dict[str, Ranges] = field(default_factory=dict)
    claims: List[str] = field(default_factory=list)
    claims_chain: str = "FORWARD"
    workers: int = 0


@dataclass
class Table:
    """The cells of one chain: by input interface, and by addresses; each a list by service of cells by row."""
    chain: str
    names: List[Tuple[str, str]]
    by_name: List[List[Cell]]
    rows: List[Row]
    by_row: List[List[Cell]]


def tables_of(asked: Asked, wanted: Wanted) -> Dict[str, object]:
    """For INPUT and FORWARD, where the dump has them, the cells or the refusal."""
    found: Dict[str, object] = {}
    for chain in ("INPUT", "FORWARD"):
        if chain in asked.dump.asked_chains():
            try:
                asked.check(chain)
                found[chain] = table_of(asked, chain, wanted)
            except Trouble as trouble:
                found[chain] = trouble
    return found


def table_of(asked: Asked, chain: str, wanted: Wanted) -> Table:
    """The cells of one chain. Several services are asked at once."""
    rules = asked.dump.reach_rules(chain)
    groups = cells.groups(asked, rules, wanted.names)
    rows = cells.rows_to_host(groups, asked.family) if chain == "INPUT" else cells.rows_through(groups)
    names = cells.asked_names(rules)
    with ThreadPoolExecutor(wanted.workers or os.cpu_count() or 1) as pool:
        by_name = list(pool.map(lambda service: cells.interface_cells(asked, chain, service, names), wanted.services))
        by_row = list(pool.map(lambda service: cells.row_cells(asked, chain, service, rows), wanted.services))
    return Table(chain, names, by_name, rows, by_row)


def head_section(asked: Asked, wanted: Wanted, tables: Dict[str, object]) -> List[str]:
    """What the page is about, and how it is read."""
    lines = [page.heading(os.path.basename(asked.dump.name), 1)]
    try:
        count = asked.check(next(iter(tables), "FORWARD"))
        said = f"{count.chains} chains, {count.rules} rules, {count.unknown} matches that fffuu doesn't understand. "
    except Trouble:
        said = ""
    lines.append(page.paragraph(f"{said}IPv{asked.family}. SHA-256 of the dump {asked.digest()}.", "grey"))
    lines.append(page.paragraph("Only packets that open a connection (state NEW) are asked about. Tables other than filter are not looked at: "
                                "what nat sends elsewhere meets the rules by its new address. A match that fffuu doesn't understand may hold or "
                                "not, anew at each visit of a rule.", "grey"))
    return lines + [page.legend()]


def service_heads(services: List[Service], first: str, any_source: bool) -> List[str]:
    """The heads of a table by services, with the ports or the type that were asked of."""
    return [page.head(first)] + [page.head(service.name, service.protocol, service.short(any_source)) for service in services]


def cell_table(services: List[Service], first: str, labels: List[str], found: List[List[Cell]], any_source: bool) -> str:
    """A table of cells, a row for each label and a column for each service."""
    rows = []
    for at, label in enumerate(labels):
        row = [page.row_head(label)]
        for service, column in zip(services, found):
            note = f"{label}: {service.long(any_source)}: {column[at].word}"
            row.append(page.cell(column[at].word, note + (f" ({column[at].note})" if column[at].note else "")))
        rows.append(row)
    return page.table(service_heads(services, first, any_source), rows, "cells")


def refused_box(words: str) -> str:
    """Words of a refusal, set apart."""
    return f'<div class="refused">{page.text(words)}</div>'


def refused_notes(columns: List[List[Cell]]) -> List[str]:
    """Why cells aren't known, each cause once."""
    notes = [cell.note for column in columns for cell in column if cell.word == "not known"]
    return [refused_box(note) for note in dict.fromkeys(notes)]


def chain_section(asked: Asked, wanted: Wanted, found: object, title: str, first: str) -> List[str]:
    """The tables of one chain, or why there are none."""
    lines = [page.heading(title)]
    if isinstance(found, Trouble):
        return lines + [refused_box(found.words)]
    assert isinstance(found, Table)
    lines.append(page.heading("by the interface that a packet comes in by", 3))
    lines.append(cell_table(wanted.services, "from interface", [label for _, label in found.names], found.by_name, True))
    lines += refused_notes(found.by_name)
    lines.append(page.paragraph(f"Asked by spoof of the dump with drops in front of all but the service's first packets: from any source port and any "
                                f"source address but {cells.NO_SOURCE[asked.family]}{'' if found.chain == 'INPUT' else ', out by any interface'}. It "
                                "tells what may pass, not what must.", "grey"))
    lines.append(page.heading("by addresses", 3))
    lines.append(cell_table(wanted.services, first, [row.label for row in found.rows], found.by_row, False))
    lines += refused_notes(found.by_row)
    lines.append(page.paragraph("Asked by matrix, both sides, where each match on an interface's name counts as not understood: so 'no' holds "
                                "whatever the interfaces are, and so do 'some' and 'yes'; 'some may' may hang on an interface.", "grey"))
    return lines


def input_section(asked: Asked, wanted: Wanted, tables: Dict[str, object]) -> List[str]:
    """Who can open a connection to this host."""
    if "INPUT" not in tables:
        return []
    return chain_section(asked, wanted, tables["INPUT"], "Who can open a connection to this host (INPUT)", "from")


def forward_section(asked: Asked, wanted: Wanted, tables: Dict[str, object]) -> List[str]:
    """What may pass through this host."""
    if "FORWARD" not in tables:
        return []
    return chain_section(asked, wanted, tables["FORWARD"], "What may pass through this host (FORWARD)", "from \u2192 to")


def shortened(said: str) -> str:
    """A list of networks, cut where it is long."""
    parts = said.split(", ")
    return said if len(parts) <= MOST_PIECES else ", ".join(parts[:MOST_PIECES]) + f" and {len(parts) - MOST_PIECES} more"


def flow_lines(asked: Asked, wanted: Wanted, cell: Cell, row: Row) -> List[str]:
    """The flows behind a cell in words."""
    lines = []
    for sources, destinations, must in cell.flows:
        one = addresses.shown_inside(sources, row.sources, row.source_label, asked.family, wanted.names)
        other = addresses.shown_inside(destinations, row.destinations, row.destination_label or "any address", asked.family, wanted.names)
        lines.append(f"{'can' if must else 'may'}: {shortened(one)} \u2192 {shortened(other)}")
    if cell.more:
        lines.append(f"and {cell.more} more: fffuu matrix prints all")
    return lines


def services_shown(services: List[Service]) -> str:
    """Services with the source ports that they were asked from, or their type, one after the other."""
    by_way: Dict[str, List[str]] = {}
    for service in services:
        kind = service.echo_type()
        by_way.setdefault(f"from port {service.source}" if kind is None else f"type {kind}", []).append(service.name)
    return "; ".join(f"{', '.join(names)} ({way})" for way, names in by_way.items())


def whole_row(cell: Cell, row: Row) -> bool:
    """Whether one flow is all that the row is about, so that its label tells it."""
    return len(cell.flows) == 1 and not cell.more and cell.flows[0][:2] == (row.sources, row.destinations)


def addresses_section(asked: Asked, wanted: Wanted, tables: Dict[str, object]) -> List[str]:
    """The addresses behind the cells that are about a part of their row, services with the same ones together."""
    rows: List[List[str]] = []
    for chain, found in tables.items():
        if not isinstance(found, Table):
            continue
        for at, row in enumerate(found.rows):
            alike: Dict[Tuple[str, ...], List[Service]] = {}
            for service, column in zip(wanted.services, found.by_row):
                if column[at].word in ("some", "some may") and not whole_row(column[at], row):
                    alike.setdefault(tuple(flow_lines(asked, wanted, column[at], row)), []).append(service)
            for said, services in alike.items():
                flows = "<br>".join(page.text(line) for line in said)
                rows.append([page.row_head(f"{chain}: {row.label}"), page.plain(services_shown(services), "names"), f'<td class="code">{flows}</td>'])
    if not rows:
        return []
    return [page.heading("The addresses behind the cells"),
            page.paragraph("Of the tables by addresses. A cell that isn't listed is about all addresses of its row. 'can' holds in any case, "
                           "'may' where matches that aren't decided allow it.", "grey"),
            page.table([page.head("where"), page.head("service"), page.head("which addresses (source \u2192 destination)")], rows, "stack")]


def unknown_kinds(asked: Asked) -> Dict[str, Tuple[List[str], List[Rule]]]:
    """What isn't understood by module, or base option: the options, and the rules in the order of their lines."""
    kinds: Dict[str, Tuple[List[str], List[Rule]]] = {}
    for rule, match in unknown_matches(asked):
        options, rules = kinds.setdefault(match.module or match.option, ([], []))
        if match.module and match.option and match.option not in options:
            options.append(match.option)
        if not rules or rules[-1] is not rule:
            rules.append(rule)
    return kinds


def unknown_section(asked: Asked, wanted: Wanted, tables: Dict[str, object]) -> List[str]:
    """What isn't understood, by match."""
    rows = []
    for name, (options, rules) in sorted(unknown_kinds(asked).items(), key=lambda item: -len(item[1][1])):
        listed = ", ".join(str(rule.line) for rule in rules[:8]) + (f" and {len(rules) - 8} more" if len(rules) > 8 else "")
        decides = next((rule for rule in rules if rule.decides()), None)
        first = f"{decides.line}: {decides.text}" if decides else "none: these rules only log, mark or go on"
        rows.append([page.plain(" ".join([name, *options]), "code names"), page.plain(len(rules)), page.plain(listed), page.plain(first, "code")])
    if not rows:
        return [page.heading("What isn't understood"), page.paragraph("fffuu understands every match of the filter table.")]
    heads = [page.head("match"), page.head("rules"), page.head("lines"), page.head("first of them that decides")]
    return [page.heading("What isn't understood"), page.paragraph("Which of them matter isn't told here.", "grey"),
            page.table(heads, rows, "stack")]


def claims_section(asked: Asked, wanted: Wanted, tables: Dict[str, object]) -> List[str]:
    """The verdicts on claims about forged sources."""
    if not wanted.claims:
        return []
    lines = [page.heading(f"Forged sources ({wanted.claims_chain})")]
    try:
        verdicts = programs.read_spoof(asked.run("spoof", wanted.claims_chain, *wanted.claims))
    except Trouble as trouble:
        return lines + [refused_box(trouble.words)]
    rules, rows = asked.dump.reach_rules(wanted.claims_chain), []
    for claim, verdict in zip(wanted.claims, verdicts):
        name, members = cells.claim_parts(claim, asked.family)
        said = "holds: no new packet from it with another source is accepted" if verdict.holds else "violated, " + cells.packet_shown(verdict.packet)
        said += "" if cells.names_interface(rules, name) else "; no rule in reach names this interface"
        rows.append([page.row_head(name), page.plain(members, "code"),
                     f'<td class="{"no" if verdict.holds else "some"}">{page.text(said)}</td>'])
    return lines + [page.table([page.head("interface"), page.head("its addresses"), page.head("verdict")], rows, "stack")]


def side(title: str, lines: List[str], other: List[str], mark: str) -> str:
    """One filter, with the lines marked that the other one hasn't."""
    have, shown = set(other), []
    for line in lines[:MOST_LINES]:
        shown.append(page.text(line) + "\n" if line in have else f"<{mark}>{page.text(line)}</{mark}>")
    if len(lines) > MOST_LINES:
        shown.append(f"and {len(lines) - MOST_LINES} more lines")
    return f"<div>{page.heading(title, 3)}<pre>{''.join(shown)}</pre></div>"


def filters_section(asked: Asked, wanted: Wanted, tables: Dict[str, object]) -> List[str]:
    """The two filters of each chain side by side."""
    lines = [page.heading("The two filters side by side"),
             page.paragraph("What the left one doesn't accept can't pass; what the right one accepts passes in any case. Lines that the "
                            "other one hasn't are marked.", "grey")]
    for chain, found in tables.items():
        if isinstance(found, Trouble):
            continue
        try:
            upper, lower = (asked.run(mode, chain).lines() for mode in ("upper", "lower"))
        except Trouble as trouble:
            lines.append(refused_box(trouble.words))
            continue
        opened = " open" if len(upper) + len(lower) < 80 else ""
        lines.append(f"<details{opened}><summary>{page.text(chain)}</summary><div class=\"sides\">"
                     + side("may be accepted (upper)", upper, lower, "ins") + side("is accepted in any case (lower)", lower, upper, "del") + "</div></details>")
    return lines if len(lines) > 2 else []


SECTIONS: List[Callable[[Asked, Wanted, Dict[str, object]], List[str]]] = [
    head_section, input_section, forward_section, addresses_section, claims_section, unknown_section, filters_section]


def page_of(asked: Asked, wanted: Wanted, tables: Dict[str, object]) -> str:
    """The whole page of a dump whose tables are there."""
    body = [line for section in SECTIONS for line in section(asked, wanted, tables)]
    body.append(f'<footer class="grey"><p>{page.text(NOTE)}</p><p>Written by fffuu-view {page.text(version())}.</p></footer>')
    return page.page(os.path.basename(asked.dump.name), body)


def show(asked: Asked, wanted: Wanted) -> str:
    """The page of a dump; a refusal where no chain of it can be asked about."""
    for claim in wanted.claims:
        cells.claim_parts(claim, asked.family)
    tables = tables_of(asked, wanted)
    refused = [found for found in tables.values() if isinstance(found, Trouble)]
    if not tables:
        asked.check("FORWARD")
    if refused and len(refused) == len(tables):
        raise refused[0]
    return page_of(asked, wanted, tables)


def summary(wanted: Wanted, tables: Dict[str, object]) -> Dict[str, List[str]]:
    """For each chain the services that may be opened by some interface but lo, with those interfaces unless any one does."""
    found: Dict[str, List[str]] = {}
    for chain, table in tables.items():
        if isinstance(table, Table):
            named = [(service.name.replace(" ", "/"), ways_in(table, column)) for service, column in zip(wanted.services, table.by_name)]
            found[chain] = [name + ways for name, ways in named if ways is not None]
    return found


def ways_in(table: Table, column: List[Cell]) -> Optional[str]:
    """By which interfaces a service may be opened: nothing for any, names in brackets, None where by none."""
    labels = [label for (_, label), cell in zip(table.names, column) if cell.word != "no" and label != "lo"]
    if not labels:
        return None
    return "" if any(label.startswith("any ") for label in labels) else f"({','.join(labels)})"
