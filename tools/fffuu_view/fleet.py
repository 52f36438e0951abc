"""`fleet`: many dumps at once, on the processors of this machine."""
import csv
import io
import multiprocessing
import os
import re
import sys
from dataclasses import asdict, dataclass, field
from typing import Dict, List, Optional, TextIO, Tuple

from . import NOTE, json_out, page, report, version
from .addresses import read_names
from .asking import open_dump
from .program import Program
from .refusal import first_line
from .report import Wanted
from .services import Service
from .trouble import Trouble


@dataclass
class Job:
    """One dump to be asked about."""
    file: str
    program: Program
    family: Optional[int]
    services: List[Service]
    names: Optional[str]
    page: Optional[str]


@dataclass
class Done:
    """What came of one dump. Each count is empty where the dump was refused."""
    file: str
    family: int = 0
    chains: int = 0
    rules: int = 0
    unknown: int = 0
    input: str = ""
    forward: str = ""
    page: str = ""
    status: int = 0
    refused: str = ""
    parts: List[str] = field(default_factory=list)


def work(job: Job) -> Done:
    """The answers about one dump, and its page where one is wanted. A refusal is an answer too."""
    try:
        return answered(job)
    except Trouble as trouble:
        return Done(job.file, status=trouble.status, refused=first_line(trouble))
    except Exception as fault:  # one dump may not stop the others
        return Done(job.file, status=1, refused=f"{job.file}: fffuu-view failed: {type(fault).__name__}: {fault}")


def answered(job: Job) -> Done:
    """The answers about a dump that isn't refused as a whole."""
    asked = open_dump(job.file, job.program, job.family)
    names = read_names(job.names, asked.family) if job.names else {}
    wanted = Wanted(job.services, names, workers=1)
    tables = report.tables_of(asked, wanted)
    told = [found for found in tables.values() if isinstance(found, Trouble)]
    if not tables or len(told) == len(tables):
        raise told[0] if told else Trouble(f"{asked.dump.name}: no chain INPUT or FORWARD that could be asked about", 8)
    count = asked.check(next(chain for chain, found in tables.items() if not isinstance(found, Trouble)))
    open_to = report.summary(wanted, tables)
    done = Done(job.file, asked.family, count.chains, count.rules, count.unknown, said(open_to, tables, "INPUT"), said(open_to, tables, "FORWARD"),
                parts=[first_line(trouble) for trouble in told])
    if job.page:
        with open(job.page, "w", encoding="utf-8") as out:
            out.write(report.page_of(asked, wanted, tables))
        done.page = os.path.basename(job.page)
    return done


def said(open_to: Dict[str, List[str]], tables: Dict[str, object], chain: str) -> str:
    """The services of a chain that somebody may open by another interface than lo."""
    if chain not in tables:
        return "-"
    if chain not in open_to:
        return "refused"
    return " ".join(open_to[chain]) or "none"


def page_names(files: List[str], folder: str) -> List[str]:
    """A page's path for each file, no two alike."""
    found: List[str] = []
    for file in files:
        stem = re.sub(r"[^A-Za-z0-9._-]+", "-", os.path.basename(file)) or "dump"
        name, number = f"{stem}.html", 2
        while os.path.join(folder, name) in found or name == "index.html":
            name, number = f"{stem}-{number}.html", number + 1
        found.append(os.path.join(folder, name))
    return found


def run_all(jobs: List[Job], workers: int, progress: TextIO) -> List[Done]:
    """All dumps, several at once, with a line of progress; the answers in the order of the files."""
    found: Dict[str, Done] = {}
    refused = 0
    with multiprocessing.Pool(workers) as pool:
        for done in pool.imap_unordered(work, jobs):
            found[done.file] = done
            refused += done.status != 0
            tell(progress, len(found), len(jobs), refused)
    return [found[job.file] for job in jobs]


def tell(progress: TextIO, have: int, total: int, refused: int) -> None:
    """The line of progress: on a terminal written over itself, elsewhere a line at each tenth."""
    said = f"{have} of {total} dumps, {refused} refused"
    if progress.isatty():
        progress.write("\r" + said + ("\n" if have == total else ""))
    elif have == total or have * 10 // total > (have - 1) * 10 // total:
        progress.write(said + "\n")
    progress.flush()


COLUMNS: List[Tuple[str, str]] = [("file", "file"), ("family", "IPv"), ("chains", "chains"), ("rules", "rules"), ("unknown", "unknown"),
                                  ("input", "may be opened to the host"), ("forward", "may pass through"), ("refused", "refused")]


def values(done: Done) -> List[str]:
    """A row of the table."""
    if done.status:
        return [done.file, "", "", "", "", "", "", done.refused]
    return [done.file, str(done.family), str(done.chains), str(done.rules), str(done.unknown), done.input, done.forward, "; ".join(done.parts)]


def text_table(found: List[Done]) -> str:
    """The table as text."""
    rows = [[head for _, head in COLUMNS]] + [values(done) for done in found]
    widths = [max(len(row[at]) for row in rows) for at in range(len(COLUMNS) - 1)]
    lines = ["  ".join([cell.ljust(width) for cell, width in zip(row, widths)] + row[-1:]).rstrip() for row in rows]
    return "\n".join(lines) + "\n"


def csv_table(found: List[Done]) -> str:
    """The table as CSV, with a line of heads."""
    out = io.StringIO()
    writer = csv.writer(out, lineterminator="\n")
    writer.writerow([name for name, _ in COLUMNS] + ["status", "page"])
    for done in found:
        writer.writerow(values(done) + [done.status, done.page])
    return out.getvalue()


def json_table(found: List[Done]) -> str:
    """The table as JSON, in the form of schema/fleet.schema.json."""
    rows = []
    for done in found:
        row = asdict(done)
        rows.append({"file": row["file"], "status": done.status, "refused": done.refused, "page": done.page} if done.status else row)
    return json_out.as_text({"by": f"fffuu-view {version()}", "dumps": rows})


def index_page(found: List[Done]) -> str:
    """A page that links those of all dumps."""
    rows = []
    for done in found:
        cells = [page.plain(value) for value in values(done)]
        if done.page:
            cells[0] = f'<td><a href="{page.text(done.page)}">{page.text(done.file)}</a></td>'
        if done.refused:
            cells[-1] = f'<td class="some">{page.text(done.refused)}</td>'
        rows.append(cells)
    body = [page.heading("fffuu: all dumps", 1),
            page.paragraph("A service is named where it may be opened by some interface other than lo, with the interfaces in brackets unless any one "
                           "does. What isn't named can't be opened by a new connection. Tables other than filter are not looked at.", "grey"),
            page.table([page.head(head) for _, head in COLUMNS], rows, "stack"),
            f'<footer class="grey"><p>{page.text(NOTE)}</p></footer>']
    return page.page("fffuu: all dumps", body)


def run(files: List[str], program: Program, family: Optional[int], services: List[Service], names: Optional[str], folder: Optional[str],
        workers: int) -> List[Done]:
    """Asks about all files, and writes their pages and an index where a folder is named."""
    if "-" in files:
        raise Trouble("fleet takes files, not standard input", 1)
    files = list(dict.fromkeys(files))
    if folder:
        os.makedirs(folder, exist_ok=True)
    pages: List[Optional[str]] = list(page_names(files, folder)) if folder else [None] * len(files)
    jobs = [Job(file, program, family, services, names, path) for file, path in zip(files, pages)]
    found = run_all(jobs, max(1, min(workers, len(jobs))), sys.stderr)
    if folder:
        with open(os.path.join(folder, "index.html"), "w", encoding="utf-8") as out:
            out.write(index_page(found))
    return found


def table(found: List[Done], form: str) -> str:
    """The table in one of its forms."""
    return {"text": text_table, "csv": csv_table, "json": json_table}[form](found)
