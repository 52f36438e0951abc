"""`graph`: a matrix as a picture, by Graphviz."""
import shutil
import subprocess
from typing import Dict

from . import addresses
from .addresses import Ranges
from .asking import Asked
from .trouble import Trouble

MOST_CLASSES = 200
MOST_LINES = 8


def quoted(text: str) -> str:
    """A text as a string of DOT, where \\n stays a new line."""
    return '"' + text.replace("\\", "\\\\").replace('"', '\\"').replace("\n", "\\n") + '"'


def label(ranges: Ranges, family: int, names: Dict[str, Ranges]) -> str:
    """A class in a few lines: names and networks, 'all but' where that is shorter."""
    head, parts = addresses.described(ranges, family, names)
    if len(parts) > MOST_LINES:
        parts = parts[:MOST_LINES] + [f"and {len(parts) - MOST_LINES} more"]
    return "\n".join([head] * bool(head) + parts)


def title(asked: Asked, chain: str, service: str, side: str) -> str:
    """What the picture says, in two lines."""
    verb = "may be able to" if side == "upper" else "can in any case"
    return f"{asked.dump.name}, {chain}: who {verb} open {service} to whom\nshown by fffuu-view, which proves nothing; matches on interfaces count as unknown"


def dot(asked: Asked, chain: str, service: str, side: str, names: Dict[str, Ranges]) -> str:
    """The matrix as a graph in DOT: a node for each class, an arrow for each edge."""
    matrix = asked.matrix(chain, service, side)
    if len(matrix.classes) > MOST_CLASSES:
        raise Trouble(f"{asked.dump.name}: {len(matrix.classes)} classes are too many for a picture (at most {MOST_CLASSES}): see `fffuu-view json`", 11)
    color = "#b3541e" if side == "upper" else "#2f7d4f"
    lines = ["digraph matrix {", f"  label={quoted(title(asked, chain, service, side))}; labelloc=t; fontname=\"Helvetica\"; fontsize=13;",
             "  rankdir=LR; nodesep=0.35; ranksep=0.9;",
             '  node [shape=box, style="rounded,filled", fillcolor="#eef3fb", color="#5b7db1", fontname="Helvetica", fontsize=11];',
             f'  edge [color="{color}", arrowsize=0.7];']
    for number, ranges in enumerate(matrix.classes):
        lines.append(f"  {number} [label={quoted(label(ranges, asked.family, names))}];")
    lines += [f"  {first} -> {last};" for first, last in matrix.edges]
    if not matrix.edges:
        lines.append('  none [label="nobody to anybody", shape=plaintext, style="", fontcolor="#666666"];')
    return "\n".join(lines + ["}", ""])


def picture(source: str, form: str) -> bytes:
    """The picture of a graph: DOT as it is, SVG and PNG by Graphviz."""
    if form == "dot":
        return source.encode()
    if not shutil.which("dot"):
        raise Trouble("Graphviz isn't there: install it (`apt install graphviz`), or ask for --format dot", 1)
    done = subprocess.run(["dot", f"-T{form}"], input=source.encode(), capture_output=True)
    if done.returncode != 0:
        raise Trouble(f"Graphviz failed: {done.stderr.decode('utf-8', 'replace').strip()}", 1)
    return done.stdout
