"""Pieces of a page of HTML that stands alone."""
import re
from html import escape
from typing import Iterable, List

STYLE = """
:root { --line: #bbb; --soft: #f3f3f3; --text: #1d1d1f; --grey: #666; }
* { box-sizing: border-box; }
body { font: 15px/1.45 system-ui, "DejaVu Sans", Verdana, sans-serif; color: var(--text); background: #fff; margin: 0 auto; padding: 1.5rem 2rem 3rem; max-width: 1240px; }
h1 { font-size: 1.6rem; margin: 0 0 .4rem; overflow-wrap: anywhere; }
h2 { font-size: 1.15rem; margin: 2.2rem 0 .5rem; }
h3 { font-size: 1rem; margin: 1.2rem 0 .3rem; }
p { margin: .4rem 0; max-width: 62rem; overflow-wrap: anywhere; }
dl.keys { display: grid; grid-template-columns: max-content 1fr; gap: .25rem .7rem; margin: .6rem 0; font-size: .88rem; }
dl.keys dt { border: 1px solid var(--line); padding: .02rem .6rem; text-align: center; }
dl.keys dd { margin: 0; }
.grey { color: var(--grey); font-size: .88rem; }
.wide { overflow-x: auto; margin: .5rem 0; }
table { border-collapse: collapse; }
th, td { border: 1px solid var(--line); padding: .28rem .6rem; text-align: left; vertical-align: top; }
thead th { background: var(--soft); }
th.service, td.cell { text-align: center; white-space: nowrap; padding: .28rem .4rem; font-size: .9rem; }
th.service small { display: block; font-weight: normal; color: var(--grey); font-size: .72rem; }
tbody th { white-space: nowrap; background: #fff; }
table.cells tbody th, table.cells thead th:first-child { position: sticky; left: 0; background-clip: padding-box; }
code, pre, td.code { font-family: ui-monospace, "DejaVu Sans Mono", Menlo, monospace; font-size: .82rem; }
td.code { overflow-wrap: anywhere; }
table.stack th.names, table.stack td.names { max-width: 22rem; }
pre { margin: 0; padding: .6rem .8rem; background: #fafafa; border: 1px solid var(--line); white-space: pre-wrap; overflow-wrap: anywhere; }
pre ins, pre del { text-decoration: none; display: block; }
pre ins { background: #fbe9c6; }
pre del { background: #d9ebdc; }
.no { background: #d9ebdc; } .may { background: #fbe9c6; } .some { background: #f3c3bd; } .yes { background: #ee9d94; } .unknown { background: #e6e6e6; }
.refused { border-left: 4px solid #c0392b; background: #fdf1ef; padding: .5rem .8rem; white-space: pre-wrap; overflow-wrap: anywhere; }
.sides { display: grid; grid-template-columns: 1fr 1fr; gap: 1rem; }
.sides > div { min-width: 0; }
summary { cursor: pointer; font-weight: 600; margin: .6rem 0; }
footer { margin-top: 3rem; border-top: 1px solid var(--line); padding-top: .8rem; }
@media (max-width: 700px) {
  body { padding: 1rem .8rem 2rem; }
  .sides { grid-template-columns: 1fr; }
  th, td { padding: .25rem .4rem; }
  table.cells tbody th { white-space: normal; max-width: 9.5rem; overflow-wrap: break-word; font-size: .8rem; }
  table.stack td.names { max-width: none; }
  table.stack thead { display: none; }
  table.stack, table.stack tbody, table.stack tr, table.stack td, table.stack th { display: block; width: 100%; }
  table.stack tr { margin-bottom: .7rem; }
  table.stack td, table.stack th { border-bottom: 0; white-space: normal; text-align: left; }
  table.stack tr { border-bottom: 1px solid var(--line); }
  table.stack td[data-head]::before { content: attr(data-head) ": "; color: var(--grey); font: .78rem system-ui, "DejaVu Sans", Verdana, sans-serif; }
  table.stack td:empty { display: none; }
}
@media print { body { max-width: none; padding: 0; } .wide { overflow: visible; } }
"""
CLASSES = {"no": "no", "some may": "may", "some": "some", "yes": "yes", "not known": "unknown"}
MEANINGS = [("no", "nobody can"), ("some may", "some can, where matches that fffuu doesn't decide allow it"), ("some", "some can in any case"),
            ("yes", "all can in any case"), ("not known", "the program refused to answer")]


def page(title: str, body: Iterable[str]) -> str:
    """A whole page."""
    return ('<!DOCTYPE html>\n<html lang="en">\n<head>\n<meta charset="utf-8">\n'
            '<meta name="viewport" content="width=device-width, initial-scale=1">\n'
            f"<title>{text(title)}</title>\n<style>{STYLE}</style>\n</head>\n<body>\n" + "\n".join(body) + "\n</body>\n</html>\n")


def text(words: object) -> str:
    """Words as they may stand in a page. Bytes that are no text are shown as question marks."""
    return escape(str(words).encode("utf-8", "replace").decode("utf-8"))


def paragraph(words: str, kind: str = "") -> str:
    """A paragraph of plain words."""
    return f'<p class="{kind}">{text(words)}</p>' if kind else f"<p>{text(words)}</p>"


def heading(words: str, level: int = 2) -> str:
    """A heading."""
    return f"<h{level}>{text(words)}</h{level}>"


def legend() -> str:
    """What the words in cells mean."""
    return '<dl class="keys">' + "".join(f'<dt class="{CLASSES[word]}">{word}</dt><dd>{text(said)}</dd>' for word, said in MEANINGS) + "</dl>"


def cell(word: str, note: str) -> str:
    """A cell of a table by services."""
    return f'<td class="cell {CLASSES[word]}" title="{text(note)}">{text(word)}</td>'


def table(heads: List[str], rows: List[List[str]], kind: str = "") -> str:
    """A table; heads and cells are HTML already. On a narrow page the cells of one of the kind `stack` stand under one another,
    each with its head before it."""
    head = "<thead><tr>" + "".join(heads) + "</tr></thead>"
    if kind == "stack":
        words = [re.sub(r"<[^>]*>", "", part) for part in heads]
        rows = [[cell.replace("<td", f'<td data-head="{word}"', 1) for word, cell in zip(words, row)] for row in rows]
    body = "".join("<tr>" + "".join(row) + "</tr>" for row in rows)
    return f'<div class="wide"><table class="{kind}">{head}<tbody>{body}</tbody></table></div>'


def head(words: str, *small: str) -> str:
    """A head of a column, with small lines under it for a service."""
    if not small:
        return f"<th>{text(words)}</th>"
    return f'<th class="service">{text(words)}' + "".join(f"<small>{text(line)}</small>" for line in small) + "</th>"


def row_head(words: str) -> str:
    """The first cell of a row."""
    return f"<th>{text(words)}</th>"


def plain(words: object, kind: str = "") -> str:
    """A cell of plain words."""
    return f'<td class="{kind}">{text(words)}</td>' if kind else f"<td>{text(words)}</td>"
