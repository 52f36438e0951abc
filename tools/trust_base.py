#!/usr/bin/env python3
"""Counts the definitions that a reader has to believe.

usage: trust_base.py [--list MEASURE] [--check FILE]

A measure begins at the names of some claim (MEASURES, below) and follows each name through the `use` lines of specs/ into
other files of specs/, and into the types of src/ with their `impl Model`. Counted are lines of definitions and of types,
without comments, blank lines and lines of `use` and `module`. Definitions of the toolchain's libraries are counted apart.

With no argument it prints a table. `--list MEASURE` prints each definition of one measure, with its place. `--check FILE` is
for the gate: it fails where the table in that file is another one.
"""
import argparse
import collections
import os
import re
import subprocess
import sys

TOP = os.path.dirname(os.path.dirname(os.path.abspath(__file__)))
KIT = os.path.dirname(subprocess.check_output(['rt', 'doc'], text=True).strip()) + '/rattle'
WORD = re.compile(r"[A-Za-z_][\w'-]*")
OPERATOR = re.compile(r'if◌then◌else◌|◌\S+?◌')
DEFINES = re.compile(r"^( *)(abbrev mutual|abbrev pub|unfoldable pub|unfoldable|abbrev|pub record|record|pub data|data|pub) ?([\w'-]*)")

# A definition of specs/, a type of src/, or a word that is built in or a constant, which counts nothing.
Definition = collections.namedtuple('Definition', 'module name')
Type = collections.namedtuple('Type', 'crate path name')
Word = collections.namedtuple('Word', 'name')
Size = collections.namedtuple('Size', 'code comments place')


def is_own(crate):
    return os.path.isdir(f'{TOP}/crates/{crate}')


def folder_of(crate):
    return f'{TOP}/crates/{crate}' if is_own(crate) else f'{KIT}/{crate}'


def crate_of(node):
    return node.module.split('.')[1] if isinstance(node, Definition) else getattr(node, 'crate', '')


def indent_of(line):
    return len(line) - len(line.lstrip())


class SpecsFile:
    """A file of specs/: where each of its definitions stands, and what its names are."""

    def __init__(self, module):
        _, crate, _, *rest = module.split('.')
        self.module = module
        self.path = f'{folder_of(crate)}/specs/' + '/'.join(rest) + '.antt'
        self.lines = open(self.path, encoding='utf-8').read().split('\n') if os.path.isfile(self.path) else []
        self.imported, self.passed_on, self.alias, self.places = {}, {}, {}, {}
        self.read_imports()
        self.read_definitions()

    def read_imports(self):
        use = r"^ *(pub )?use (Rattle(?:\.[\w'-]+)*)(?:\.\{([^}]*)\}| as (\S+))?"
        for public, module, names, alias in re.findall(use, '\n'.join(self.lines), re.M):
            if not names:
                self.alias[alias or module.split('.')[-1]] = module
                continue
            for name in re.split(r',\s*', names.strip()):
                there, _, here = name.strip().partition(' as ')
                self.imported[here or there] = (module, there)
                if public:
                    self.passed_on[here or there] = (module, there)

    def read_definitions(self):
        heads = self.heads()
        for at, (start, names) in enumerate(heads):
            end = heads[at + 1][0] if at + 1 < len(heads) else len(self.lines)
            first, last = start, end
            while first > 0 and self.lines[first - 1].strip().startswith('--'):
                first -= 1
            while last > start + 1 and self.is_no_part(self.lines[last - 1]):
                last -= 1
            for name in names:
                self.places[name] = (first, last, names[0])

    @staticmethod
    def is_no_part(line):
        return not line.strip() or line.strip().startswith('--') or re.match(r' *module ', line)

    def heads(self):
        """The line at which each definition begins, with the names that it declares."""
        heads, mutual = [], None
        for at, line in enumerate(self.lines):
            text = line.strip()
            if not text or text.startswith('--') or re.match(r'(pub )?use |module |pub mod|mod ', text):
                continue
            head = DEFINES.match(line)
            if head and head.group(2) == 'abbrev mutual':
                mutual = len(head.group(1))
                heads.append((at, []))
            elif head and mutual is not None and len(head.group(1)) > mutual:
                heads[-1][1].append(head.group(3))
            elif head and head.group(2) == 'pub' and heads and self.is_field(heads[-1][0], head):
                continue
            elif head:
                mutual = None
                heads.append((at, [head.group(3)]))
            else:
                self.add_plain(heads, at, line)
        return heads

    def is_field(self, start, head):
        opening = self.lines[start]
        return re.match(r'^ *(pub )?record', opening) and len(head.group(1)) > indent_of(opening)

    def add_plain(self, heads, at, line):
        """A lemma without a word before it, or a constructor of the data type above."""
        plain = re.match(r"^( *)([A-Za-z_][\w'-]*) : ", line)
        if not plain:
            return
        opening = self.lines[heads[-1][0]] if heads else ''
        if heads and re.match(r'^ *(pub )?data', opening) and len(plain.group(1)) > indent_of(opening):
            heads[-1][1].append(plain.group(2))
        elif not heads or len(plain.group(1)) <= indent_of(opening):
            heads.append((at, [plain.group(2)]))


FILES, TYPES = {}, {}


def file_of(module):
    if module not in FILES:
        FILES[module] = SpecsFile(module)
    return FILES[module]


def type_files(crate, path):
    own = f'{folder_of(crate)}/src/' + '/'.join(path) + '.rt'
    if os.path.isfile(own):
        return [own]
    return [os.path.join(root, it) for root, _, files in os.walk(f'{folder_of(crate)}/src') for it in files if it.endswith('.rt')]


def block_at(lines, start):
    end = start
    if not lines[start].rstrip().endswith((';', '}')):
        while lines[end] != '}':
            end += 1
    return lines[start:end + 1]


def type_text(node):
    """The file and the lines of a type in src/, with its `impl Model`."""
    if node not in TYPES:
        TYPES[node] = None
        for path in type_files(node.crate, node.path):
            lines = open(path, encoding='utf-8').read().split('\n')
            heads = [at for at, it in enumerate(lines) if re.match(rf'(pub(\(crate\))? )?(struct|enum|trait) {re.escape(node.name)}\b', it)]
            if not heads:
                continue
            start = heads[0]
            block = block_at(lines, start)
            while start > 0 and lines[start - 1].startswith(('///', '//', '#[')):
                start -= 1
                block.insert(0, lines[start])
            for at, it in enumerate(lines):
                if re.match(rf'impl.* Model for {re.escape(node.name)}\b', it):
                    block += block_at(lines, at)
            TYPES[node] = (path, block)
            break
    return TYPES[node]


def resolved(module, name, depth=0):
    """What a name of a module is."""
    if depth > 12:
        return Word(name)
    if '.specs.declared.' in module:
        _, crate, _, _, *path = module.split('.')
        path = [it for it in path if not it.startswith('The')]
        return Type(crate, tuple(path[:-1]), path[-1]) if path else Word(name)
    file = file_of(module)
    if name in file.places:
        return Definition(module, file.places[name][2])
    where = file.passed_on.get(name) or file.imported.get(name)
    return resolved(*where, depth + 1) if where else Word(name)


def names_in_definition(node):
    file = file_of(node.module)
    first, last, _ = file.places[node.name]
    body = '\n'.join(it for it in file.lines[first:last] if not it.strip().startswith('--'))
    for alias, name in re.findall(r"([A-Za-z_][\w'-]*)\.([A-Za-z_][\w'-]*)", body):
        if alias in file.alias:
            yield resolved(file.alias[alias], name)
    for word in set(WORD.findall(body)) | set(OPERATOR.findall(body)):
        if word in file.places:
            yield Definition(node.module, file.places[word][2])
        elif word in file.imported:
            yield resolved(*file.imported[word])


def uses_of(text):
    uses = {}
    for module, names in re.findall(r'^ *(?:ghost )?use ([\w:.]+?)(?:::|\.)\{([^}]*)\};', text, re.M):
        for name in names.split(','):
            there, _, here = name.strip().partition(' as ')
            uses[here or there] = (module, there)
    for module, name in re.findall(r'^use ([\w:]+)::(\w+);', text, re.M):
        uses[name] = (module, name)
    return uses


def names_in_type(node):
    found = type_text(node)
    if not found:
        return
    path, block = found
    text = open(path, encoding='utf-8').read()
    uses = uses_of(text)
    body = '\n'.join(re.sub(r'//.*', '', it) for it in block if not it.strip().startswith('#['))
    for word in set(WORD.findall(body)) - {node.name}:
        module, name = uses.get(word, (None, None))
        if module and module.startswith('Rattle'):
            yield resolved(module, name)
        elif module:
            crate = module.split('::')[0]
            crate = node.crate if crate in ('crate', 'super') else crate
            if is_own(crate):
                yield Type(crate, ('?',), name)
        elif word[0].isupper() and re.search(rf'(struct|enum) {word}\b', text):
            yield Type(node.crate, node.path, word)


def placed(node):
    """A type by the file in which it stands, so that it is counted once."""
    found = type_text(node) if isinstance(node, Type) else None
    if not found:
        return node
    path = os.path.relpath(found[0], folder_of(node.crate) + '/src')[:-3]
    return Type(node.crate, tuple(path.split('/')), node.name)


def reached(roots, left_out):
    seen, todo = set(), [placed(it) for it in roots]
    while todo:
        node = todo.pop()
        if node in seen or isinstance(node, Word):
            continue
        if isinstance(node, Definition) and (crate_of(node), node.name) in left_out:
            continue
        seen.add(node)
        if isinstance(node, Definition):
            todo += [placed(it) for it in names_in_definition(node)]
        elif is_own(node.crate):
            todo += [placed(it) for it in names_in_type(node)]
    return seen


def size_of(node):
    if isinstance(node, Definition):
        file = file_of(node.module)
        first, last, _ = file.places[node.name]
        lines, mark, path, at = file.lines[first:last], '--', file.path, first + 1
    else:
        found = type_text(node)
        if not found:
            return Size(0, 0, '?')
        path, lines = found
        mark, at = '//', 1
    texts = [it.strip() for it in lines if it.strip()]
    comments = sum(it.startswith(mark) for it in texts)
    passed = sum(bool(re.match(r'(pub )?use |module |ghost use', it)) for it in texts)
    return Size(len(texts) - comments - passed, comments, f'{os.path.relpath(path, TOP if is_own(crate_of(node)) else KIT)}:{at}')


def root(text):
    module, _, name = text.rpartition('.')
    crate, _, rest = module.partition('.')
    node = resolved(f'Rattle.{crate}.specs.{rest}', name)
    if isinstance(node, Word):
        sys.exit(f'trust_base.py: no definition {text}')
    return node


GRAMMARS = ['addr_text.Grammar.IsIpv4', 'addr_text.Grammar.IsIpv6', 'fffuu_run.Questions.AsksChain']
RUN = ['fffuu_run.Runs.IsStreamed', 'fw_io.Causes.Rose']
# The same clauses once more, where a source tells what is left and a sink what it holds.
TOLD = ['fffuu_run.Runs.IsRun']
STREAMS = [Type('fw_io', ('traits',), 'Source'), Type('fw_io', ('traits',), 'Sink')]
# What a measure of `run` leaves out, by crate: words of the command line, refusals and limits, other modes, and which bytes are written.
WORDS = {('request', 'Spells'), ('request', 'chain_in')}
REFUSALS = {('fffuu_run', it) for it in (
    'IsRefusedAs', 'RefusesModeIn', 'IsWithin', 'IsCheckOver', 'IsExplanationOver', 'IsClosingOver', 'IsFilterOver', 'IsLoadOver', 'IsMatrixOver', 'IsSpoofOver')}
OTHERS = {('fffuu_run', it) for it in ('Checks', 'Covers', 'Explanations', 'Loads', 'TellsRoutes', 'TellsZones')}
BYTES = {('fffuu_run', it) for it in ('simple_rules', 'matrix_text', 'verdict_line', 'ipv4_of', 'ipv6_of')} | {('spoof_check', 'IsShown'), ('dump_print', 'printed')}

MEASURES = {
    'filter': ('what a printed filter means', ['fffuu_run.Headline.IsFilterOf', *GRAMMARS], [], set()),
    'matrix': ('what a printed matrix means', ['service_matrix.Matrices.IsMatrix', 'service_matrix.Matrices.IsCoarsest',
               'service_matrix.Services.Edge', 'service_matrix.Services.HoldsOfAllNames', *GRAMMARS], [], set()),
    'spoof': ('what a verdict on forged sources means', ['spoof_check.Verdicts.IsRight', 'spoof_check.Verdicts.HoldsWhole', *GRAMMARS], [], set()),
    'headline': ('all three as clauses of `run`', RUN, STREAMS, OTHERS | BYTES | REFUSALS | WORDS),
    'words': ('the same with the words of the command line', RUN, STREAMS, OTHERS | BYTES | REFUSALS),
    'bytes': ('all modes, with the bytes that are written', RUN, STREAMS, REFUSALS),
    'all': ('all that the contract of `run` cites, with each refusal and each line on standard error', RUN + TOLD + [
        'request.Requests.Spells', 'fffuu_run.Lines.line_of', 'fffuu_run.Runs.IsRead', 'fffuu_run.Runs.IsStatusOf',
        'fffuu_run.Runs.Devices', 'fffuu_run.Runs.WritesLine', 'fffuu_run.Runs.Writes', 'request.Requests.chain_in'], STREAMS, set()),
}


def sizes(measure):
    _, names, types, left_out = MEASURES[measure]
    nodes = reached([root(it) for it in names] + types, left_out)
    return {node: size_of(node) for node in nodes}


def table():
    rows = ['| measure | what has to be believed | definitions | lines | of the toolchain |', '|---|---|---|---|---|']
    for measure, (title, *_) in MEASURES.items():
        found = sizes(measure)
        own = [size.code for node, size in found.items() if is_own(crate_of(node))]
        kit = [size.code for node, size in found.items() if not is_own(crate_of(node))]
        rows.append(f'| `{measure}` | {title} | {len(own)} | {sum(own):,} | {sum(kit):,} |')
    return '\n'.join(rows)


def print_measure(measure):
    found = sizes(measure)
    for node, size in sorted(found.items(), key=lambda it: it[1].place):
        print(f'{size.code:4} {size.comments:3} {node.name:28} {size.place}')
    per_crate = collections.Counter()
    for node, size in found.items():
        per_crate[crate_of(node)] += size.code
    print(', '.join(f'{crate} {lines}' for crate, lines in per_crate.most_common()))


def main():
    parser = argparse.ArgumentParser(description='Counts the definitions that a reader has to believe.')
    parser.add_argument('--list', choices=MEASURES)
    parser.add_argument('--check', metavar='FILE')
    words = parser.parse_args()
    if words.list:
        print_measure(words.list)
    elif words.check:
        if table() not in open(words.check, encoding='utf-8').read():
            print(table())
            sys.exit(f'trust_base.py: the table in {words.check} is another one')
    else:
        print(table())


if __name__ == '__main__':
    main()
