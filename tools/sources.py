"""What the tools read of the tree, from its text alone: the functions and items of src/, what specs/ and proofs/ declare.

A comment and what stands in a string are read as blanks: a name that only they have is not there. Places in a file stay what they are.
"""
import re
from typing import NamedTuple

# comments and strings; in antt `a--b` is a name, and `--` begins a comment only where a word begins
RT = re.compile(r'//[^\n]*|(?P<open>/\*)|b?"(?:\\.|[^"\\])*"|b?\'(?:\\[^\'\n]+|[^\\\'\n])\'', re.S)
ANTT = re.compile(r'(?<![^\s(){}.;,@"«»])--[^\n]*|(?P<open>\{-)|"(?:\\.|[^"\\])*"', re.S)
BLOCKS = {'/*': re.compile(r'/\*|\*/'), '{-': re.compile(r'\{-|-\}')}

SCOPE = re.compile(r'''
    \bmod \s+ (?P<mod>\w+) \s* (?=\{)
  | \bimpl\b (?P<impl>[^{;]*) (?=\{)
  | (?<![\w.]) (?P<seen> pub (?:\s*\([^)]*\))? \s+)?
    (?: (?P<fn> (?:(?:const|unsafe|extern)\s+)* fn) | (?P<item> struct|enum|trait|const|static|type|mod (?!\s+\w+\s*\{)) ) \s+ (?P<name>\w+)
''', re.X)
CLAUSE = re.compile(r'\s*(?P<kind>[a-z]+)\*?(?:\s+\w+:?)?\s*(?=\{)')
CLAUSES = ('ghost', 'requires', 'ensures', 'measure')
RESULT = re.compile(r'(?:\[[^\]]*\]|[^{;\[])*?(?=\b(?:%s)\*?(?:\s+\w+:?)?\s*\{|[{;]|$)' % '|'.join(CLAUSES))
INNER = re.compile(r'\([^(){}<>\[\]]*\)|\{[^(){}<>\[\]]*\}|<[^(){}<>\[\]]*>|\[[^(){}<>\[\]]*\]')
PART = re.compile(r'\s*#?\s*(?:pub\s+)?(\w+)')

NAME = r'[^\s(){}.;,@"=:]\S*'
DECLARED = re.compile(rf'^ *(?P<marks>(?:(?:abbrev|unfoldable|axiom|pub) +)*)(?P<names>{NAME}(?: +{NAME})*) +:(?= |$)')
MODULE = re.compile(r' *(?:pub +)?module ')
BLOCK = re.compile(r'^ *(?P<marks>(?:pub +)?)(?:record|data) +(?P<name>[^\s({]+)')


class Function(NamedTuple):
    crate: str
    path: tuple     # its modules, and the type whose method it is
    name: str
    file: object
    line: int
    public: bool    # `pub`, and not `pub(crate)`
    clauses: tuple  # of its contract, in order


class Item(NamedTuple):
    crate: str
    path: tuple
    name: str


class Declared(NamedTuple):
    name: str
    line: int
    public: bool
    of: str         # the record or data type that it is a part of, or nothing
    type: str       # in one line


def blanks(text):
    """As many blanks as the text has characters, its lines kept."""
    return re.sub(r'[^\n]', ' ', text)


def block_end(text, at, marks):
    """Where the comment that opens at `at` ends: such comments nest."""
    depth = 0
    for m in marks.finditer(text, at):
        depth += 1 if m.group() in BLOCKS else -1
        if depth == 0:
            return m.end()
    return len(text)


def bare(text, tokens):
    """The text with blanks for its comments and for what its strings hold."""
    parts, at = [], 0
    while True:
        m = tokens.search(text, at)
        if not m:
            return ''.join(parts) + text[at:]
        end = block_end(text, m.start(), BLOCKS[m.group('open')]) if m.group('open') else m.end()
        parts += [text[at:m.start()], blanks(text[m.start():end])]
        at = end


def code(file):
    """The bare text of a file of src/, specs/ or proofs/."""
    return bare(file.read_text(), RT if file.suffix == '.rt' else ANTT)


def crates(root):
    """The folders of the crates."""
    return sorted(folder for folder in (root / 'crates').glob('*') if folder.is_dir())


def is_program(crate):
    return (crate / 'src' / 'main.rt').exists()


def listed(root):
    """The crates that crates.txt lists: of each whether it is a static library, and the libraries that it uses."""
    found = {}
    for line in (root / 'crates.txt').read_text().splitlines():
        name, _, uses = line.split('#')[0].partition(':')
        if name.strip():
            found[name.split()[0]] = ('staticlib' in name.split(), uses.split())
    return found


def is_static(root, crate):
    """Whether a crate is a static library, which no other crate can use or speak of."""
    return (root / 'crates.txt').exists() and listed(root).get(crate.name, (False,))[0]


def closing(text, at, pair='{}'):
    """The place past the bracket that closes the one at `at`."""
    depth = 0
    for i in range(at, len(text)):
        depth += (text[i] == pair[0]) - (text[i] == pair[1])
        if depth == 0:
            return i + 1
    return len(text)


def written(text, at):
    """The clauses between a function's name, which ends at `at`, and its body, each by its kind and what its braces hold; and where the body begins."""
    at = closing(text, text.find('(', at), '()')
    at = RESULT.match(text, at).end()
    found = []
    while (m := CLAUSE.match(text, at)) and m.group('kind') in CLAUSES:
        at = closing(text, m.end())
        found.append((m.group('kind'), ' '.join(text[m.end() + 1:at - 1].split())))
    return found, at


def clauses(text, at):
    """The kinds of clause of a function whose name ends at `at`; and where its body begins."""
    found, at = written(text, at)
    return tuple(kind for kind, _ in found), at


def module_of(crate, file):
    """The module path of a file of src/: lib.rt, main.rt and mod.rt are the crate's or the folder's own."""
    words = file.relative_to(crate / 'src').with_suffix('').parts
    return words[:-1] if words[-1] in ('lib', 'main', 'mod') else words


def type_of(impl):
    """The type that an `impl` is of."""
    return re.findall(r'\w+', re.sub(r'<[^<>]*>', '', impl.split(' where ')[0]))[-1]


def parts_of(text, at):
    """The names of a struct's fields or of an enum's cases, where it opens with a brace after `at`."""
    opened = re.compile(r'[^{;(]*\{').match(text, at)
    body = text[opened.end():closing(text, opened.end() - 1) - 1] if opened else ''
    while INNER.search(body):
        body = INNER.sub('', body)
    return [m.group(1) for part in body.split(',') if (m := PART.match(part))]


def read_source(crate, file):
    """The functions of a file of src/, and its other items: structs and enums with their parts, constants, modules."""
    text, at = code(file), 0
    scopes = [(word, None) for word in module_of(crate, file)]     # a name, and where its brace closes
    functions, items = [], []
    while m := SCOPE.search(text, at):
        at = m.end()
        scopes = [scope for scope in scopes if scope[1] is None or m.start() < scope[1]]
        path = tuple(scope[0] for scope in scopes)
        if m.group('mod') or m.group('impl'):
            scopes.append((m.group('mod') or type_of(m.group('impl')), closing(text, at)))
            items += [Item(crate.name, path, m.group('mod'))] if m.group('mod') else []
        elif m.group('fn'):
            kinds, at = clauses(text, at)
            line = text.count('\n', 0, m.start('name')) + 1
            public = (m.group('seen') or '').strip() == 'pub'
            functions.append(Function(crate.name, path, m.group('name'), file, line, public, kinds))
            at = closing(text, at) if text[at:].lstrip()[:1] == '{' else at
        elif m.group('item'):
            items.append(Item(crate.name, path, m.group('name')))
            if m.group('item') in ('struct', 'enum'):
                items += [Item(crate.name, path + (m.group('name'),), name) for name in parts_of(text, at)]
    return functions, items


def functions(root, programs=True):
    """The functions of all crates, or of those that are no programs and no static libraries."""
    return [f for crate in crates(root) if programs or not (is_program(crate) or is_static(root, crate))
            for file in sorted(crate.glob('src/**/*.rt')) for f in read_source(crate, file)[0]]


def items(root):
    """The other items of all crates."""
    return [i for crate in crates(root) for file in sorted(crate.glob('src/**/*.rt')) for i in read_source(crate, file)[1]]


def indent(line):
    return len(line) - len(line.lstrip(' '))


def type_at(lines, k):
    """The type of the declaration at line k, in one line: what follows its colon, with the lines that stand further in."""
    first = lines[k].split(' :', 1)[1]
    more = []
    for line in lines[k + 1:]:
        if line.strip() and indent(line) <= indent(lines[k]):
            break
        more.append(line)
    return ' '.join(' '.join([first, *more]).split())


def own_lines(lines):
    """Whether each line stands where the file or a module of it declares: the lines of a type, of a proof and of a `where` stand further in."""
    levels, opened = [0], ''
    for line in lines:
        if not line.strip():
            yield False
            continue
        if opened == 'body':
            levels.append(indent(line))
            opened = ''
        while indent(line) < levels[-1]:
            levels.pop()
        yield indent(line) == levels[-1]
        if MODULE.match(line) and indent(line) == levels[-1]:
            opened = 'head'
        if opened and line.rstrip().endswith(' where'):
            opened = 'body'


def declarations(file):
    """What a file of specs/ or proofs/ declares, the fields of its records and the cases of its data types among it."""
    lines = code(file).splitlines()
    found, block, depth = [], None, None     # the record that is open, where it stands, and where its fields do
    for k, (line, own) in enumerate(zip(lines, own_lines(lines))):
        if own:
            block, depth = BLOCK.match(line), None
            if block:
                found.append(Declared(block.group('name'), k + 1, 'pub' in block.group('marks'), '', ''))
                continue
        elif block and line.strip() and depth is None:
            depth = indent(line)
        m = DECLARED.match(line)
        if m and (own or block and indent(line) == depth):
            of = block.group('name') if block else ''
            found += [Declared(name.strip('«»'), k + 1, 'pub' in m.group('marks'), of, type_at(lines, k)) for name in m.group('names').split()]
    return found
