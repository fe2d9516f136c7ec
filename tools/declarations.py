"""What stands in a crate's files, for the scripts beside this one: the declarations of an antt file,
the functions, types, impls and traits of a Rattle file, and the files of a commit.

Comments, blank lines, imports and layout do not count: two texts are the same where their words are.
"""
import io
import pathlib
import re
import subprocess
import tarfile

TOP = pathlib.Path(__file__).resolve().parent.parent

DECLARATION = re.compile(r'(?P<kind>abbrev |unfoldable )?(?:pub )?(?P<shape>data |record )?(?P<name>[^\s({]+)(?P<rest>.*)$')
FUNCTION = re.compile(r'^[ \t]*(?P<public>pub )?(?:extern "C" )?fn (?P<name>\w+)', re.M)
BLOCK = re.compile(r'^(?:pub )?(?P<word>impl|trait)\b(?P<head>[^{;]*) \{(?P<text>.*?)^\}', re.M | re.S)
GHOST = re.compile(r'^ +ghost (?P<name>\w+)(?P<sign> =|:) \{(?P<text>.*?)\};$', re.M | re.S)
TYPE = re.compile(r'^(?:pub )?(?:struct|enum) (?P<name>\w+)[^{;]*\{[^}]*(?:\{[^}]*\}[^}]*)*\}', re.M)
IMPORT = re.compile(r'^\s*(?:(?:ghost |pub )?use |(?:pub )?mod )')


def files(revision):
    """The text of every file of a commit below crates/, by its path; of the working tree for '.'."""
    if revision == '.':
        folders = [folder for part in ('src', 'specs', 'proofs') for folder in TOP.glob(f'crates/*/{part}')]
        found = {str(p.relative_to(TOP)): p for folder in folders for p in folder.glob('**/*') if p.suffix in ('.antt', '.rt')}
        return {path: p.read_text() for path, p in found.items()}
    tar = subprocess.run(['git', '-C', TOP, 'archive', revision, 'crates'], stdout=subprocess.PIPE, check=True).stdout
    with tarfile.open(fileobj=io.BytesIO(tar)) as archive:
        return {m.name: archive.extractfile(m).read().decode() for m in archive if m.name.endswith(('.antt', '.rt'))}


def words(lines):
    """A text without layout."""
    return ' '.join(' '.join(lines).split())


class Declaration:
    """A definition or a law: `says` is its type (all of a definition), `proof` the rest of a law."""

    def __init__(self, name, is_definition, within):
        self.name, self.is_definition, self.within = name, is_definition, within
        self.lines, self.typed = [], None

    def add(self, line, at_margin):
        if at_margin and self.lines and self.typed is None:
            self.typed = len(self.lines)
        self.lines.append(line)

    @property
    def says(self):
        upto = len(self.lines) if self.is_definition else self.typed
        return words([self.within] + self.lines[:upto])

    @property
    def text(self):
        return words([self.within] + self.lines)


def starts(line):
    """The declaration that a line at the margin begins, or None: a clause of the one above, an import or a rule set."""
    found = DECLARATION.match(line)
    if found and (found['shape'] or re.match(r' :(?: |$)', found['rest'])):
        return found


def declarations(text):
    """The declarations of an antt file, in order, those of its modules too."""
    found, current, within, margin = [], None, '', 0
    for line in text.splitlines():
        line = re.sub(r'(?:^|\s)--(?: .*)?$', '', line).rstrip()
        if not line or IMPORT.match(line) or re.match(r'(?:infix[lr]?|ruleset) ', line):
            continue
        indent = len(line) - len(line.lstrip())
        if indent == 0:
            margin, within = 0, ''
            if line.startswith('module '):
                margin, within, current = 2, line, None
                continue
        if indent == margin and starts(line.strip()):
            head = starts(line.strip())
            current = Declaration(head['name'], bool(head['kind'] or head['shape']), within)
            found.append(current)
            current.lines.append(line)
        elif current is None:
            within = words([within, line])
        else:
            current.add(line, indent == margin)
    return found


class Function:
    """A Rattle function: its contract (signature, requires, ensures) and its body."""

    def __init__(self, name, public, contract, body):
        self.name, self.public, self.contract, self.body = name, public, contract, body


def uncommented(text):
    return re.sub(r'//[^\n]*', lambda m: ' ' * len(m.group()), text)


def body_at(text, start):
    """Where a function's body begins: the first brace that opens no clause of its contract, or the semicolon where a trait
    leaves the body to its impls."""
    at, depth, brackets = start, 0, 0
    while at < len(text):
        if text[at] == '{':
            if depth == 0 and not re.search(r'(?:requires|ensures)\*?(?:\s+\w+)?\s*$', text[start:at]):
                break
            depth += 1
        elif text[at] == '}':
            depth -= 1
        elif depth == 0:
            if text[at] == ';' and brackets == 0:
                break
            brackets += {'[': 1, ']': -1}.get(text[at], 0)
        at += 1
    return at


def functions(text):
    """The functions of a Rattle file, in order."""
    text = uncommented(text)
    found = []
    for head in FUNCTION.finditer(text):
        begin = body_at(text, head.end())
        end, depth = begin, 0
        while end < len(text) and text[begin] == '{':
            depth += {'{': 1, '}': -1}.get(text[end], 0)
            end += 1
            if depth == 0:
                break
        found.append(Function(head['name'], bool(head['public']), words([text[head.start():begin]]), text[begin:end]))
    return found


def plain(type_):
    """A type or a trait without its parameters and its bounds."""
    while re.search(r'<[^<>]*>', type_):
        type_ = re.sub(r'<[^<>]*>', '', type_)
    return type_.split(':')[0].strip()


class Block:
    """An impl or a trait: its type, the trait that it implements, what it gives for the trait's ghost members, and those that
    a trait asks for, the laws among them."""

    def __init__(self, found):
        trait, _, type_ = found['head'].rpartition(' for ')
        self.begin, self.end, self.is_trait = found.start(), found.end(), found['word'] == 'trait'
        self.head, self.type, self.trait = words([found['word'] + found['head']]), plain(type_), plain(trait)
        members = list(GHOST.finditer(found['text']))
        self.ghosts = {m['name']: words([m['text']]) for m in members if m['sign'] == ' ='}
        self.asks = {m['name']: words([m['text']]) for m in members if m['sign'] == ':'}


def blocks(text):
    """The impls and traits of a file."""
    return [Block(found) for found in BLOCK.finditer(text)]


def types(text):
    """The structs and enums of a Rattle file, by name."""
    return {m['name']: words([m.group()]) for m in TYPE.finditer(uncommented(text))}
