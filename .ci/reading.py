"""How the gate's scripts read: Rattle's files, antt's files, and what documents name. Nothing here judges."""
import os
import pathlib
import re

PROMISES = 'docs/PROMISES.md'
KIT = {'std', 'core', 'check'}
ENDINGS = ('.rt', '.antt', '.edit', '.md', '.rs', '.h', '.c', '.txt', '.toml')


def blanked(pattern, text, flags=0):
    """The text with each match blanked, every other character and every line where it was."""
    return re.sub(pattern, lambda m: re.sub(r'[^\n]', ' ', m.group()), text, flags=flags)


def line_at(text, place):
    return text.count('\n', 0, place) + 1


# ---- Rattle

class Item:
    """A function, type, constant or module of a crate. Its path is modules, then the trait or the type of an `impl`, then its name."""

    def __init__(self, crate, file, line, kind, path, public=False, exported=False, method=False, signature='', contract=(), body='', end=0, block=None):
        self.crate, self.file, self.line, self.kind, self.path = crate, file, line, kind, path
        # Of a method: the trait that declares it or that its `impl` is of, and what is said there of the trait's ghost members. What states its
        # contract is itself, or that trait's own.
        self.trait, self.ghosts, self.declares = (block.trait, block.ghosts, block.kind == 'trait') if block else ('', {}, False)
        self.stated = self
        self.public, self.exported, self.method, self.contract = public, exported, method, contract
        self.body, self.end = body, end
        self.parameters = re.findall(r'\bself\b|\b\w+(?=\s*:(?!:))', signature)
        self.written = [a or b for a, b in re.findall(r"\b(\w+)\s*:\s*&(?:'\w+\s+)?mut\b|&(?:'\w+\s+)?mut\s+(self)\b", signature)]
        self.hands_back = '->' in signature
        self.streams = re.search(r'\bimpl \(?(?:Read|Write|Print|Eprint)\b', signature) is not None
        self.name = '::'.join((crate,) + path)
        # as `rattle` names it, and the folders in which its proof can stand, from its crate
        self.called = '::'.join((crate, *path[:-2], block.called, path[-1])) if self.trait and not self.declares else self.name
        _, *above, last = self.called.split('::')
        self.folders = ['/'.join(('proofs', *above, start + last)) for start in ('', '+')]

    def answers(self, mention):
        """A mention leaves modules out at will, but never the type of a method."""
        crate, *tail = mention.split('::')
        return crate == self.crate and list(self.path[-len(tail):]) == tail and len(tail) >= (2 if self.method else 1)


class Block:
    """A trait, an `impl` or a module with its items, by the name that these have it under; or any other braces."""

    def __init__(self, kind='', public=False, taken='', head='', inside=''):
        self.kind, self.public = kind, public
        first, _, of = (part.strip() for part in re.split(r'\bwhere\b', head)[0].partition(' for '))
        self.name = last_name(of or first) or {'(': 'unit', '[': 'array'}.get(of[:1], '')
        self.trait = last_name(first) if kind == 'trait' or kind == 'impl' and of else ''
        # (the type, then the trait, and of each what it is applied to, but for what the `impl` takes)
        words = re.findall(r"(?<!')\b\w+\b(?!\s*::)", f'{"" if last_name(of) else self.name} {of} {first}')
        self.called = ''.join(word[:1].upper() + word[1:] for word in words if word not in re.findall(r'(?:^|,)\s*(?:const\s+)?(\w+)', taken))
        self.ghosts = {name: body or '' for name, body in re.findall(r'\bghost\s+(\w+)\s*(?::|=\s*\{((?:[^{}]|\{[^{}]*\})*)\})', inside)} if self.trait else {}


def last_name(text):
    """The name that a text begins with, without the modules before it."""
    return re.match(r'(?:\w+::)*(\w*)', text)[1]


TOKEN = re.compile(
    r'(?P<shown>\bpub\s+)?\b(?P<block>impl|mod|trait)\b(?:\s*<(?P<taken>(?:[^<>{}]|<[^<>{}]*>)*)>)?\s+(?P<head>(?:[^{};\[\]]|\[[^\]]*\])*)\{'
    r'|(?P<pub>\bpub\s+)?(?P<extern>\bextern\s+)?\bfn\s+(?P<fn>\w+)'
    r'|(?P<open>\bpub\s+)?\b(?P<kind>struct|enum|const|type|mod)\s+(?P<item>\w+)'
    r'|[{}]')


def code(text):
    """Rattle without comments and literals."""
    return blanked(r'//[^\n]*|b?"(?:\\.|[^"\\])*"' + r"|b?'(?:\\x..|\\.|[^'\\\n])'", text)


def closing(text, at):
    """Where the brace that opens at `at` is closed."""
    depth = 0
    for m in re.compile(r'[{}]').finditer(text, at):
        depth += 1 if m.group() == '{' else -1
        if depth == 0:
            return m.end()
    return len(text)


def contract_after(text, at):
    """What follows a function's name up to its clauses, these as (word, line, text), and where its body begins, or a line ends that stands for
    none. A starred clause keeps its star."""
    signature, clauses = '', []
    while (brace := text.find('{', at)) >= 0:
        ends = blanked(r'\[(?:[^\[\]]|\[(?:[^\[\]]|\[[^\[\]]*\])*\])*\]', text[at:brace]).find(';')
        if ends >= 0:
            return signature or text[at:at + ends], clauses, at + ends
        word = re.search(r'\b(?:requires|ensures)\b\*?', text[at:brace])
        signature = signature or text[at:at + word.start() if word else brace]
        if not word:
            return signature, clauses, brace
        end = closing(text, brace)
        clauses.append((word.group(), line_at(text, at + word.start()), text[brace:end]))
        at = end
    return signature, clauses, len(text)


def items(crate, file, text):
    """The items of one file, with the modules and the `impl` that they stand in."""
    text = code(text)
    inside = pathlib.PurePosixPath(file).relative_to(f'crates/{crate}/src').with_suffix('').parts
    modules = tuple(part for part in inside if part not in ('lib', 'main', 'mod'))
    owners, at, found = [], 0, []
    while m := TOKEN.search(text, at):
        at = m.end()
        path = modules + tuple(block.name for block in owners if block.name)
        line = line_at(text, m.start())
        if m['block']:
            owners.append(Block(m['block'], bool(m['shown']), m['taken'] or '', m['head'], text[at:closing(text, at - 1)]))
        elif m['fn']:
            signature, contract, at = contract_after(text, at)
            block = next((block for block in reversed(owners) if block.kind in ('impl', 'trait')), None)
            public, exported = bool(m['pub'] or block and block.kind == 'trait' and block.public), bool(m['pub'] and m['extern'])
            end = closing(text, at) if text[at] == '{' else at
            found.append(Item(crate, file, line, 'fn', path + (m['fn'],), public, exported, bool(block), signature, contract, text[at:end], line_at(text, end), block))
        elif m['item']:
            found.append(Item(crate, file, line, m['kind'], path + (m['item'],), bool(m['open'])))
        elif m.group() == '{':
            owners.append(Block())
        elif owners:
            owners.pop()
    return found


# ---- must-fail edits

def pairs(text):
    """The pairs of an edit, as (line, file, old text, new text)."""
    file, old = '', ''
    for n, line in enumerate(text.split('\n'), 1):
        if line.startswith('file: '):
            file = line[6:]
        elif line.startswith('old: '):
            old = line[5:]
        elif line.startswith('new:'):
            yield n, file, old, line[4:].removeprefix(' ')
            old = ''


# ---- antt

def used(text):
    """What a file takes from others, by the name that it gives it."""
    taken = [(path, *name.split(' as ')) for path, names in re.findall(r'\buse\s+(\S+)\.\{([^}]*)\}', text) for name in re.split(r',\s*', names.strip())]
    return {name[-1]: f'{path}.{name[0]}' for path, *name in taken}


def theorem(text, name):
    """The parameters of the module that a name is declared in, and its type."""
    outside = ''
    for m in re.finditer(r'^module _ (.*) where$|^( *)(?:pub )?(\S+) :((?:.*\n)(?:\2 +\S.*\n)*)', text, re.M):
        outside = m[1] or outside
        if m[3] == name:
            return (outside if m[2] else '', m[4])
    return '', ''


def declared(text):
    """The names that an .antt file declares at its own level or at that of a `module _`."""
    names, levels, opens = set(), [0], False
    for line in text.split('\n'):
        if not line.strip() or line.lstrip().startswith('--'):
            continue
        indent = len(line) - len(line.lstrip(' '))
        if opens and indent > levels[-1]:
            levels.append(indent)
        while indent < levels[-1]:
            levels.pop()
        opens = indent == levels[-1] and line.lstrip().startswith('module ')
        m = re.match(r' *(?:(?:unfoldable|abbrev|pub)\s+)*(?:(?:record|data)\s+(\S+)|(\S+)\s+:(?:\s|$))', line)
        if m and indent == levels[-1]:
            names.add(m[1] or m[2])
    return names


# ---- documents

def spans(text):
    """What stands in backquotes, as (text, line, what stands between it and the one before). Fenced blocks are pictures."""
    text = blanked(r'^```.*?^```', text, re.M | re.S)
    end = 0
    for m in re.finditer(r'`([^`\n]+)`', text):
        yield m[1], line_at(text, m.start()), text[end:m.start()]
        end = m.end()


def is_path(word):
    return ' ' not in word and '://' not in word and ('/' in word or word.endswith(ENDINGS))


def is_mention(word):
    return re.fullmatch(r'[a-z_]\w*(::\w+)+', word) is not None and word.split('::')[0] not in KIT


def named(text):
    """What a document names, as (kind, word, line, file). A name belongs to the file that it follows: `File.antt`: `name`, `name`."""
    file = ''
    for word, line, between in spans(text):
        if is_path(word):
            file = word if word.endswith(('.antt', '.rt')) and '*' not in word else ''
            yield 'path', word, line, ''
        elif is_mention(word):
            file = ''
            yield 'function', word, line, ''
        elif file and re.fullmatch(r':\s+|,\s+(?:and\s+)?|\s+and\s+', between):
            yield 'name', word, line, file
        else:
            file = ''


def rows(text):
    """The rows of a document's tables whose first cell names functions, as (those functions, line)."""
    for line, row in enumerate(text.split('\n'), 1):
        cells = row.split('|')
        functions = [w for w, _, _ in spans(cells[1]) if is_mention(w)] if row.startswith('|') and len(cells) > 2 else []
        if functions:
            yield functions, line


# ---- all of it

class Repository:
    """The files as they stand, what was found in them, and what is wrong with them."""

    def __init__(self, root):
        self.root = pathlib.Path(root).resolve()
        self.faults, self.notes, self.references, self.texts = [], [], 0, {}
        self.crates = sorted(p.name for p in self.root.glob('crates/*') if p.is_dir())
        sources = [(c, f) for c in self.crates for f in self.files('.rt') if f.startswith(f'crates/{c}/src/')]
        self.items = [item for crate, file in sources for item in items(crate, file, self.text(file))]
        self.functions = [i for i in self.items if i.kind == 'fn' and i.public]
        # A method of an `impl` keeps the contract of its trait, where that is one of these crates'.
        told = {(i.trait, i.path[-1]): i for i in self.functions if i.declares}
        self.inherited = [i for i in self.items if i.kind == 'fn' and i.trait and not i.declares and (i.trait, i.path[-1]) in told]
        for i in self.inherited:
            i.stated = told[i.trait, i.path[-1]]
            i.contract = i.stated.contract

    def fault(self, file, line, what):
        self.faults.append((file, line, what))

    def text(self, file):
        """What a file holds; a file that is not there holds nothing."""
        if file not in self.texts:
            path = self.root / file
            self.texts[file] = path.read_text(encoding='utf-8', errors='replace') if path.is_file() else ''
        return self.texts[file]

    def files(self, *endings):
        """The project's own files with one of these endings, as paths from the root."""
        for folder, inner, names in os.walk(self.root):
            inner[:] = sorted(d for d in inner if d not in ('.git', 'out', 'target'))
            for name in sorted(names):
                if name.endswith(endings):
                    yield (pathlib.Path(folder) / name).relative_to(self.root).as_posix()
