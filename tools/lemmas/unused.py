"""Refuses definitions and lemmas that nothing cites, and runs of lines that stand twice: in a crate, or in a crate and one that it stands on.

    python3 tools/lemmas/unused.py            # what allowed.txt doesn't allow: status 1 where there is any
    python3 tools/lemmas/unused.py --all      # also what it allows

A declaration is cited if its name is reached, by imports and names, from a source (contracts, `using(..)`), from the answers at the goals of a function,
from an example (a statement without variables is one), or from a document or tool that names it. Of a type its constructors count too, of a record not its
fields. What only cites itself is cited by nothing. Names that a file has twice may hide one that is dead; none is called dead that is needed.

Twins are runs of at least MOST lines that are equal but for blanks at their ends; comments, imports and empty lines aren't counted, nor is a table that
tools/rules writes, up to the next empty line.

`tools/lemmas/allowed.txt` lists what is allowed, with the reason: `dead FILE NAME ..: reason`, and for the twins of two files, whose lines are added up,
`twin FILE FILE LINES: reason`. A line there that allows more than there is is refused too, so the list only gets shorter.
"""
import collections
import itertools
import re
import sys

from lemmas import ANSWERS, TOP, crates_in_order, has_examples

# The lines of a run that is called a twin.
MOST = 8
ALLOWED = 'tools/lemmas/allowed.txt'
# What a comment says of a table that is made.
MADE = 'tools/rules writes'
NAME = re.compile(r'[^\s(){}\[\],;.@"]+')
WHOLE = re.compile(r'(Rattle(?:\.\w+)+)\.([^\s(){}\[\],;.@"]+)')
IMPORT = re.compile(r'^\s*(pub )?(?:ghost )?use ([^\s;{]+?)(?:\.?\{([^}]*)\})?(?: as ([^\s;]+))?;?\s*$')
CONTAINER = re.compile(r'(?:module\b.*|(?:(?:abbrev|unfoldable) )?mutual)')
HEAD = re.compile(r'(?:(?:pub|abbrev|unfoldable) )*(data|record|ruleset) (\S+)')
SIGNATURE = re.compile(r'(?:(?:pub|abbrev|unfoldable) )*(\S+)(?: \{[^}]*\})* : ')
MEMBER = re.compile(r'\s+(?:pub )?((?:[^\s:(){}]+ )+): ')


class Module:
    """A file of definitions or lemmas: its declarations by name, what they cite, and what it imports."""

    def __init__(self, path):
        self.path, self.text = path, path.read_text(encoding='utf-8')
        self.imports, self.aliases, self.exports, self.members = {}, [], {}, {}
        self.cites, self.types, self.examples, self.heads = collections.defaultdict(set), set(), set(), set()
        self.read()

    def read(self):
        current, level, headers, is_head = None, 0, [], False
        for line in self.text.split('\n'):
            if line.strip().startswith('--') or not line.strip():
                continue
            found = IMPORT.match(line)
            if found and ' : ' not in line:
                self.add_import(*found.groups())
                continue
            if is_head:
                headers[-1][1].update(NAME.findall(line))
                is_head = not line.rstrip().endswith('where')
                continue
            indent = len(line) - len(line.lstrip())
            headers = [it for it in headers if it[0] < indent]
            if headers and headers[-1][2] is None:
                headers[-1][2] = indent
            level = headers[-1][2] if headers else 0
            if indent == level and CONTAINER.fullmatch(line.strip()):
                headers.append([indent, set(NAME.findall(line)), None])
                # (the head of a section may take several lines)
                is_head = line.strip().startswith('module') and not line.rstrip().endswith('where')
                current = None
                continue
            if indent == level:
                current = self.declared(line.strip()) or current
            if current:
                self.cites[current].update(NAME.findall(line), WHOLE.findall(line), *[it[1] for it in headers])
                if level < indent and line.strip().startswith('≡') and current in self.heads:
                    self.examples.add(current)
                self.heads.discard(current if indent > level else None)
                member = MEMBER.match(line) if indent > level and current in self.types else None
                self.members.update({it: current for it in member[1].split()} if member else {})

    def declared(self, line):
        head, signature = HEAD.match(line), SIGNATURE.match(line)
        if head:
            self.types.update([head[2]] if head[1] == 'data' else [])
            return head[2]
        if signature:
            if '→' not in line:
                (self.examples if '≡' in line else self.heads).add(signature[1])
            return signature[1]
        first = NAME.match(line)
        return first[0] if first and first[0] in self.cites else None

    def add_import(self, is_pub, place, names, alias):
        if names is None:
            self.aliases.append(place)
            return
        for it in filter(None, map(str.strip, names.split(','))):
            name, _, other = it.partition(' as ')
            (self.exports if is_pub else self.imports)[other or name] = (place, name)
            self.imports[other or name] = (place, name)


class Repository:
    def __init__(self):
        self.crates = crates_in_order()
        self.modules = {}
        for crate in self.crates:
            for part in ('specs', 'proofs'):
                top = TOP / 'crates' / crate / part
                for path in sorted(top.glob('**/*.antt')):
                    if path.name != 'Lib.antt':
                        inner = '.'.join(path.relative_to(top).with_suffix('').parts)
                        self.modules[f'Rattle.{crate}.{part}.{inner}'] = Module(path)
        self.by_name = collections.defaultdict(list)
        for place, module in self.modules.items():
            for it in [*module.cites, *module.members]:
                self.by_name[it].append(place)
        self.live, self.waiting = set(), []

    def reach(self, place, name):
        """The declaration of this name in the module, or that it hands on, is cited."""
        module = self.modules.get(place)
        if module is None:
            return
        found = name if name in module.cites else module.members.get(name)
        if found and (place, found) not in self.live:
            self.live.add((place, found))
            self.waiting.append((place, found))
        if name in module.exports:
            self.reach(*module.exports[name])

    def reach_all(self, place, names):
        """What these words of a module mean."""
        module = self.modules[place]
        wholes = [it for it in module.aliases if it in self.modules]
        for it in names:
            if isinstance(it, tuple):
                self.reach(*it)
                continue
            if it in module.imports:
                self.reach(*module.imports[it])
            self.reach(place, it)
            for whole in wholes:
                self.reach(whole, it)
        for it in module.aliases:
            above, _, name = it.rpartition('.')
            if name in names:
                self.reach(above, name)

    def reach_by_name(self, names, parts=('specs', 'proofs')):
        for name in names:
            for place in self.by_name.get(name, []):
                if place.split('.')[2] in parts:
                    self.reach(place, name)

    def add_roots(self):
        for place, module in self.modules.items():
            if module.path.name in ANSWERS or place.split('.')[2] == 'proofs' and has_examples(module.path):
                for name in module.cites:
                    self.reach(place, name)
                # (what stands beside the declarations of such a file)
                self.reach_all(place, set(NAME.findall(module.text)))
            for name in module.examples:
                self.reach(place, name)
        for path in (TOP / 'crates').glob('*/src/**/*.rt'):
            self.reach_from_source(path)
        for path in [TOP / 'README.md', *(TOP / 'docs').glob('**/*.md')]:
            self.reach_by_name({word for span in re.findall(r'`([^`\n]+)`', path.read_text(encoding='utf-8')) for word in NAME.findall(span)})
        for path in (TOP / 'tools').glob('**/*.js'):
            self.reach_by_name(set(re.findall(r"[\w-]+", path.read_text(encoding='utf-8', errors='replace'))), ('specs',))

    def reach_from_source(self, path):
        """What a source names: by its imports, by whole paths, and of rulesets by `crate::proofs::Module::name`."""
        text, crate = path.read_text(encoding='utf-8'), path.relative_to(TOP / 'crates').parts[0]
        code = re.sub(r'^ *(?:ghost |pub )?use [^;]*;|//[^\n]*', '', text, flags=re.M)
        words = set(re.findall(r'[^\s(){}\[\],;.@"&]+', code))
        for place, names, alias in re.findall(r'ghost use ([\w.+-]+?)(?:\.?\{([^}]*)\})?(?: as (\S+))?;', text):
            for it in filter(None, map(str.strip, names.split(','))):
                name, _, other = it.partition(' as ')
                if (other or name) in words:
                    self.reach(place, name)
            for it in words if not names else ():
                self.reach(place, it)
        for of, part, inner in re.findall(r'(\w+)::(specs|proofs)::([\w:+◌≡-]+)', code):
            place, _, name = f'Rattle.{crate if of == "crate" else of}.{part}.{inner.replace("::", ".")}'.rpartition('.')
            self.reach(place, name)
        for place, name in re.findall(r'(Rattle\.[\w.+-]+)\.([^\s.(){}]+)', code):
            self.reach(place, name)

    def dead(self):
        """The declarations that nothing cites: the file and the name of each."""
        self.add_roots()
        while self.waiting:
            place, name = self.waiting.pop()
            self.reach_all(place, self.modules[place].cites[name])
        for place, module in self.modules.items():
            for name in module.cites:
                if (place, name) not in self.live:
                    yield str(module.path.relative_to(TOP)), name


def lines_of(path):
    """The lines of a file that count, each with its number."""
    mark, is_made = '--' if path.suffix == '.antt' else '//', False
    with open(path, encoding='utf-8') as file:
        for number, line in enumerate(file, 1):
            line = line.strip()
            is_made = bool(line) and (is_made or line.startswith(mark) and MADE in line)
            if line and not is_made and not line.startswith(mark) and not IMPORT.match(line) and not re.match(r'(?:pub )?mod ', line):
                yield number, line


def sources_of(crate):
    """The crate's files that twins are looked for in."""
    found = [it for part in ('src', 'specs', 'proofs') for it in sorted((TOP / 'crates' / crate / part).glob('**/*'))]
    return [it for it in found if it.suffix in ('.rt', '.antt') and it.name != 'Lib.antt']


def stands_on(crates):
    """Of each crate those that it stands on, itself included."""
    below = {line.partition(':')[0]: line.partition(':')[2].split() for line in (TOP / 'crates.txt').read_text().splitlines()}
    found = {}
    for crate in crates:
        found[crate] = {crate}.union(*(found[it] for it in below[crate] if it in found))
    return found


class Twins:
    """The runs of lines that stand twice."""

    def __init__(self, crates):
        self.below = stands_on(crates)
        self.files = [(crate, path) for crate in crates for path in sources_of(crate)]
        self.lines = [list(lines_of(path)) for _, path in self.files]
        numbers = {}
        self.codes = [[numbers.setdefault(line, len(numbers)) for _, line in lines] for lines in self.lines]

    def windows(self):
        """Of each run of MOST lines the places where it stands: file and line, by their numbers."""
        found = collections.defaultdict(list)
        for file, codes in enumerate(self.codes):
            for at in range(len(codes) - MOST + 1):
                found[tuple(codes[at:at + MOST])].append((file, at))
        return found.values()

    def begins(self, first, second):
        """Whether a twin begins at these two places: the lines before them differ, it doesn't overlap itself, and one crate sees the other."""
        (one, i), (two, j) = first, second
        differ = i == 0 or j == 0 or self.codes[one][i - 1] != self.codes[two][j - 1]
        return differ and not (one == two and j - i < MOST) and self.files[one][0] in self.below[self.files[two][0]]

    def length(self, first, second):
        (one, i), (two, j) = first, second
        pairs = zip(self.codes[one][i:], self.codes[two][j:])
        return next((at for at, (a, b) in enumerate(pairs) if a != b), min(len(self.codes[one]) - i, len(self.codes[two]) - j))

    def place(self, place):
        file, at = place
        return str(self.files[file][1].relative_to(TOP)), self.lines[file][at][0]

    def all(self):
        """Both files, each with the line where the run begins, and how many lines it has."""
        for places in self.windows():
            for first, second in itertools.combinations(places, 2):
                if self.begins(first, second):
                    yield *self.place(first), *self.place(second), self.length(first, second)


def allowed():
    """What the list allows: of dead names a file and a name, of twins two files with their lines."""
    dead, pairs = set(), {}
    for line in (TOP / ALLOWED).read_text(encoding='utf-8').splitlines():
        sort, *words = line.partition(': ')[0].split() or ['']
        if sort == 'dead':
            dead.update((words[0], name) for name in words[1:])
        elif sort == 'twin':
            pairs[(words[0], words[1])] = int(words[2])
    return dead, pairs


def main(words):
    if set(words) - {'--all'}:
        print(__doc__, file=sys.stderr)
        return 2
    repository, is_all = Repository(), '--all' in words
    dead, runs = list(repository.dead()), sorted(Twins(repository.crates).all())
    much = collections.Counter()
    for first, _, second, _, lines in runs:
        much[(first, second)] += lines
    allowed_dead, allowed_twins = allowed()
    found = [f'{path}: nothing cites `{name}`' for path, name in dead if is_all or (path, name) not in allowed_dead]
    found += [f'{first}:{i} and {second}:{j}: {lines} lines are the same' for first, i, second, j, lines in runs if is_all or much[(first, second)] > allowed_twins.get((first, second), 0)]
    stale = [f'{ALLOWED}: {path} has no such name, or something cites it: {name}' for path, name in sorted(allowed_dead - {*dead})]
    stale += [f'{ALLOWED}: {first} and {second} have no {lines} lines in common' for (first, second), lines in allowed_twins.items() if much[(first, second)] < lines]
    print('\n'.join([*found, *stale, f'{len(dead)} names that nothing cites; {len(runs)} twins of {MOST} lines and more, {sum(much.values())} lines, in {len(much)} pairs of files']))
    is_well = not stale and {*dead} <= allowed_dead and all(lines <= allowed_twins.get(it, 0) for it, lines in much.items())
    return 0 if is_well else 1


if __name__ == '__main__':
    sys.exit(main(sys.argv[1:]))
