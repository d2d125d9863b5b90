"""Whether edits end as they must: wrong bodies that the prover must refuse, and bodies that mean the same, which it must accept.

`rt must-fail` makes a check of each. Here wrong bodies of different functions share one. A function is proved by its own body and the
contracts of what it calls, never their bodies, so no wrong body can break or mend the proof of another, and the prover says of each function by itself
whether it is proved. Functions that call one another have one proof, so of those one has a wrong body in a check. What counts is an error at a goal of
the function itself: one that only waits for the proof of what it calls, or that has another wrong body in this check, is tried in the next. An edit outside
functions, one that none of these checks refuses, and all of a check that refuses a function with no wrong body, are tried alone, as `rt must-fail` does.

The bodies of a crate that mean the same share one check, each of another function, and each of these functions must be proved in it: a refusal says
something only where not each changed text is refused.

The functions of `recursive_descent` that call one another are proved together in half an hour. Its edits are tried over a copy in which each other
function of that cycle only refuses, where the function has the same goals.

What ended as it must is kept under a sum of all that decided it: the edit, the crate, the libraries below it, the kit, and this file. So what only reads
edits, or prints, is in others.
"""
import collections
import contextlib
import copy
import glob
import hashlib
import importlib.machinery
import importlib.util
import os
import re
import shutil
import subprocess
import sys
import tempfile

import form

ROOT = form.ROOT
ONE_JOB = ['--jobs', '1']
# Crates whose cycle of calls costs half an hour, so that their edits are tried with the cycle cut.
DEAR_CYCLES = ['recursive_descent']
CUTTER = f'{ROOT}/tools/measure/stub.py'
# What a try of one edit comes to where the prover refuses it: a word, and in older kits whether it does.
REFUSED = ('refused', 'limit', True)

# What a proof file says where the edit took a name away: that says little of the contract. (A long record's fields stand on the lines after it.)
MISSING = re.compile(r'has no field|is not in scope|has no `|was not admitted|: record `')
ERROR = re.compile(r'^(?:\./)?proofs/(\S+)/[^/\s]+\.antt:\d+:\d+: error: (?:`([^`]*)`: )?(.*)', re.M)
NOTE = re.compile(r'^note: (?:\./)?(src/\S+):(\d+):\d+: (.*)', re.M)
FUNCTION = re.compile(r'^( *)(?:#\[(?:(?!\]\n).|\n(?!\n))*\]\n\1)*(?:pub(?:\([^)]*\))? )?(?:const )?fn (\w+)', re.M)
IMPL = re.compile(r'^impl\b(.*?)\{', re.M | re.S)

CYCLE = re.compile(r'#\[cycle\((\w+)\)\]')
STATE = re.compile(r'^fn (\S+): (.*)', re.M)

# An edit with the function that it changes, and the cycle of calls in which that is.
Placed = collections.namedtuple('Placed', [*form.Edit._fields, 'function', 'cycle'])
# The toolchain's command, as a module.
RT = None


def sum_of_file(path):
    with open(path, 'rb') as file:
        return hashlib.sha256(file.read()).hexdigest()


def load():
    """The toolchain's command, as a module, which this one needs for all but the places of edits."""
    global RT
    loader = importlib.machinery.SourceFileLoader('rt', os.path.realpath(shutil.which('rt')))
    RT = importlib.util.module_from_spec(importlib.util.spec_from_loader('rt', loader))
    loader.exec_module(RT)
    return RT


def of_impl(head):
    """The name that the prover gives an impl, from the text behind the word: of a trait's it is only the beginning."""
    head = head.strip()
    depth = 0
    for at, c in enumerate(head if head.startswith('<') else ''):
        depth += (c == '<') - (c == '>' and head[at - 1] != '-')
        if depth == 0:
            head = head[at + 1:]
            break
    first, is_trait, last = head.partition(' for ')
    words = re.findall(r'\w+', first)
    if not is_trait:
        return words[0], True
    return re.findall(r'\w+', last)[0] + ''.join(words[:2]), False


def text_of(crate, path):
    """The crate's own text of that path."""
    with open(f'{crate.folder}/{path}', encoding='utf-8') as file:
        return file.read()


def head_at(text, at):
    """The head, with its attributes, of the function of the text in which that place stands, if it stands in one."""
    begun = [it for it in FUNCTION.finditer(text) if it.start() <= at]
    return begun[-1] if begun and f'\n{begun[-1][1]}}}\n' not in text[begun[-1].start():at] else None


def declaring(crate, path, text, name):
    """The path of the file that declares the type: that one, if it does."""
    declares = re.compile(rf'^(?:pub(?:\([^)]*\))? )?(?:struct|enum) {name}\b', re.M)
    others = [] if declares.search(text) else sorted(glob.glob('src/**/*.rt', root_dir=crate.folder, recursive=True))
    return next((it for it in others if declares.search(text_of(crate, it))), path)


def function_at(crate, path, text, at):
    """A pattern of the prover's name for that function."""
    head = head_at(text, at)
    if not path.startswith('src/') or not head:
        return None
    owner = ''
    if head[1]:
        owner, is_whole = of_impl([it for it in IMPL.finditer(text) if it.start() < at][-1][1])
        # (methods stand where their type does, also where another file has their `impl`)
        path = declaring(crate, path, text, owner) if is_whole else path
        owner += '::' if is_whole else '[A-Za-z0-9]*::'
    module = path[len('src/'):-len('.rt')].replace('/', '::')
    return ''.join(f'{it}::' for it in (crate.name, module) if it not in ('lib', 'main')) + owner + head[2]


def placed(crate, edit):
    """The edit with the function that it changes, or names. One whose texts don't stand in one function, each once, has none."""
    texts = [(path, text_of(crate, path), old) for path, old, _ in edit.pairs]
    is_found = all(text.count(old) == 1 for _, text, old in texts)
    functions = {function_at(crate, path, text, text.find(old)) if is_found else None for path, text, old in texts}
    function = functions.pop() if len(functions) == 1 else None
    cycle = CYCLE.search(head_at(texts[0][1], texts[0][1].find(texts[0][2]))[0]) if function else None
    return Placed(*edit, f'{crate.name}::{edit.named}' if edit.named and is_found else function, cycle and cycle[1])


def edits_of(crate, words, must_be):
    """The crate's edits that must end so, or those of them that are named."""
    every = {crate.name, f'{crate.name}/{must_be}'}
    edits = [it for it in form.edits_of(crate.name).values() if it.must_be == must_be]
    return [placed(crate, it) for it in edits if not words or {*every, f'{crate.name}/{it.name}'} & {*words}]


def edited(crate, edits):
    """The texts that the edits make, by their paths."""
    texts = {path: text_of(crate, path) for edit in edits for path, _, _ in edit.pairs}
    # (from the last place to the first, since what one edit writes may be what another looks for)
    places = sorted(((texts[path].index(old), path, old, new) for edit in edits for path, old, new in edit.pairs), reverse=True)
    for at, path, old, new in places:
        texts[path] = texts[path][:at] + new + texts[path][at + len(old):]
    return texts


def group_of(edits, waits):
    """Edits for one check: of each function and each cycle of calls at most one, and none of a function that another of them waited for."""
    group, taken, barred = [], set(), set()
    for edit in sorted(edits, key=lambda it: it.function not in waits):
        if not {edit.function, edit.cycle} & taken and not any(re.fullmatch(edit.function, it) for it in barred):
            group.append(edit)
            taken |= {edit.function, edit.cycle} - {None}
            barred |= waits.get(edit.function, set())
    return group


def own_errors(name, said, paths):
    """What proof files of the function are refused for: the goal and the rest of its line."""
    folder, last = '/'.join(name.split('::')[1:]), name.split('::')[-1]
    for at, goal, rest in ERROR.findall(said):
        above, is_cycle, cycle = at.rpartition('+')
        # (the proof of a cycle is a folder above its functions, and its goals begin with the function's name; that of one that calls itself is its own)
        is_one = is_cycle and f'{above}{cycle}' in paths
        of_cycle = is_cycle and not is_one and folder.startswith(above) and goal.startswith(f'{last}-')
        if of_cycle or f'{at.replace("+", "")}/'.startswith(f'{folder}/') and (is_one or not is_cycle):
            yield f'`{goal}`: {rest}'


def own_notes(crate, name, texts, said):
    """What else isn't proved in the function's text."""
    for path, line, rest in NOTE.findall(said):
        text = texts.get(path) or text_of(crate, path)
        at = sum(len(it) + 1 for it in text.split('\n')[:int(line) - 1])
        if re.fullmatch(function_at(crate, path, text, at) or '', name):
            yield rest


def refusals(crate, texts, said):
    """Functions that the prover refuses for a goal of their own, and why; what each that isn't proved waits for; and the names of all."""
    refused, waits = {}, {}
    states = STATE.findall(said)
    paths = {'/'.join(name.split('::')[1:]) for name, _ in states}
    for name, state in states:
        if state == 'proved':
            continue
        waits[name] = set(re.findall(r'`([^`]+::[^`]+)`', state)) if ' calls ' in state else set()
        why = [it for it in own_errors(name, said, paths) if not MISSING.search(it)] + [*own_notes(crate, name, texts, said)]
        if why:
            refused[name] = why[0]
    return refused, waits, [name for name, _ in states]


@contextlib.contextmanager
def with_cut_cycle(crate, edits):
    """The crate, or where its cycle is dear a copy in which each function of the cycle that has none of the edits only refuses."""
    if crate.name not in DEAR_CYCLES:
        yield crate
        return
    with tempfile.TemporaryDirectory(prefix='jslint-edits-') as room:
        os.mkdir(f'{room}/src')
        subprocess.run([sys.executable, CUTTER, crate.folder, room, *[it.function.rpartition('::')[2] for it in edits if it.cycle]], check=True)
        cut = copy.copy(crate)
        cut.folder = room
        yield cut


def names_of(group, names):
    """The names of the functions that the edits are in, so that only those are proved, and what they call: none where one isn't known."""
    found = [[edit.function] if '[' not in edit.function else [name for name in names if re.fullmatch(edit.function, name)] for edit in group]
    return [name for each in found for name in each] if all(found) else []


def tried_together(crate, group, names, kept):
    """Why each of the edits was refused, and what each of the others waits for, by function: nothing where a function with no edit was refused too.
    And names of the crate's functions."""
    only = [it for name in names_of(group, names) for it in ('--only', name.partition('::')[2])]
    with with_cut_cycle(crate, group) as read:
        texts = edited(read, group)
        said = RT.checked(read, texts, ONE_JOB + only, kept).stdout
        refused, waits, found = refusals(read, texts, said)
    others = [name for name in refused if not any(re.fullmatch(edit.function, name) for edit in group)]
    if others or RT.rtlib.STALE.search(said):
        print(f'{crate.name}: refused with no edit of their own, so each is tried alone: {" ".join(others)}', flush=True)
        refused, waits = {}, {}
    of_edits = [{edit.function: it for edit in group for name, it in all.items() if re.fullmatch(edit.function, name)} for all in (refused, waits)]
    return *of_edits, names or found


def tried_alone(crate, edit, kept):
    """Whether a check of its own refuses the edit, and why."""
    if crate.name in DEAR_CYCLES:
        # (with its cycle cut the crate as a whole needn't be proved)
        return False, 'no goal of its function refuses it'
    with tempfile.TemporaryDirectory(prefix='jslint-edits-') as room:
        with open(f'{room}/{edit.name}.edit', 'w', encoding='utf-8') as file:
            file.write(''.join(f'file: {path}\nold: {old}\nnew: {new}\n' for path, old, new in edit.pairs))
        came_to, said = RT.must_fail(crate, file.name, ONE_JOB, kept)
    return came_to in REFUSED and 'only because a proof file' not in said, said.partition(': ')[2]


def tried(crate, words, kept, earlier):
    """Of each edit of the crate its name, whether it was refused, and why."""
    edits = edits_of(crate, words, 'refused')
    known = {it.name: why for it in edits for why in [earlier.why(it)] if why is not None}
    for name, why in known.items():
        yield name, True, f'(by an earlier run) {why}'
    left, waits, names = [it for it in edits if it.function and it.name not in known], {}, []
    alone = [it for it in edits if not it.function and it.name not in known]
    while left:
        group = group_of(left, waits)
        why, waits, names = tried_together(crate, group, names, kept)
        for edit in group:
            if edit.function in why:
                earlier.keep(edit, why[edit.function])
                yield edit.name, True, why[edit.function]
        done = [it for it in group if it.function in why]
        alone += [] if done else group
        left = [it for it in left if it not in (done or group)]
    for edit in alone:
        well, why = tried_alone(crate, edit, kept)
        if well:
            earlier.keep(edit, why)
        yield edit.name, well, why


def why_open(crate, edit, texts, said):
    """Why the function of the edit isn't proved, or nothing where it is."""
    states = STATE.findall(said)
    paths = {'/'.join(name.split('::')[1:]) for name, _ in states}
    own = [(name, state) for name, state in states if re.fullmatch(edit.function, name)]
    for name, state in own:
        if state != 'proved':
            why = [*own_errors(name, said, paths), *own_notes(crate, name, texts, said), state]
            return next((it for it in why if 'that depends on' not in it), state)
    return None if own else f'nothing is said of {edit.function}: {said[-160:]}'


def tried_to_accept(crate, edits, kept):
    """Why each of the edits isn't accepted, in their order, or nothing for one that is: all in one check, in which each has to be of another function."""
    if None in [it.function for it in edits] or len({it.function for it in edits}) < len(edits):
        return [f'its function is {it.function or "not known"}, and each has to be of another' for it in edits]
    only = [it for name in names_of(edits, []) for it in ('--only', name.partition('::')[2])]
    with with_cut_cycle(crate, edits) as read:
        texts = edited(read, edits)
        ran = RT.checked(read, texts, ONE_JOB + only, kept)
        why = [why_open(read, it, texts, ran.stdout) for it in edits]
    # (another function may not be proved, where a constant or a definition has changed)
    is_alone = ran.returncode and not any(why)
    return [f'the check ended with status {ran.returncode}: {ran.stdout[-160:]}'] * len(edits) if is_alone else why


def accepted(crate, words, kept, earlier):
    """Of each body of the crate that means the same its name, whether it was accepted, and why not."""
    edits = edits_of(crate, words, 'accepted')
    left = [it for it in edits if earlier.why(it) is None]
    for edit in edits:
        if edit not in left:
            yield edit.name, True, '(by an earlier run)'
    for edit, why in zip(left, tried_to_accept(crate, left, kept) if left else []):
        if not why:
            earlier.keep(edit, '')
        yield edit.name, not why, why or ''


class Earlier:
    """What runs on this machine saw refused, or accepted, of a crate's edits, each under a sum of all that its try read."""

    def __init__(self, kept, crate):
        self.kept, self.crate, self.used = kept, crate, 0
        self.sum = repr((sum_of_file(os.path.abspath(__file__)), sum_of_file(CUTTER), kept.key(crate))) if kept else None

    def name(self, edit):
        """What the edit's end is kept under, whatever other edits the crate has."""
        return hashlib.sha256(repr((self.sum, edit)).encode()).hexdigest()

    def why(self, edit):
        """What an earlier run said of the edit, if one saw it end as it must."""
        found = self.kept and self.kept.tried(self.name(edit))
        self.used += bool(found)
        return found[1] if found else None

    def keep(self, edit, why):
        """Keeps that an edit ended as it must, unless a file of the crate or of one below it was touched since the run began. (The kit has a word for
        what it keeps only of refused ones.)"""
        if self.kept and all(self.kept.is_untouched(it) for it in [self.crate, *self.crate.below()]):
            self.kept.keep_tried(self.name(edit), getattr(RT, 'REFUSED', 'refused'), why)


class KeptHere:
    """For a kit whose `rt ci` keeps nothing: what was seen refused, in a folder of this program's own, under a sum of the sources of the crate and of
    those below it, which say what their libraries are."""

    def __init__(self, is_anew):
        self.folder = f'{os.environ.get("XDG_CACHE_HOME") or os.path.expanduser("~/.cache")}/jslint/edits'
        self.is_anew, self.begun = is_anew, {}
        os.makedirs(self.folder, exist_ok=True)

    @staticmethod
    def sources(crate):
        names = [it.name for it in [crate, *crate.below()]]
        words = ['sh', '-c', '. "$0/tools/made-of"; made_of sha256sum "$0" "$@"', ROOT, *names]
        return subprocess.run(words, stdout=subprocess.PIPE, text=True, check=True).stdout

    def key(self, crate):
        with open(f'{RT.KIT}/KIT-ID', encoding='utf-8') as file:
            kit = file.read()
        self.begun[crate.name] = self.sources(crate)
        return kit, crate.name, self.begun[crate.name]

    def is_untouched(self, crate):
        # (the sum of a crate has those below it)
        return crate.name not in self.begun or self.begun[crate.name] == self.sources(crate)

    def tried(self, name):
        path = f'{self.folder}/{name}'
        if self.is_anew or not os.path.isfile(path):
            return None
        with open(path, encoding='utf-8') as file:
            return True, file.read()

    def keep_tried(self, name, _, why):
        path = f'{self.folder}/{name}'
        with open(f'{path}.{os.getpid()}', 'w', encoding='utf-8') as file:
            file.write(why)
        os.replace(file.name, path)


def earlier_of(crates, is_built, is_anew):
    """What earlier runs kept, by crates whose libraries are those that stand built."""
    if not hasattr(RT, 'Kept'):
        return KeptHere(is_anew)
    kept = RT.Kept(crates, is_anew) if is_built else None
    for crate in crates if kept else []:
        kept.is_built(crate)
    return kept
