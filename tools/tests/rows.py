"""The rows of crates/cases/data that the command line can say: what a command answers for their texts, beside what they want.

Some calls of `cases` are less than a command: `pairs`, `items`, `alike`, `extra`, `plan` and `tree` ask the parser alone. Where a command
finds an early error in such a row's text, it holds so much that the text is a script, as the row has it.

What `fix` refuses `unwrap` refuses too, with the same line; and where `fix` answers, the unwrapped text is unwrapped to itself and fixed to the
text to which the script itself is. Each row that asks `fix` is held to that as well.
"""
import collections
import functools
import json
import os
import re
import resource
import signal
import subprocess
import sys
import tempfile

# Which program answers, what gives a command's answer, and the folder for the files of this process.
PROGRAM, ANSWERS, ROOM = None, None, None
sys.path.insert(0, os.path.join(os.path.dirname(os.path.abspath(__file__)), '..'))
from jslint_files.rule_table import ON  # noqa: E402

# Settings that leave one rule of those that are on without any.
ONLY_PARENS = b'[rules]\n' + b''.join(b'%s = false\n' % it.encode() for it in sorted(ON) if it != 'no-extra-parens')


# What stands before the call of a row of another language, the words for it, and the number and the name that the libraries have for it.
LANGUAGES = {'script': (['--edition', '2022'], 2, '2022'), 'module': (['--module'], 3, 'module'), 'any': (['--any'], 4, 'any')}
# That of the row that is tried.
LANGUAGE = None

# What is said for a command that is no word.
WORDS = {'spans': ['check', '--spans']}


class Answer:
    """What a call of the program gave."""

    def __init__(self, status, out, err):
        self.status, self.out, self.err = status, out, err
        self.refusal = err[8:-1] if status and err.startswith('jslint: ') and err.endswith('\n') and err.count('\n') == 1 else None

    def is_early(self):
        return self.refusal is not None and self.refusal.startswith('early error')

    def told(self):
        return f'status {self.status}, {self.out[-300:]!r}, {self.err[-300:]!r}'


def begin(program, answers=None):
    """Each process of the pool works in a folder of its own. A library has no program: `answers` gives its answers by command, text and second text."""
    global PROGRAM, ANSWERS, ROOM
    PROGRAM, ANSWERS, ROOM = program, answers or by_program, tempfile.TemporaryDirectory(prefix='jslint-test-')


def file_of(name, content):
    path = f'{ROOM.name}/{name}'
    with open(path, 'wb') as file:
        file.write(content)
    return path


def call(words, given=None, room=None):
    """A call of the program; it may write so many bytes, if room says so: behind them its output fails as a full disk does."""
    how = {'stdin': subprocess.PIPE if given is not None else subprocess.DEVNULL, 'stdout': subprocess.PIPE, 'stderr': subprocess.PIPE}
    if room is None:
        ran = subprocess.run([PROGRAM, *words], input=given, **{k: v for k, v in how.items() if given is None or k != 'stdin'})
        return Answer(ran.returncode, ran.stdout.decode(errors='replace'), ran.stderr.decode(errors='replace'))

    def limit():
        signal.signal(signal.SIGXFSZ, signal.SIG_IGN)
        resource.setrlimit(resource.RLIMIT_FSIZE, (room, room))

    with tempfile.TemporaryFile(dir=ROOM.name) as out:
        ran = subprocess.run([PROGRAM, *words], **{**how, 'stdout': out}, preexec_fn=limit, restore_signals=False)
        out.seek(0)
        return Answer(ran.returncode, out.read().decode(errors='replace'), ran.stderr.decode(errors='replace'))


def command(name, text, second=None):
    """What a command answers for the bytes of a script, and of a second file."""
    return short_command(name, text, second, LANGUAGE) if len(text) + len(second or b'') < 2000 else ANSWERS(name, text, second)


def language_words():
    return LANGUAGES[LANGUAGE][0] if LANGUAGE else []


def language_name():
    return LANGUAGES[LANGUAGE][2] if LANGUAGE else None


def language_number():
    return LANGUAGES[LANGUAGE][1] if LANGUAGE else 0


def by_program(name, text, second):
    words = [*WORDS.get(name, [name]), *language_words(), '--', file_of('script', text)]
    if second is not None and name in ('check', 'spans', 'mend'):
        words[1:1] = ['--settings', file_of('settings', second)]
    elif second is not None:
        words.append(file_of('table', second))
    return call(words)


@functools.lru_cache(maxsize=8192)
def short_command(name, text, second, language):
    """(many rows ask the same of a text)"""
    return ANSWERS(name, text, second)


def meant(written):
    """The text that is meant: pictures of control characters, and what stands so many times."""
    first, *rest = written.split('⟦')
    found = [first]
    for piece in rest:
        inside, close, behind = piece.partition('⟧')
        if close:
            text, _, count = inside.partition('×')
            inside = text * (int(count) if count.isdigit() else 1)
        found += [inside, behind]
    return re.sub('[\u2400-\u241f]', lambda it: chr(ord(it[0]) & 0x1f), ''.join(found))


def place(text, at):
    """Line and column, from 1, of the byte at this place; columns count characters."""
    before = text.encode()[:at].decode(errors='replace')
    is_within = before.endswith('\r') and text.encode()[at:at + 1] == b'\n'
    lines = re.split('\r\n|[\n\u2028\u2029]|\r' + ('(?!$)' if is_within else ''), before)
    return f'{len(lines)}:{len(lines[-1]) + 1}'


# What stands behind a place where a later language takes the text: rows that have a refusal in short don't say it.
HINT = re.compile(r' \(perhaps: --(?:edition 2022|module)\)$')


def refused(text, want):
    """What the program says of a text that is refused with these words of the row's, but for its hint."""
    early = re.fullmatch(r'E(\d+) (\d+)', want)
    return f'early error {want.split()[0]} at {place(text, int(early[2]))}' if early else want


def is_refused(text, want, answer):
    """Whether the answer is the refusal that the row wants."""
    if answer.refusal is None or answer.out or answer.status != 2:
        return False
    said = HINT.sub('', answer.refusal)
    return re.fullmatch(r'syntax error at \d+:\d+', said) is not None if want == 'syntax' else said == refused(text, want)


def is_refusal(want):
    return want == 'syntax' or re.fullmatch(r'E\d+ \d+|nested too deep|not UTF-8 at byte \d+|longer than 16777216 bytes', want)


def written(text):
    """Bytes as `cases` prints them: of many how many, and the last 49."""
    data = text.encode()
    if len(data) < 1000:
        return text
    last = data[-49:].decode(errors='replace').replace('\\', '\\\\').replace('"', '\\"').replace('\n', '\\n').replace('\t', '\\t')
    return f'({len(data)}, "{last}")'


def hold(is_well, *told):
    """Nothing where all is well, else what was found."""
    return None if is_well else '; '.join(it.told() if isinstance(it, Answer) else str(it) for it in told)


def parsed(text, want, name, shown):
    """A call that asks the parser alone, by a command and what of its answer is to be shown."""
    answer = command(name, text.encode())
    if answer.is_early():
        return hold(not is_refusal(want), answer)
    if answer.refusal is not None or is_refusal(want):
        return hold(is_refused(text, want, answer), answer)
    found = shown(answer)
    return hold(answer.status == 0 and found == want, found, answer)


def is_output(answer, out):
    """Whether a command wrote this text, and was content."""
    return (answer.status, answer.out, answer.err) == (0, out, '')


def unwrapped(text, fixed):
    """What `unwrap` answers for a script, by what `fix` does: the same refusal, or a text that is unwrapped to itself and has that fixed text."""
    answer = command('unwrap', text)
    if fixed.status:
        return hold((answer.status, answer.out, answer.err) == (fixed.status, '', fixed.err), 'unwrap', answer)
    again, other = (command(it, answer.out.encode()) for it in ('unwrap', 'fix'))
    is_well = is_output(answer, answer.out) and is_output(again, answer.out) and is_output(other, fixed.out)
    return hold(is_well, 'unwrap, then unwrap and fix again', answer, again, other)


def fix(texts, want):
    text = texts[0].encode()
    answer = command('fix', text)
    if is_refusal(want):
        return hold(is_refused(texts[0], want, answer), answer) or unwrapped(text, answer)
    again = command('fix', answer.out.encode())
    return hold(is_output(answer, want) and is_output(again, want), answer, again) or unwrapped(text, answer)


def fixes(texts, want):
    answer = command('fix', texts[0].encode())
    is_well = answer.status == 0 and not answer.err if want == 'fixed' else is_refused(texts[0], want, answer)
    return hold(is_well, answer) or unwrapped(texts[0].encode(), answer)


def unwrap(texts, want):
    answer = command('unwrap', texts[0].encode())
    if is_refusal(want):
        return hold(is_refused(texts[0], want, answer), answer)
    again = command('unwrap', answer.out.encode())
    return hold(is_output(answer, want) and is_output(again, want), answer, again) or unwrapped(texts[0].encode(), command('fix', texts[0].encode()))


def tree(texts, want):
    return parsed(texts[0], want, 'tree', lambda it: it.out[:-1])


def early(texts, want):
    answer = command('tree', texts[0].encode())
    return hold(answer.status == 0 if want == 'accepted' else is_refused(texts[0], want, answer), answer)


def pairs_of(text, table):
    said = command('verify', text.encode(), table.encode())
    match = re.fullmatch(r'pairs (\d+) least \d+\n', said.out)
    return match[1] if match and said.status == 0 else said.told()


def pairs(texts, want):
    wrong = parsed(texts[0], want, 'cost', lambda it: pairs_of(texts[0], it.out))
    if wrong or not is_refusal(want):
        return wrong
    answer = command('unwrap', texts[0].encode())
    return hold(is_refused(texts[0], want, answer), answer)


def items(texts, want):
    return parsed(texts[0], want, 'tree', lambda it: str(len(json.loads(it.out)['body'])))


# For each file what `fix` says of it on standard error, and a line with the status, and whether anything was written; then the same of `unwrap`.
EACH = 'for it in fix unwrap; do for each; do "$0" $it $LANGUAGE -- "$each" 2>&1 >written; ended=$?; [ ! -s written ] || ended=${ended}w; echo " $ended"; done; done'
MARKS = [('jslint: syntax error at ', 'x'), ('jslint: early error E', 'e'), ('jslint: nested too deep', 'x'), ('jslint: not UTF-8 at byte ', 'u')]


def mark(said, ended):
    if ended in ('0', '0w') and not said:
        return ';'
    return next((mark for words, mark in MARKS if ended == '2' and said.startswith(words) and said.count('\n') == 1), '?')


def begins_alone(texts, want):
    """Each beginning of a text, one call after the other."""
    text = texts[0].encode()
    answers = [command(name, text[:it]) for name in ('fix', 'unwrap') for it in range(len(text) + 1)]
    found = ''.join(mark(it.err, f'{it.status}{"w" if it.out else ""}') for it in answers)
    return hold(found == 2 * want, found)


def begins(texts, want):
    if ANSWERS is not by_program:
        return begins_alone(texts, want)
    text = texts[0].encode()
    names = [file_of(f'beginning{it}', text[:it]) for it in range(len(text) + 1)]
    ran = subprocess.run(['sh', '-c', EACH, PROGRAM, *names], cwd=ROOM.name, env={**os.environ, 'LANGUAGE': ' '.join(language_words())}, stdin=subprocess.DEVNULL, stdout=subprocess.PIPE, check=True)
    found = ''.join(mark(*it) for it in re.findall(r'((?:jslint: .*\n)*) (.*)\n', ran.stdout.decode(errors='replace')))
    return hold(found == 2 * want, found)


def unplaced(value):
    """A tree without places."""
    if isinstance(value, list):
        return [unplaced(it) for it in value]
    return {k: unplaced(v) for k, v in value.items() if k not in ('start', 'end')} if isinstance(value, dict) else value


def alike(texts, want):
    one, other = (command('tree', it.encode()) for it in texts[:2])
    for text, it in zip(texts, (one, other)):
        if it.refusal is not None and not it.is_early():
            return hold(is_refused(text, want, it), it)
    if is_refusal(want) or one.is_early() or other.is_early():
        return hold(not is_refusal(want), one, other)
    found = 'same' if unplaced(json.loads(one.out)) == unplaced(json.loads(other.out)) else 'other'
    return hold(found == want, found)


def extra(texts, want):
    """Only where the extra pairs begin."""
    answer = command('check', texts[0].encode(), ONLY_PARENS)
    places = [place(texts[0], int(it)) for it in re.findall(r'(\d+)-\d+', want.partition('extra')[2])]
    found = [it.split(' ')[0] for it in answer.out.splitlines()]
    return hold(found == places and answer.status == (1 if places else 0), answer)


def plan(texts, want):
    """All but which nodes are wrapped."""
    def shown(answer):
        rows = [it.split(' ') for it in answer.out.splitlines()[1:-1]]
        return ', '.join([*(f'{it[1]} {"".join(it[2:]) or "00000000"}' for it in rows), answer.out.splitlines()[-1]])

    return parsed(texts[0], re.sub(' wrapped', '', want), 'cost', shown)


def outcome(answer):
    """What a command answers as `cases` prints it: the status, and what is written, a refusal's line too."""
    return f'{answer.status} {written(answer.out) if answer.refusal is None else answer.err}'


def ordered(name):
    def run(texts, want):
        second = texts[1].encode() if name in ('check', 'spans', 'verify', 'same') else None
        answer = command(name, texts[0].encode(), second)
        return hold(outcome(answer) == want, answer)
    return run


def mended(texts, want):
    """What `mend` answers under settings; a text that it writes is mended to itself."""
    answer = command('mend', texts[0].encode(), texts[1].encode())
    again = answer if answer.status else command('mend', answer.out.encode(), texts[1].encode())
    return hold(outcome(answer) == want and (again.status, again.out) == (answer.status, answer.out), answer, again)


def formatted(words):
    """What `format` answers with these words; a text that it writes is formatted to itself."""
    def run(texts, want):
        def answer_of(text):
            return call(['format', *words, *language_words(), '--', file_of('script', text)]) if words else command('format', text)
        answer = answer_of(texts[0].encode())
        again = answer if answer.status or '--check' in words else answer_of(answer.out.encode())
        return hold(outcome(answer) == want and again.out == answer.out, answer, again)
    return run


def check_bytes(texts, want):
    answer = command('check', texts[0].encode(), bytes.fromhex(texts[1]))
    return hold(outcome(answer) == want, answer)


def embedded(texts, want):
    answer = command(texts[0], texts[1].encode(), texts[2].encode() if texts[0] in ('check', 'spans', 'mend', 'verify', 'same') else None)
    return hold(outcome(answer) == want, answer)


def source(texts, want):
    data = bytes.fromhex(texts[0])
    answer = command('fix', data)
    fault = {'NotUtf8': 'not UTF-8 at byte ', 'TooLong': 'longer than 16777216 bytes'}
    match = re.fullmatch(r'Some\((\w+)(?:\((\d+)\))?\)', want)
    is_well = answer.refusal == fault[match[1]] + (match[2] or '') if match else want == 'None' and not (answer.refusal or '').startswith(tuple(fault.values()))
    return hold(is_well, answer) or unwrapped(data, answer)


def line_of(want):
    """The status and what is on standard error where a run answers so."""
    match = re.fullmatch(r'Err\(Refused \{ fault: (\w+)(?:\((.*)\))?, in_second: (\w+), line: (\d+), column: (\d+), hint: (\w+) \}\)', want)
    if not match:
        return int(re.fullmatch(r'Ok\((\d+)\)', want)[1]), ''
    hint = {'Edition2022': ' (perhaps: --edition 2022)', 'Module': ' (perhaps: --module)'}.get(match[6], '')
    name, has, at = match[1], match[2], f' at {match[4]}:{match[5]}{hint}'
    words = {
        'Syntax': 'syntax error' + at, 'TooLong': 'longer than 16777216 bytes', 'TooDeep': 'nested too deep',
        # (what can't be read is this folder, as `device` has it)
        'ReadFailed': f'read failed: {ROOM.name}: a folder', 'WriteFailed': 'write failed', 'BadSettings': 'bad settings' + (at if match[4] != '0' else ''), 'NotUtf8': f'not UTF-8 at byte {has}',
    }
    if name == 'Early':
        words[name] = f'early error E{has.split(",")[0]}{at}'
    if name == 'BadTable':
        words[name] = 'bad table row {} {}'.format(*has.split(', '))
    return 1 if name == 'BadTable' else 2, f'jslint: {"second file: " if match[3] == "true" else ""}{words[name]}\n'


def fails_at(plan):
    words = plan.split(' ')
    return int(words[1]) if len(words) > 1 else 1 if plan == '0' else None


def device(name, content, plan, want):
    """A file with this content, or what can be opened and not read where the row's reader fails."""
    fails = fails_at(plan)
    return ROOM.name if fails and (fails == 1 or 'ReadFailed' in want) else file_of(name, content)


def split_answer(want):
    """What a run answers, and what it writes."""
    at = re.match(r'(?:Ok\((?:\d+|\(\))\)|Err\((?:WriteFailed|Refused \{.*?\})\)) ', want, re.S).end()
    return want[:at - 1], want[at:]


def run_of(texts, want, content):
    name, _, reader, writer, second, second_reader = (texts + [''] * 6)[:6]
    answers, bytes_written = split_answer(want)
    words = [*WORDS.get(name, [name]), *language_words(), '--', device('script', content, reader, want if not fails_at(second_reader) else '')]
    if name in ('check', 'spans', 'mend') and (second or second_reader):
        words[1:1] = ['--settings', device('settings', second.encode(), second_reader, want)]
    elif name in ('verify', 'same'):
        words.append(device('second', second.encode(), second_reader, want))
    room = len(bytes_written.encode()) if 'WriteFailed' in answers else None
    answer = call(words, room=room)
    return hold((answer.status, answer.err) == line_of(answers) and written(answer.out) == bytes_written, answer)


def run(texts, want):
    return run_of(texts, want, texts[1].encode())


def run_bytes(texts, want):
    return run_of(texts, want, bytes.fromhex(texts[1]))


def json_row(texts, want):
    """JSON to a writer. (The command writes a line feed behind it.)"""
    answers, bytes_written = split_answer(want)
    size = re.match(r'\((\d+), "', bytes_written)
    room = None if answers == 'Ok(())' else int(size[1]) if size else len(bytes_written.encode())
    answer = call(['tree', *language_words(), '--', file_of('script', texts[0].encode())], room=room)
    out = answer.out[:-1] if room is None else answer.out
    return hold(written(out) == bytes_written and (answer.err == '') == (room is None), answer)


# What the commands answer for `((a));`, with settings that turn its reports off, and with its table.
ASKED = {'check': (0, ''), 'spans': (0, ''), 'fix': (0, 'a;\n'), 'unwrap': (0, 'a;'), 'cost': (0, 'jslint-cost 2\n1 Identifier\ntotal 0\n'), 'verify': (0, 'pairs 2 least 0\n'), 'tree': (0, None), 'same': (0, ''), 'format': (0, '((a));\n'), 'mend': (0, '((a));')}
OFF = b'[rules]\nno-undef = false\nno-extra-parens = false\n'
SECONDS = {'check': OFF, 'spans': OFF, 'mend': OFF, 'verify': ASKED['cost'][1].encode(), 'same': b'a'}
# And without settings.
REPORTED = {
    'check': (1, "1:1 no-extra-parens unnecessary parentheses\n1:2 no-extra-parens unnecessary parentheses\n1:3 no-undef 'a' is not defined\n"),
    'spans': (1, "0 5 no-extra-parens unnecessary parentheses\n1 4 no-extra-parens unnecessary parentheses\n2 3 no-undef 'a' is not defined\n"),
}


def asked_of(name, want, has_second):
    """The status and the output for a command with its choices."""
    if name != 'format':
        return (ASKED if has_second else {**ASKED, **REPORTED})[name]
    return (1, '') if 'check: true' in want else (0, 'a;\n') if 'fewest: true' in want else ASKED[name]


# What is said of options that can't be taken.
NO_LANGUAGE = {'Commas': 'jslint: --commas is none, lists or all\n', 'Edition': 'jslint: --edition is 2020 or 2022\n', 'Module': "jslint: --module doesn't go with --edition 2020\n",
    'Any': "jslint: --any doesn't go with --edition or --module\n"}


def command_line(texts, want):
    words = texts[0].split(' ')[1:]
    asked = re.fullmatch(r'\((\w+)(?:\((\w+)(?: \{.*?\})?\))?, "(.*?)", (?:None|Some\("(.*)"\))\)(?: (wrong )?(?!list)(\w+))?( list)?', want)
    with tempfile.TemporaryDirectory(dir=ROOM.name) as folder:
        given = script = b'((a));'
        if asked and asked[7]:
            with open(f'{folder}/listed.js', 'wb') as to:
                to.write(script)
            given = script = b'listed.js\0'
        if asked:
            name, file, second = 'spans' if asked[2] == 'Spans' else asked[1].lower(), asked[3], asked[4]
            for it, content in [(second, SECONDS.get(name)), (file, script)]:
                # (what `-` stands for is standard input, not a file of that name)
                given = content if it == '-' else given
                if it and not it.startswith('/'):
                    with open(f'{folder}/{it}', 'wb') as to:
                        to.write(b')' if it == '-' else content)
        ran = subprocess.run([PROGRAM, *words], cwd=folder, input=given, stdout=subprocess.PIPE, stderr=subprocess.PIPE)
    answer = Answer(ran.returncode, ran.stdout.decode(), ran.stderr.decode())
    if not asked:
        is_shown = want in ('DisplayHelp', 'DisplayVersion')
        return hold((answer.status, answer.out != '', answer.err != '') == ((0, True, False) if is_shown else (2, False, True)), answer)
    if asked[5]:
        return hold((answer.status, answer.out, answer.err) == (2, '', NO_LANGUAGE[asked[6]]), answer)
    if second == file == '-':
        return hold((answer.status, answer.out, answer.err) == (2, '', 'jslint: read failed: -: both files are standard input\n'), answer)
    if second == file and name != 'same':
        # (the script is no table and no settings)
        return hold((answer.out, answer.err) == ('', 'jslint: bad table row 0 Form\n' if name == 'verify' else 'jslint: bad settings at 1:1\n'), answer)
    if second == '':
        return hold((answer.status, answer.err) == (2, 'jslint: read failed: : missing\n'), answer)
    status, out = asked_of(name, want, second is not None)
    if asked[7]:
        out = ''.join(f'listed.js:{it}' for it in out.splitlines(True))
    return hold((answer.status, answer.err) == (status, '') and answer.out == (out if out is not None else answer.out), answer)


# By the row's call; in this order, so that the longest come first.
CALLS = {
    'begins': begins, 'run': run, 'run bytes': run_bytes, 'fixes': fixes, 'fix': fix, 'unwrap': unwrap, 'pairs': pairs, 'items': items, 'tree': tree, 'alike': alike,
    'early': early, 'extra': extra, 'plan': plan, 'check': ordered('check'), 'spans': ordered('spans'), 'cost': ordered('cost'), 'verify': ordered('verify'), 'same': ordered('same'),
    'mend': mended,
    'check bytes': check_bytes, 'embedded': embedded, 'source': source, 'json': json_row, 'command line': command_line,
}
# Calls that say how the program treats its words, files and streams: a library has none.
OF_PROGRAM = {'run', 'run bytes', 'json', 'command line'}


def call_of(line):
    """The language of a row's call, if it is another than the base profile's, and the call."""
    name = line.split('\t')[0]
    language, _, call = name.partition(' ')
    return (language, call) if language in LANGUAGES else (None, name)


def is_format(name):
    return name.split(' ')[0] == 'format'


def holder_of(name):
    """What holds the rows of a call, if they can be said. (Behind `format` stand its words.)"""
    return formatted(name.split(' ')[1:]) if is_format(name) else CALLS.get(name)


def asks_command(row):
    """Whether a row asks what a command answers, and not how the program treats its files; the packages don't know `any`."""
    language, name = call_of(row[1])
    return language != 'any' and name not in OF_PROGRAM and not (is_format(name) and ' ' in name)


def each_fifth(found):
    """Of the rows of each call in each file the first, the sixth, the eleventh and so on."""
    kept, counts = [], collections.Counter()
    for row in found:
        key = row[0].split(':')[0], row[1].split('\t')[0]
        if counts[key] % 5 == 0:
            kept.append(row)
        counts[key] += 1
    return kept


def rows_in(folder):
    """Each row that can be said: its file, its line's number and the line."""
    for name in sorted(os.listdir(folder)):
        with open(f'{folder}/{name}', encoding='utf-8', newline='\n') as file:
            for number, line in enumerate(file, 1):
                line = line[:-1] if line.endswith('\n') else line
                if line and not line.startswith('#') and holder_of(call_of(line)[1]):
                    yield f'{name}:{number}', line


def try_row(row):
    """Nothing if the row holds, else what is wrong with it."""
    global LANGUAGE
    at, line = row
    _, *texts, want = line.split('\t')
    LANGUAGE, name = call_of(line)
    try:
        found = holder_of(name)([meant(it) for it in texts], meant(want))
    except Exception as error:
        found = f'{type(error).__name__}: {error}'
    return found and f'crates/cases/data/{at}: {line[:300]}\n    is {found[:900]}'
