"""Many files by one call of the program, `jslint check --list`: their lines, where nothing else is asked for, and why the others are refused."""
import re
from collections import defaultdict

from .checking import RULE, TURNS_OFF, WORD
from .engine import LANGUAGE_WORDS
from .languages import first_reading, is_by_language
from .outcomes import Refused, has_errors, is_answer, refusal
from .reading import read
from .streams import escaped
from .traces import TRACES

# Fewer files aren't worth a call of their own.
FEWEST = 4
# What stands behind a name in a line of a report.
REPORT = re.compile(r'\d+:\d+ \S+ ')


def is_plain(name):
    """Whether a name stands in each line as it is, and ends at the first `: ` or place."""
    return name != '-' and ': ' not in name and name.isascii() and escaped(name) == name


def taken(lines, names, is_line):
    """The lines of each name, which come in the order of the names; None where a line is of none of them."""
    found, at = {it: [] for it in names}, 0
    for line in lines:
        while at < len(names) and not is_line(line, names[at]):
            at += 1
        if at == len(names):
            return None
        found[names[at]].append(line)
    return found


def is_report(line, name):
    return line.startswith(f'{name}:') and REPORT.match(line, len(name) + 1) is not None


def furthest(whys):
    """The refusal, of those of all languages, that is told."""
    def read(language):
        raise whys[language]

    try:
        return first_reading(whys, read)
    except Refused as why:
        return why


def is_refusal(line, name):
    return line.startswith((f'jslint: {name}: ', f'jslint: read failed: {name}: ')) or line == f'jslint: read failed: {name}'


class Batches:
    """Asks the program for the lines of many files. What it doesn't answer, or more is asked for than its lines, is left to single calls."""

    def __init__(self, engine, checker, needs_text):
        """`needs_text`: of a file with reports the text is asked for, too."""
        self.checker, self.needs_text, self.program = checker, needs_text, engine.program()

    def answers(self, names):
        """By their names, the lines of reports of each file, as far as they are all that is asked for, and the refusals of those that no language has."""
        found, refused, groups = {}, {}, defaultdict(list)
        if self.program is None or len({*names}) < FEWEST:
            return found
        for name in dict.fromkeys(filter(is_plain, names)):
            groups[self.checker.settings_for(name), tuple(self.checker.languages.of(name))].append(name)
        for (settings, languages), left in groups.items():
            whys = {it: {} for it in left}
            for language in languages:
                answers = self.lines(left, settings, language, whys) if left else {}
                found.update(answers)
                left = [it for it in left if it not in answers]
            refused.update((it, whys[it]) for it in left if [*whys[it]] == [*languages] and all(map(is_by_language, whys[it].values())))
        return {**{name: answer for name, answer in found.items() if self.is_enough(name, answer)}, **{name: furthest(whys) for name, whys in refused.items()}}

    def lines(self, names, settings, language, whys):
        """The lines of those that the program takes in a language, without their names. Why it doesn't take the others is put to `whys`."""
        status, out, err = self.run(names, settings, language)
        reports = taken(out.decode(errors='replace').split('\n')[:-1], names, is_report)
        refused = taken(err.decode(errors='replace').split('\n')[:-1], names, is_refusal)
        if reports is None or refused is None:
            return {}
        found = {name: ''.join(f'{it[len(name) + 1:]}\n' for it in lines) for name, lines in reports.items() if not refused[name]}
        wanted = 2 if len(found) < len(names) else 1 if any(map(has_errors, found.values())) else 0
        if status != wanted or not all(map(is_answer, found.values())):
            return {}
        for name, lines in refused.items():
            head = f'jslint: {name}: '
            if len(lines) == 1 and not reports[name] and lines[0].startswith(head):
                whys[name][language] = refusal(2, lines[0].removeprefix(head).encode(), 'checked')
        return found

    def run(self, names, settings, language):
        words = [self.program.path, 'check', '--list', *LANGUAGE_WORDS[language], *self.program.settings_words(settings), '-']
        return TRACES.call(words, '\0'.join(names).encode())

    def is_enough(self, name, answer):
        """Whether nothing of the file's text is asked for."""
        if answer and self.needs_text:
            return False
        if RULE not in answer and not self.checker.has_suppressions:
            return True
        try:
            text = read(name)
        except Refused:
            return False
        return not (RULE in answer and WORD.search(text)) and not (self.checker.has_suppressions and TURNS_OFF in text)
