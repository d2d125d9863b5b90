"""What is found in a script."""
import re

from .languages import first_reading
from .outcomes import Outcome, Refused, is_answer, refusal
from .reading import PART, read
from .traces import TRACES

# A line of what `check --spans` answers, and what ends a line of a script.
SPAN = r'^(\d+) (\d+) (\S+) (.*)$'
BYTES_OF_LINE_END = rb'\r\n|[\n\r]|\xe2\x80[\xa8\xa9]'
# The rule whose reports may be of a cast's pair. Of a script with no such word none is.
RULE, WORD = 'no-extra-parens', re.compile(rb'@(?:type|satisfies)\b')
# Of a script with no such word no comment turns a report off.
TURNS_OFF = b'jslint-disable-'


def answer_of(status, out, err):
    """The lines of reports that `check` answers; None where that is a refusal."""
    text = out.decode(errors='replace')
    return text if status in (0, 1) and not err and is_answer(text) else None


def checked(engine, text, settings=b'', language=None):
    """The lines of reports of a script, or its refusal."""
    status, out, err = engine.run('check', text, settings, language=language)
    answer = answer_of(status, out, err)
    if answer is None:
        raise refusal(status, err, 'checked')
    return answer


def spans_of(engine, text, settings=b'', language=None):
    """Where each report begins and ends, in bytes, with its rule and text, as the program or a library says that."""
    status, out, err = engine.run('spans', text, settings, language=language)
    found = re.findall(SPAN, out.decode(errors='replace'), re.M) if status in (0, 1) and not err else []
    return [(int(start), int(end), rule, words) for start, end, rule, words in found]


def casts_of(engine, text, spans, language=None):
    """Which of the reported pairs are casts, by the bytes at which they begin."""
    pairs = [start for start, _, rule, _ in spans if rule == RULE] if WORD.search(text) else []
    status, tree, _ = engine.run('tree', text, language=language) if pairs else (0, b'', b'')
    if not pairs or status:
        return []
    from .casts import casts
    return casts(text, pairs, tree)


class Checker:
    """Checks scripts: with which settings, in which languages, and what is asked for beside the answer."""

    def __init__(self, engine, settings_for, languages, guesses, has_suppressions=False, has_ends=False):
        self.engine, self.settings_for, self.languages, self.guesses = engine, settings_for, languages, guesses
        self.has_suppressions, self.has_ends = has_suppressions, has_ends

    def fixed(self, text, language):
        """What stands for the fixed text of a script, which may be far longer than it: a sum. None where it is refused."""
        import hashlib
        total = hashlib.sha256()
        with TRACES.new_file(None) as (file, _):
            if self.engine.run('fix', text.encode(), out=file, language=language)[0]:
                return None
            file.seek(0)
            for part in iter(lambda: file.read(PART), b''):
                total.update(part)
        return total.digest()

    def outcome(self, name, text=None, refused=None):
        """What is found in a file, or in a text that is as good as one of that name. It may be known already that it is refused."""
        text, settings = read(name) if text is None else text, self.settings_for(name)
        languages = self.languages.of(name)
        try:
            if refused:
                raise refused
            answer, language = first_reading(languages, lambda it: checked(self.engine, text, settings, it))
        except Refused as why:
            tried = [it or self.languages.first_of(settings) for it in languages]
            return Outcome([self.guesses.add(why, text, tried, lambda it: checked(self.engine, text, language=it)).found], text=text)
        came = Outcome(answer=answer, text=text)
        has_casts = RULE in answer and WORD.search(text)
        if answer and (self.has_ends or has_casts):
            self.add_spans(came, text, settings, language)
        if self.has_suppressions and TURNS_OFF in text:
            from .suppressions import suppressed
            language = language or self.languages.first_of(settings)
            came.list = suppressed(came.found, text.decode(), lambda it: self.fixed(it, language))
        return came

    def add_spans(self, came, text, settings, language):
        """Puts to each report where it ends, and takes out those of casts. A program or a library that doesn't say the ends of just these reports leaves all
        as they are."""
        spans = spans_of(self.engine, text, settings, language)
        places = places_at(text, {it for span in spans for it in span[:2]})
        if [(*places[start], rule, words) for start, _, rule, words in spans] != [(it.line, it.column, it.rule, it.text) for it in came.found]:
            return
        taken_out = {*casts_of(self.engine, text, spans, language)}
        for it, (_, end, _, _) in zip(came.found, spans):
            it.end = places[end] if self.has_ends else None
        if taken_out:
            came.list = [it for it, span in zip(came.found, spans) if span[2] != RULE or span[0] not in taken_out]


def places_at(text, offsets):
    """The line and the column of each of these bytes of a text, which are looked for in their order: no text takes long."""
    starts, found, at, line, column = [0, *(it.end() for it in re.finditer(BYTES_OF_LINE_END, text))], {}, 0, 1, 1
    import bisect
    for offset in sorted(offsets):
        number = bisect.bisect_right(starts, offset)
        if number != line:
            line, at, column = number, starts[number - 1], 1
        column += len(text[at:offset].decode(errors='replace'))
        at, found[offset] = offset, (line, column)
    return found


def lines_of(text):
    return re.split('\r\n|[\n\r\u2028\u2029]', text)
