"""The forms that are one document: ESLint's JSON, SARIF, JUnit. Each takes pairs of a file's name and what came of it, and gives pieces of text."""
import json
import os
import re

from .forms import Columns, absolute
from .reading import MOST
from .rule_table import ON, RULES

OTHERS = {'refused': 'The text was not checked', 'suppression': 'A comment that turns nothing off'}


def text_of(outcome):
    """A file's text, unless not all of it was read."""
    return outcome.text.decode(errors='replace') if outcome.text is not None and len(outcome.text) <= MOST else None


# ---- ESLint's

def as_message(it, columns, ends):
    fatal = {} if it.rule or it.is_noted else {'fatal': True}
    message = {'ruleId': it.rule, **fatal, 'severity': 1 if it.is_noted or it.is_warning else 2, 'message': it.text}
    message.update(line=it.line, column=columns.units_at(it.line, it.column))
    if it.end:
        message.update(endLine=it.end[0], endColumn=ends[it.end])
    return {**message, 'hint': it.hint} if it.hint else message


def as_eslint(name, outcome):
    """A file's element of the array that ESLint's formatter writes. A `hint` is more than that has."""
    source = text_of(outcome) if outcome.found else None
    columns, of_ends, seen = Columns(source or ''), Columns(source or ''), outcome.seen()
    ends = {it: of_ends.units_at(*it) for it in sorted({each.end for each in outcome.found if each.end})}
    messages = [(it, as_message(it, columns, ends)) for it in outcome.found]
    directive = lambda it: {'suppressions': [{'kind': 'directive', 'justification': reason} for reason in it.reasons] + [{'kind': 'file', 'justification': ''}] * it.is_known}
    warnings = sum(it.is_noted or it.is_warning for it in seen)
    return {
        'filePath': absolute(name), 'messages': [made for it, made in messages if not it.is_suppressed],
        'suppressedMessages': [{**made, **directive(it)} for it, made in messages if it.is_suppressed],
        'errorCount': len(seen) - warnings, 'fatalErrorCount': sum(it.rule is None and not it.is_noted for it in seen), 'warningCount': warnings,
        'fixableErrorCount': 0, 'fixableWarningCount': 0, **({} if source is None else {'source': source}), 'usedDeprecatedRules': [],
    }


def eslint(results):
    yield json.dumps([as_eslint(name, outcome) for name, outcome in results], separators=(',', ':')) + '\n'


# ---- SARIF

def artifact(name):
    """A file's place: a name is relative to where this runs, unless it is absolute."""
    from urllib.parse import quote
    path = quote(os.fsencode(name))
    return {'uri': f'file://{path}'} if os.path.isabs(name) else {'uri': path, 'uriBaseId': '%SRCROOT%'}


def region_of(it, has_mark):
    """From where to where a report is, if its end is known. A byte order mark is no character of the text."""
    column_of = lambda line, column: max(1, column - (has_mark and line == 1))
    region = {'startLine': it.line, 'startColumn': column_of(it.line, it.column)}
    if it.end:
        region.update({'endLine': it.end[0]} if it.end[0] != it.line else {}, endColumn=column_of(*it.end))
    return region


def as_result(name, it, has_mark, ids):
    rule = it.rule or 'refused'
    result = {
        # (a program may have rules of its own)
        'ruleId': rule, **({'ruleIndex': ids.index(rule)} if rule in ids else {}), 'level': 'note' if it.is_noted else 'warning' if it.is_warning else 'error',
        'message': {'text': it.text + (f' (perhaps: {it.hint})' if it.hint else '')},
        'locations': [{'physicalLocation': {'artifactLocation': artifact(name), 'region': region_of(it, has_mark)}}],
    }
    because = lambda reason: {'kind': 'inSource', **({'justification': reason} if reason else {})}
    return {**result, 'suppressions': [because(reason) for reason in it.reasons] + [{'kind': 'external'}] * it.is_known} if it.is_suppressed else result


def described(rule, text):
    is_off = {'enabled': False} if rule in RULES and rule not in ON else {}
    return {'id': rule, 'shortDescription': {'text': text}, 'defaultConfiguration': {**is_off, 'level': 'error'}}


def sarif(version):
    """SARIF 2.1.0 (OASIS). Columns are characters, and lines end as the program says; the log says so too."""
    def form(results):
        ids, found, is_refused = [*RULES, *OTHERS], [], False
        for name, outcome in results:
            has_mark = outcome.text is not None and outcome.text.startswith(b'\xef\xbb\xbf')
            found += [as_result(name, it, has_mark, ids) for it in outcome.found]
            is_refused = is_refused or outcome.status() == 2
        driver = {'name': 'jslint', **({'semanticVersion': version} if version else {}), 'rules': [described(*it) for it in {**RULES, **OTHERS}.items()]}
        run = {
            'tool': {'driver': driver}, 'columnKind': 'unicodeCodePoints',
            'newlineSequences': ['\r\n', '\n', '\r', '\u2028', '\u2029'], 'invocations': [{'executionSuccessful': not is_refused}], 'results': found,
        }
        yield json.dumps({'$schema': 'https://json.schemastore.org/sarif-2.1.0.json', 'version': '2.1.0', 'runs': [run]}) + '\n'

    return form


# ---- JUnit

def clean(text):
    """A text as XML can have it."""
    return re.sub('[^\t\n\r\x20-\ud7ff\ue000-\ufffd\U00010000-\U0010ffff]', '\ufffd', text)


def kind_of(seen):
    """What a case is by what was found."""
    first = next((it for it in seen if not it.is_warning), None)
    return None if first is None else 'failure' if first.rule else 'skipped' if first.is_noted else 'error'


def as_case(name, outcome):
    """A script's case, and whether it failed, is an error, or is left out; None where it passed."""
    from xml.sax.saxutils import escape, quoteattr
    seen, kind, body = outcome.seen(), None, ''
    if seen:
        kind = kind_of(seen)
        lines = ''.join(f'{it.line}:{it.column} {it.words()}\n' for it in seen)
        message = seen[0].words() if len(seen) == 1 else f'{len(seen)} reports'
        # (a script with warnings alone passes)
        head = f'{kind} message={quoteattr(clean(message))}' if kind else 'system-out'
        body = f'<{head}>{escape(clean(lines))}</{kind or head}>'
    return f'<testcase classname="jslint" name={quoteattr(clean(name))}>{body}</testcase>\n', kind


def junit(results):
    """One case for each script, as Ant's and Jenkins' readers take it."""
    cases = [as_case(name, outcome) for name, outcome in results]
    failures, errors, skipped = (sum(kind == it for _, kind in cases) for it in ('failure', 'error', 'skipped'))
    counts = f'tests="{len(cases)}" failures="{failures}" errors="{errors}" skipped="{skipped}"'
    yield f'<?xml version="1.0" encoding="UTF-8"?>\n<testsuites>\n<testsuite name="jslint" {counts}>\n'
    yield from (text for text, _ in cases)
    yield '</testsuite>\n</testsuites>\n'
