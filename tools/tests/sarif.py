"""What SARIF 2.1.0 (OASIS, 27 March 2020) asks of a log, as far as `jslint-files` uses it: written by hand from the standard's text, section by section.
OASIS' own schema can't be had without a network."""
import re

LEVELS = ('none', 'note', 'warning', 'error')
# RFC 3986: what may stand in a reference, each % before two hexadecimal digits.
REFERENCE = re.compile(r"(?:[A-Za-z0-9._~:/?#\[\]@!$&'()*+,;=-]|%[0-9A-Fa-f]{2})*")
SCHEME = re.compile('[A-Za-z][A-Za-z0-9+.-]*:')


def is_text(it):
    return isinstance(it, str)


def is_number(least):
    return lambda it: isinstance(it, int) and not isinstance(it, bool) and it >= least


def is_one_of(*choices):
    return lambda it: it in choices


def is_flag(it):
    return isinstance(it, bool)


def is_reference(it):
    return is_text(it) and REFERENCE.fullmatch(it) is not None


def is_version(it):
    return is_text(it) and re.fullmatch(r'\d+\.\d+\.\d+(?:[-+].*)?', it) is not None


class Each:
    """An array of objects of a kind; of other things where they have to hold."""

    def __init__(self, kind, is_unique=False, least=0):
        self.kind, self.is_unique, self.least = kind, is_unique, least


# Each kind of object: its properties, those that have to be there with a `!`, and what their values are.
KINDS = {
    'sarifLog (3.13)': {'version!': is_one_of('2.1.0'), '$schema': is_reference, 'runs!': Each('run (3.14)')},
    'run (3.14)': {
        'tool!': 'tool (3.18)', 'invocations': Each('invocation (3.20)'), 'results': Each('result (3.27)'), 'columnKind': is_one_of('utf16CodeUnits', 'unicodeCodePoints'),
        'newlineSequences': Each(is_text, True, 1)},
    'tool (3.18)': {'driver!': 'toolComponent (3.19)'},
    'toolComponent (3.19)': {'name!': is_text, 'version': is_text, 'semanticVersion': is_version, 'rules': Each('reportingDescriptor (3.49)', True)},
    'reportingDescriptor (3.49)': {'id!': is_text, 'shortDescription': 'multiformatMessageString (3.12)', 'defaultConfiguration': 'reportingConfiguration (3.50)'},
    'multiformatMessageString (3.12)': {'text!': is_text},
    'reportingConfiguration (3.50)': {'level': is_one_of(*LEVELS), 'enabled': is_flag},
    'invocation (3.20)': {'executionSuccessful!': is_flag, 'exitCode': is_number(0)},
    'result (3.27)': {
        'message!': 'message (3.11)', 'ruleId': is_text, 'ruleIndex': is_number(-1), 'level': is_one_of(*LEVELS), 'locations': Each('location (3.28)'),
        'suppressions': Each('suppression (3.35)', True)},
    'message (3.11)': {'text!': is_text},
    'location (3.28)': {'physicalLocation!': 'physicalLocation (3.29)'},
    'physicalLocation (3.29)': {'artifactLocation!': 'artifactLocation (3.4)', 'region': 'region (3.30)'},
    'artifactLocation (3.4)': {'uri!': is_reference, 'uriBaseId': is_text},
    'region (3.30)': {'startLine!': is_number(1), 'startColumn': is_number(1), 'endLine': is_number(1), 'endColumn': is_number(1)},
    'suppression (3.35)': {'kind!': is_one_of('inSource', 'external'), 'justification': is_text},
}


def faults_of(kind, it, path):
    """What is wrong with a value that is to be of a kind."""
    if callable(kind):
        return [] if kind(it) else [f'{path}: {it!r}']
    if isinstance(kind, Each):
        return faults_of_array(kind, it, path)
    if not isinstance(it, dict):
        return [f'{path}: no object']
    wanted, found = {name.rstrip('!'): value for name, value in KINDS[kind].items()}, []
    found += [f'{path}: {kind} lacks {name[:-1]}' for name in KINDS[kind] if name.endswith('!') and name[:-1] not in it]
    found += [f'{path}: {kind} has {name}' for name in it if name not in wanted]
    return found + [fault for name, value in it.items() if name in wanted for fault in faults_of(wanted[name], value, f'{path}.{name}')]


def faults_of_array(kind, it, path):
    if not isinstance(it, list) or len(it) < kind.least:
        return [f'{path}: no array of {kind.least} or more']
    is_twice = kind.is_unique and any(each in it[:at] for at, each in enumerate(it))
    return [f'{path}: one twice'] * is_twice + [fault for at, each in enumerate(it) for fault in faults_of(kind.kind, each, f'{path}[{at}]')]


def faults_between(run, path):
    """What holds between the parts of a run: rules by their numbers (3.27.6), absolute references (3.4.4), ends behind starts (3.30.2)."""
    rules, found = run['tool']['driver'].get('rules', []), []
    ids = [it['id'] for it in rules]
    found += [f'{path}: a rule twice'] * (len(set(ids)) < len(ids))
    for at, result in enumerate(run.get('results', [])):
        where, number = f'{path}.results[{at}]', result.get('ruleIndex', -1)
        if number >= len(ids) or number >= 0 and ids[number] != result.get('ruleId', ids[number]):
            found.append(f'{where}: its rule is another one')
        for it in (each['physicalLocation'] for each in result.get('locations', [])):
            place, region = it['artifactLocation'], it.get('region', {})
            if SCHEME.match(place['uri']) and 'uriBaseId' in place:
                found.append(f'{where}: an absolute uri has a base')
            if (region.get('endLine', region.get('startLine', 1)), region.get('endColumn', 1 << 40)) < (region.get('startLine', 1), region.get('startColumn', 1)):
                found.append(f'{where}: it ends before it begins')
    return found


def faults(log):
    """What is wrong with a log."""
    found = faults_of('sarifLog (3.13)', log, 'log')
    return found or [fault for at, run in enumerate(log['runs']) for fault in faults_between(run, f'runs[{at}]')]
