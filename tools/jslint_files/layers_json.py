"""The layers of a document of settings as JSON, for programs that read no TOML, such as the language server (`--print-layers`).

`{"settings": {..}, "overrides": [{"files": [..], "settings": {..}}]}`, or, where the document is refused, `{"refused": {"line": 1, "column": 1, "words": ".."}}`.
What is taken is valid JSON, since the program takes no values but texts, numbers, booleans, arrays and tables of these.
"""
import json

from .engine import engine_of
from .layers import FILES, OVERRIDES, Layers, has_toml
from .outcomes import Refused
from .reading import MOST, read
from .settings import Unfit, read_toml
from .streams import Wrong, say


def layers_of(text):
    """The layers of a document that is taken."""
    found = read_toml(text) or {}
    without = lambda table, key: {name: it for name, it in table.items() if name != key}
    return {'settings': without(found, OVERRIDES), 'overrides': [{FILES: it[FILES], 'settings': without(it, FILES)} for it in found.get(OVERRIDES, [])]}


def judged(engine, text):
    """What is printed of a document, and the status."""
    try:
        if len(text) > MOST:
            raise Refused(f'longer than {MOST} bytes')
        Layers().judge(engine, '-', text, None)
    except Refused as why:
        words = why.words if isinstance(why, Unfit) else str(why)
        return {'refused': {'line': why.found.line, 'column': why.found.column, 'words': words}}, 2
    return layers_of(text), 0


def say_layers(here):
    """Prints the layers of the document on standard input."""
    if not has_toml():
        raise Wrong('--print-layers needs Python 3.11, which reads TOML')
    try:
        text = read(0)
    except Refused as why:
        raise Wrong(f'standard input: {why}') from None
    told, status = judged(engine_of(here), text)
    say(f'{json.dumps(told)}\n')
    return status
