"""Makes the page, one file that works from a folder without a server: the module, the package's core, its hints
and the page's script are in it.

    build.py MODULE.wasm PAGE.html
"""
import base64
import os
import sys

HERE = os.path.dirname(os.path.realpath(__file__))


def text_of(path):
    with open(path, encoding='utf-8') as file:
        return file.read()


def coded(path):
    with open(path, 'rb') as file:
        return base64.b64encode(file.read()).decode()


def page(module):
    """The text of the page."""
    script = text_of(f'{HERE}/page.mjs')
    if '</script' in script:
        sys.exit('page.mjs has the end of a script in it')
    hints = text_of(f'{HERE}/../npm/lib/hints.json').replace('<', '\\u003c')
    parts = {
        '@MODULE@': coded(module), '@CORE@': coded(f'{HERE}/../npm/core.mjs'), '@HINTING@': coded(f'{HERE}/../npm/lib/hinting.mjs'), '@HINTS@': hints.rstrip(),
        '@PAGE@': script.rstrip(),
    }
    made = text_of(f'{HERE}/page.html')
    for name, part in parts.items():
        made = made.replace(name, part)
    return made


def main(words):
    if len(words) != 2:
        print(__doc__.strip(), file=sys.stderr)
        return 2
    with open(words[1], 'w', encoding='utf-8') as file:
        file.write(page(words[0]))
    return 0


if __name__ == '__main__':
    sys.exit(main(sys.argv[1:]))
