#!/usr/bin/env python3
"""Writes src/identifier_characters.hpp: XID_Start and XID_Continue above 7F, of the Unicode version of this Python."""
import os
import textwrap
import unicodedata


def ranges(holds):
    found, start = [], None
    for code in range(0x80, 0x110001):
        is_in = code < 0x110000 and not 0xD800 <= code < 0xE000 and holds(chr(code))
        if is_in and start is None:
            start = code
        if not is_in and start is not None:
            found.append((start, code - 1))
            start = None
    return textwrap.fill(', '.join('{%#x, %#x}' % it for it in found), 150, initial_indent='    ', subsequent_indent='    ', break_long_words=False).replace(',\n    0', ', 0')


def table(name, holds):
    return f'static const unsigned {name}[][2] = {{\n{ranges(holds)}}};\n'


TEXT = f'// XID_Start and XID_Continue above 7F, of Unicode {unicodedata.unidata_version} (identifier_characters.py writes this file).\n#pragma once\n'
TEXT += table('IDENTIFIER_STARTS', str.isidentifier) + table('IDENTIFIER_PARTS', lambda it: ('a' + it).isidentifier())
with open(os.path.join(os.path.dirname(os.path.realpath(__file__)), 'src/identifier_characters.hpp'), 'w', encoding='utf-8') as file:
    file.write(TEXT)
