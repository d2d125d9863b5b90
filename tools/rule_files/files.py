"""Reads the files of the repository."""
import glob
import os

TOP = os.path.dirname(os.path.dirname(os.path.dirname(os.path.realpath(__file__))))


def read(path, top=TOP):
    """A file's text, or None where there is none."""
    if not os.path.isfile(f'{top}/{path}'):
        return None
    with open(f'{top}/{path}', encoding='utf-8', newline='') as file:
        return file.read()


def specs_of_rules(top=TOP):
    """The definitions of the crates of rules."""
    return [os.path.relpath(it, top) for it in sorted(glob.glob(f'{top}/crates/*rules/specs/*.antt'))]
