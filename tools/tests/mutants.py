"""The score of the definitions (tools/definitions/mutate.js): a mutant that a row sees, one that the list has, one that it lacks; and a list that is stale, has
a mutant that a row sees, or a line without a reason, is refused.

Each test is a function that raises where something is wrong, and Skipped where it can't be tried. Its argument is a room: a folder of its own.
"""
import subprocess

from libraries import node
from recipes import is_well

TOP = __file__.rsplit('/tools/tests/', 1)[0]
FILE = 'early_errors/specs/Around.antt'
# a mutant that means the same, and one that a row sees
SAME = f'{FILE}\tprivate_keys (gap rest)\talways []: private_keys rest → []'
SEEN = f'{FILE}\tis_label LabeledStatement\ttruth: true → false'


def answered(room, lines, *words):
    """The status of mutate.js with this list, and what it prints."""
    room.put('list.txt', ''.join(f'{it}\n' for it in lines))
    command = [node(20), f'{TOP}/tools/definitions/mutate.js', '--list', room.folder + '/list.txt', *words]
    ran = subprocess.run(command, stdout=subprocess.PIPE, stderr=subprocess.PIPE, text=True)
    return ran.returncode, ran.stdout + ran.stderr


def holds(answer, status, *texts):
    is_well(answer[0] == status and all(it in answer[1] for it in texts), answer)


def mutants(room):
    """Seen by a row, in the list, and neither."""
    holds(answered(room, [], '--only', SEEN, 'early'), 0, '1 mutants of ', ' 1 seen by a row')
    holds(answered(room, ['# a comment', f'{SAME}\ta class body has no gaps'], '--only', SAME, 'early'), 0, 'the same  ', 'has no gaps', ' 1 the same, 0 UNSEEN')
    holds(answered(room, [], '--only', SAME, 'early'), 1, f'UNSEEN    crates/{FILE}:', 'no row runs it', ' 1 UNSEEN')


def lists_of_mutants(room):
    """What is wrong with a list."""
    stale = f'{FILE}\tprivate_keys (hole rest)\talways []: private_keys rest → []'
    holds(answered(room, [f'{stale}\tonce', f'{SEEN}\tso they say'], '--only', SEEN, 'early'), 1, 'list.txt:1: no such mutant any more', 'the list has it, but a row sees it', '; 2 faults ')
    holds(answered(room, [SAME], '--only', SEEN, 'early'), 1, 'list.txt:1: not a file')
    holds(answered(room, [f'{SAME}\tonce', f'{SAME}\ttwice'], '--only', SEEN, 'early'), 1, 'list.txt:2: stands twice')
    holds(answered(room, [], 'latest'), 2, 'unknown: latest')
    holds(answered(room, [], '--turns', '2', '--turn', '2', 'early'), 2, '--turn K is below')


TESTS = [mutants, lists_of_mutants]
