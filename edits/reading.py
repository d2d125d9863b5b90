"""Whether edits reach the prover: one that doesn't compile, or whose contract can't be read, says nothing. No proof is tried here, so all edits can be asked."""
import verdicts


def unreadable(crate, edits):
    """Of the edits those that the compiler or the reader of contracts refuses, so that no proof is tried, and what it says first."""
    texts = verdicts.edited(crate, edits)
    ran = verdicts.RT.checked(crate, texts, verdicts.ONE_JOB + ['--only', ''], None)
    if not ran.returncode:
        return []
    if len(edits) == 1:
        said = [it for it in ran.stdout.split('\n') if ' error' in it or it.startswith('error')]
        return [(edits[0].name, (said or [ran.stdout[-160:]])[0])]
    half = len(edits) // 2
    return unreadable(crate, edits[:half]) + unreadable(crate, edits[half:])


def all_unreadable(crate, words):
    """Those of the crate's edits that don't reach the prover. Those of different functions share a check, and a check that fails is halved."""
    left = [it for must_be in ('refused', 'accepted') for it in verdicts.edits_of(crate, words, must_be)]
    while left:
        group = []
        for edit in left:
            others = [it for it in group if it.function in (edit.function, None)]
            group += [] if others or (not edit.function and group) else [edit]
        left = [it for it in left if it not in group]
        yield from unreadable(crate, group)
