"""What git knows of a repository beside its ignore files: where `info/exclude` is, and which file `core.excludesFile` names."""
import os

# What a caller such as a hook sets, which would have git speak of another repository.
OF_CALLER = ('GIT_DIR', 'GIT_WORK_TREE', 'GIT_COMMON_DIR', 'GIT_INDEX_FILE', 'GIT_PREFIX')


def line_of(path, most=1 << 16):
    """What a short file has, without its line end; None where there is none, or it can't be read."""
    try:
        with open(path, 'rb') as file:
            return os.fsdecode(file.read(most).rstrip(b'\r\n'))
    except (OSError, ValueError):
        return None


def common_folder(top):
    """The folder that has `info` of the repository whose work tree has this top: `.git`, or where it leads to. Work trees of one repository share it."""
    folder = os.path.join(top, '.git')
    if not os.path.isdir(folder):
        said = line_of(folder)
        if said is None or not said.startswith('gitdir:'):
            return folder
        folder = os.path.join(top, said.removeprefix('gitdir:').lstrip(' '))
    shared = line_of(os.path.join(folder, 'commondir'))
    return folder if shared is None else os.path.join(folder, shared)


def answer(words):
    """What git prints, without importing `subprocess`, which takes longer than git; None where it is missing, or its status isn't 0."""
    env = {key: it for key, it in os.environ.items() if key not in OF_CALLER}
    reading, writing = os.pipe()
    quiet = [(os.POSIX_SPAWN_OPEN, it, '/dev/null', os.O_RDWR, 0) for it in (0, 2)]
    try:
        child = os.posix_spawnp('git', ['git', *words], env, file_actions=[*quiet, (os.POSIX_SPAWN_DUP2, writing, 1)])
    except OSError:
        os.close(reading)
        return None
    finally:
        os.close(writing)
    with open(reading, 'rb') as file:
        out = file.read()
    return out if os.waitpid(child, 0)[1] == 0 else None


def excludes_file(top):
    """The path of the user's own ignore file: as git's settings name it, or where git looks without them."""
    named = answer(['-C', top, 'config', '--path', '-z', '--get', 'core.excludesFile'])
    if named is not None:
        return os.path.join(top, os.fsdecode(named.rstrip(b'\0'))) if named.rstrip(b'\0') else None
    home = os.environ.get('HOME')
    folder = os.environ.get('XDG_CONFIG_HOME') or home and os.path.join(home, '.config')
    return os.path.join(folder, 'git', 'ignore') if folder else None
