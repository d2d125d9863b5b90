"""Programs that measure: built outside the repository from copies of its crates, since in it each `.rt` file is one of the gate's."""
import functools
import os
import shutil
import statistics
import subprocess
import sys
import tempfile
import time

TOP = os.path.dirname(os.path.dirname(os.path.dirname(os.path.abspath(__file__))))
PARTS = ("src", "specs", "proofs")
PACKAGES = ("libjs-jquery", "libjs-d3", "libjs-three", "node-react-dom", "node-acorn", "node-escodegen", "esbuild", "minify", "terser", "time", "valgrind")
PROGRAMS = ("esbuild", "minify", "terser", "time", "valgrind")
SCRIPTS = (
    "/usr/share/javascript/jquery/jquery.js",
    "/usr/share/javascript/jquery/jquery.min.js",
    "/usr/share/javascript/d3/d3.js",
    "/usr/share/javascript/d3/d3.min.js",
    "/usr/share/javascript/three/three.js",
    "/usr/share/javascript/three/three.min.js",
    "/usr/share/nodejs/react-dom/umd/react-dom.development.js",
    "/usr/share/nodejs/react-dom/umd/react-dom.production.min.js",
)


def install():
    """Installs Debian's packages where something of them is missing."""
    if not all(map(os.path.exists, SCRIPTS)) or not all(map(shutil.which, PROGRAMS)):
        subprocess.run(["apt-get", "update"], check=True, stdout=sys.stderr)
        subprocess.run(["apt-get", "install", "-y", "--no-install-recommends", *PACKAGES], check=True, stdout=sys.stderr)


@functools.lru_cache(maxsize=None)
def jslint():
    """The program that is measured: $JSLINT, or the one that ./jslint runs."""
    found = os.environ.get("JSLINT") or subprocess.run([os.path.join(TOP, "jslint"), "--program"], check=True, stdout=subprocess.PIPE, text=True).stdout
    return found.strip()


def named():
    """The same program with the names of its functions: of the release's two the one with glibc."""
    return jslint().replace("/release/x86_64-linux-musl/", "/release/x86_64-linux/")


def scripts():
    """The files of the command line, or those of Debian's packages."""
    install()
    return sys.argv[1:] or list(SCRIPTS)


def below(names):
    """The lines of crates.txt that these crates stand on, with their own."""
    with open(os.path.join(TOP, "crates.txt")) as lines:
        table = dict(line.split(":", 1) for line in lines if ":" in line)
    wanted, todo = set(), list(names)
    while todo:
        name = todo.pop()
        if name in table and name not in wanted:
            wanted.add(name)
            todo += table[name].split()
    return {name: text.strip() for name, text in table.items() if name in wanted}


def built(name, main, needs):
    """The path of the program that is kept as this text, proved and built where a source is newer; some minutes the first time."""
    room = os.path.join(tempfile.gettempdir(), f"jslint-{name}")
    lines = below(needs)
    for crate in lines:
        home, copy = os.path.join(TOP, "crates", crate), os.path.join(room, "crates", crate)
        for part in PARTS:
            shutil.rmtree(os.path.join(copy, part), ignore_errors=True)
            if os.path.isdir(os.path.join(home, part)):
                shutil.copytree(os.path.join(home, part), os.path.join(copy, part))
        if os.path.isdir(os.path.join(home, "out")) and not os.path.isdir(os.path.join(copy, "out")):
            shutil.copytree(os.path.join(home, "out"), os.path.join(copy, "out"))
    folder = os.path.join(room, "crates", name)
    os.makedirs(os.path.join(folder, "src"), exist_ok=True)
    shutil.copyfile(main, os.path.join(folder, "src", "main.rt"))
    with open(os.path.join(room, "crates.txt"), "w") as out:
        for crate, text in lines.items():
            print(f"{crate}: {text}", file=out)
        print(f"{name}: {' '.join(needs)} anyhow", file=out)
    subprocess.run([os.environ.get("RT", "rt"), "run"], cwd=folder, check=True, stdout=sys.stderr)
    return os.path.join(folder, "out", name)


def pinned(words):
    """On the processor that CPU names, if it does."""
    return ["taskset", "-c", os.environ["CPU"], *words] if "CPU" in os.environ else list(words)


def process(words, runs=5, well=(0,)):
    """The least seconds of some runs of a process, and its peak memory in KiB; none where it refuses."""
    words = pinned(words)
    best = float("inf")
    for _ in range(runs):
        start = time.perf_counter()
        done = subprocess.run(words, stdout=subprocess.DEVNULL, stderr=subprocess.DEVNULL)
        best = min(best, time.perf_counter() - start)
        if done.returncode not in well:
            return None, None
    return best, peak(words)


def peak(words):
    """The peak memory of a process in KiB, by GNU time: what `wait4` says of a child has the size of its parent before it began."""
    with tempfile.NamedTemporaryFile("r") as said:
        subprocess.run(["/usr/bin/time", "-f", "%M", "-q", "-o", said.name, *words], stdout=subprocess.DEVNULL, stderr=subprocess.DEVNULL)
        return int(said.read())


def timed(words, cpus, runs, well=(0,)):
    """The processor and the wall milliseconds of some runs on these processors; none where it refuses."""
    found = []
    for _ in range(runs):
        start = time.perf_counter()
        child = subprocess.Popen(words, stdout=subprocess.DEVNULL, stderr=subprocess.DEVNULL, preexec_fn=lambda: os.sched_setaffinity(0, cpus))
        _, status, usage = os.wait4(child.pid, 0)
        child.returncode = os.waitstatus_to_exitcode(status)
        if child.returncode not in well:
            return None
        found.append(((usage.ru_utime + usage.ru_stime) * 1e3, (time.perf_counter() - start) * 1e3))
    return [*zip(*found)]


def in_turn(tools, places, runs, well=(0,)):
    """Of each of these tools the processor and the wall milliseconds of its runs at each place, a set of processors; none where it refuses.

    The tools run in turn, so that a slower minute of the host isn't one tool's.
    """
    rounds = [{name: [timed(words, cpus, 1, well) for cpus in places] for name, words in tools.items()} for _ in range(runs)]
    found = {name: [it[name] for it in rounds] for name in tools}
    return {name: None if any(None in it for it in each) else [[it[at][what][0] for it in each] for at in range(len(places)) for what in (0, 1)] for name, each in found.items()}


def one_processor():
    """The processor that CPU names, or the last."""
    return {int(os.environ["CPU"])} if "CPU" in os.environ else {max(os.sched_getaffinity(0))}


def print_beside(tools, files, runs=7):
    """Prints what our program, the first of these tools, and the others take for each file, and then how ours compares with the second.

    Times are in milliseconds, the least and the median of some runs, on one processor (that CPU names, or the last) and on all.
    """
    places = [one_processor(), os.sched_getaffinity(0)]
    print("| Script | bytes | program | one processor: processor | wall | all: processor | wall | MiB |\n|---|---|---|---|---|---|---|---|")
    ratios = []
    for path in files:
        least, words_of = [], tools(path)
        for name, times in in_turn(words_of, places, runs).items():
            cells, size = ["refused", "", "", ""], ""
            if times:
                cells, size = [f"{min(it):.1f} {statistics.median(it):.1f}" for it in times], peak(words_of[name]) / 1024
                least.append([*map(min, times), size])
                size = f"{size:.0f}"
            print(f"| {os.path.basename(path)} | {os.path.getsize(path)} | {name} | {' | '.join(cells)} | {size} |", flush=True)
        if len(least) > 1:
            ratios.append((os.path.basename(path), [ours / theirs for ours, theirs in zip(*least[:2])]))
    names = [*tools("")]
    print(f"\n| {names[0]} to {names[1]} | one processor: processor | wall | all: processor | wall | memory |\n|---|---|---|---|---|---|")
    ratios.append(("mean", [statistics.mean(it) for it in zip(*(it for _, it in ratios))]))
    for name, found in ratios:
        print(f"| {name} | " + " | ".join(f"{it:.2f}" for it in found) + " |")
