"""Runs programs side by side on one input, and compares their time and peak memory."""
import filecmp
import os
import shutil
import statistics
import subprocess
import sys
import tempfile
from pathlib import Path

TOP = Path(__file__).resolve().parent.parent
ROUNDS = 5


def want(tool, what):
    """Ends the script with a line and a status of its own where a tool is missing that it can't do without."""
    if shutil.which(tool) is None:
        say(f"it wants {tool} ({what}), which isn't on the PATH")
        sys.exit(os.EX_UNAVAILABLE)


def say(text):
    """A line on standard error before a step that prints nothing for a while."""
    print(f"bench/{Path(sys.argv[0]).name}: {text}", file=sys.stderr, flush=True)


def plain():
    """The path of the plain Rust program, built."""
    sources = TOP / "bench/plain/src"
    built = sources.parent / "target/plain"
    if built.exists() and all(source.stat().st_mtime < built.stat().st_mtime for source in sources.iterdir()):
        return built
    want("rustc", "the compiler of Rust, for the plain program")
    say("building the plain program")
    built.parent.mkdir(exist_ok=True)
    new = built.with_suffix(f".{os.getpid()}")
    subprocess.run(["rustc", "--edition", "2021", "-C", "opt-level=3", "-o", new, sources / "main.rs"], check=True)
    new.rename(built)
    return built


def program():
    """The path of rdfdelta, the one that bin/rdfdelta runs."""
    done = subprocess.run([TOP / "bin/program"], stdout=subprocess.PIPE, text=True)
    if done.returncode != 0:
        sys.exit(done.returncode)
    return Path(done.stdout.strip())


def knows(program, word, what=""):
    """Whether a program has a command, by its help; where not, a line says what is left out."""
    done = subprocess.run([program, "--help"], stdout=subprocess.PIPE, text=True, check=True)
    if f"\n  {word} " in done.stdout:
        return True
    if what:
        say(f"{program} has no command {word}: {what} left out")
    return False


def is_current(program):
    """Whether no source is newer than a program of the crates, as bin/program looks at it."""
    parts = [path for name in ("src", "specs", "proofs") for path in TOP.glob(f"crates/*/{name}")]
    words = ["find", *parts, TOP / "crates.txt", "-newer", program, "-print", "-quit"]
    return program.exists() and not subprocess.run(words, stdout=subprocess.PIPE, check=True).stdout


def bench_program(name, *words):
    """The path of a crate's program that measures, which a first run proves and builds where a source is newer."""
    crate = TOP / "crates" / name
    built = crate / "out" / name
    if is_current(built):
        return built
    want("rt", "the toolchain that proves and builds its program")
    say(f"proving and building {name}, which takes some minutes the first time")
    run_once = ["rt", "run", "--", *words]
    done = subprocess.run(run_once, cwd=crate, stdin=subprocess.DEVNULL, capture_output=True, text=True)
    if done.returncode != 0:
        sys.exit(f"{done.stdout}{done.stderr}{name} was not built")
    built.touch()
    return built


def built():
    """The paths of rdfdelta and of the plain Rust program."""
    return program(), plain()


def run(words, source, out):
    """Processor seconds and peak memory in MiB of one run."""
    with open(source, "rb") as stdin, open(out, "wb") as stdout:
        process = subprocess.Popen([str(word) for word in words], stdin=stdin, stdout=stdout)
        _, status, usage = os.wait4(process.pid, 0)
    if status != 0:
        sys.exit(f"{words}: status {status}")
    return usage.ru_utime + usage.ru_stime, usage.ru_maxrss / 1024


def take_turns(title, runs, folder):
    """Runs programs ROUNDS times in turn, each by its words and on an input of its own, and prints what they took; of each the medians
    of seconds and of MiB. What one printed stands in the folder under its name."""
    found = {name: [] for name in runs}
    say(f"{title}: {ROUNDS} rounds")
    for _ in range(ROUNDS):
        for name, (words, source) in runs.items():
            found[name].append(run(words, source, Path(folder, name)))
    print(f"{title}: medians of {ROUNDS} rounds in turn")
    taken = {name: tuple(map(statistics.median, zip(*pairs))) for name, pairs in found.items()}
    for name, (seconds, memory) in taken.items():
        print(f"  {name:{max(10, *map(len, runs))}} {seconds:8.3f} s {memory:8.1f} MiB")
    return taken


def compare(title, programs, source, differs=None):
    """Runs each program ROUNDS times in turn, prints its medians and ours against it, and returns the seconds of each.

    An output that isn't ours is a fault, but of the programs for which `differs` says why."""
    folder = Path(tempfile.gettempdir())
    outs = {name: folder / f"rdfdelta-bench-{name}.out" for name in programs}
    found = {name: [] for name in programs}
    say(f"{title}: {ROUNDS} rounds")
    for _ in range(ROUNDS):
        for name, words in programs.items():
            found[name].append(run(words, source, outs[name]))
    size = os.path.getsize(source) / 1e6
    print(f"{title}: {size:.1f} MB, medians of {ROUNDS} rounds in turn")
    seconds = {name: statistics.median(pair[0] for pair in pairs) for name, pairs in found.items()}
    memory = {name: statistics.median(pair[1] for pair in pairs) for name, pairs in found.items()}
    ours, *others = programs
    for name in programs:
        print(f"  {name:10} {seconds[name]:8.3f} s {memory[name]:8.1f} MiB")
    for name in others:
        is_same = filecmp.cmp(outs[ours], outs[name], shallow=False)
        same = "the same output" if is_same else (differs or {}).get(name, "ANOTHER OUTPUT")
        rate, size = seconds[name] / seconds[ours], memory[ours] / memory[name]
        print(f"  against {name}: {rate:.2f} of its rate, {size:.2f} times its memory, {same}")
    for out in outs.values():
        out.unlink()
    return seconds
