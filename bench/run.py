#!/usr/bin/env python3
"""Measures the program on a folder: builds, import, asks, opening, and a poll of one change, beside plain files.

  bench/run.py UNITS FOLDER [--asks 2000] [--changes 50] [--rounds 3] [--only builds|opening|asks|polls] [--ix PROGRAM]

FOLDER is a new folder on the disk to be measured; it is removed at the end. README.md says what each line shows.
"""
import argparse
import os
import resource
import shutil
import statistics
import subprocess
import sys
import time

import script

HERE = os.path.dirname(os.path.realpath(__file__))
NONE = '{"format":1,"lanes":[]}'


class Spent:
    """Seconds on the wall and of the processor."""

    def __init__(self, wall, cpu):
        self.wall, self.cpu = wall, cpu

    def __add__(self, other):
        return Spent(self.wall + other.wall, self.cpu + other.cpu)

    def __sub__(self, other):
        return Spent(self.wall - other.wall, self.cpu - other.cpu)


def median(all_):
    return Spent(statistics.median(it.wall for it in all_), statistics.median(it.cpu for it in all_))


def beside(pairs):
    """How two deeds that took turns compare: the median of the ratios of each turn, the least and the greatest, on the wall and of the processor."""
    walls, cpus = ([one / max(other, 1e-9) for one, other in both] for both in ([(a.wall, b.wall) for a, b in pairs], [(a.cpu, b.cpu) for a, b in pairs]))
    wall, cpu = (f"{statistics.median(it):.2f} ({min(it):.2f} to {max(it):.2f})" for it in (walls, cpus))
    return f"{wall} on the wall, {cpu} of the processor"


def run(words, text="", status=0, into=subprocess.DEVNULL):
    """Runs a command on a text, and what it spent."""
    before, at = resource.getrusage(resource.RUSAGE_CHILDREN), time.monotonic()
    ran = subprocess.run(words, input=text.encode(), stdout=into, stderr=subprocess.PIPE)
    wall, after = time.monotonic() - at, resource.getrusage(resource.RUSAGE_CHILDREN)
    if ran.returncode != status:
        sys.exit(f"{words}: status {ran.returncode} in the place of {status}: {ran.stderr.decode()[-300:]}")
    return Spent(wall, after.ru_utime + after.ru_stime - before.ru_utime - before.ru_stime)


class Bench:
    def __init__(self, ix, folder, rounds):
        self.ix, self.folder, self.rounds = ix, folder, rounds
        # The store of the last builds, and how many folders there are.
        self.store, self.places = None, 0

    def place(self, like=None):
        """A new folder, not made yet or a copy. What lies on the disk stays until the end, since a disk is slow for a while where much was removed; and all of it is written, so that no run waits for what came before."""
        self.places += 1
        at = f"{self.folder}/{self.places}"
        if like:
            shutil.copytree(like, at)
        os.sync()
        return at

    def replay(self, store, text, into=subprocess.DEVNULL):
        return run([self.ix, store, "replay"], text, into=into)

    def reading(self, text):
        """A script that is read whole and then refused, for a step at its end that isn't one: nothing is opened or run."""
        end = text.rindex("]]}")
        return run([self.ix, f"{self.folder}/none", "replay"], text[:end] + ("," if text[end - 1] == "}" else "") + '{"do":"none"}' + text[end:], 2)

    def often(self, deed):
        return median([deed() for _ in range(self.rounds)])

    def builds(self, texts):
        """Builds all units in a fresh store; without reading the scripts, and without opening between the parts."""
        store, spent, open_ = self.place(), Spent(0, 0), Spent(0, 0)
        with open(f"{self.folder}/transcript", "wb") as into:
            for at, text in enumerate(texts):
                spent += self.replay(store, text, into) - self.reading(text) - open_
                if at + 1 < len(texts):
                    open_ = self.replay(store, NONE)
        self.store = store
        return spent

    def plain(self):
        """The same files without an index."""
        ran = subprocess.run([sys.executable, f"{HERE}/plain.py", f"{self.folder}/transcript", self.store, self.place()], stdout=subprocess.PIPE, check=True)
        wall, cpu, files, syncs = ran.stdout.split()
        return Spent(float(wall), float(cpu)), int(files), int(syncs)


def of_folder(folder):
    """The paths of all files below, and their bytes together."""
    found = [os.path.join(at, file) for at, _, files in os.walk(folder) for file in files]
    return found, sum(os.path.getsize(it) for it in found)


def compare(what, pairs):
    pairs = list(pairs)
    if pairs:
        print(f"  {what + ':':<26} {beside(pairs)}", flush=True)


def say(what, spent, count, unit, more=""):
    print(f"{what:<28}{spent.wall * 1000:>10.1f}{spent.cpu * 1000:>10.1f}{count / max(spent.wall, 1e-9):>14,.0f} {unit}{more}", flush=True)


def main():
    parser = argparse.ArgumentParser()
    parser.add_argument("units", type=int)
    parser.add_argument("folder")
    parser.add_argument("--asks", type=int, default=2000)
    parser.add_argument("--changes", type=int, default=50)
    parser.add_argument("--rounds", type=int, default=3)
    parser.add_argument("--only", choices=["builds", "opening", "asks", "polls"])
    parser.add_argument("--ix", default=f"{os.path.dirname(HERE)}/ix")
    words = parser.parse_args()
    os.makedirs(words.folder)
    try:
        measure(words, Bench(os.path.abspath(words.ix), os.path.abspath(words.folder), words.rounds))
    finally:
        shutil.rmtree(words.folder)


def measure(words, bench):
    run([bench.ix, "--version"])
    steps = [script.build(unit, words.units) for unit in range(words.units)]
    texts, rows = script.scripts(steps), script.rows(steps)
    # Without the measure of builds one round of them makes the store.
    built, plain = builds(bench, texts, words.rounds if words.only in (None, "builds") else 0)
    paths, size = of_folder(bench.store)
    megabytes = sum(map(len, texts)) / 1e6
    print(f"{words.units} units, {len(paths)} files of {size / 1e6:.1f} MB, {rows} rows to import; scripts of {megabytes:.1f} MB; medians of {words.rounds}")
    print(f"{'':<28}{'wall ms':>10}{'cpu ms':>10}{'in a second':>14}")
    if words.only in (None, "builds"):
        say("reading the scripts", bench.often(lambda: sum((bench.reading(it) for it in texts), Spent(0, 0))), megabytes, "MB")
        say("builds", median(built), words.units, "builds")
        files = [spent for spent, _, _ in plain]
        say("  plain files", median(files), words.units, "builds", f"   {plain[0][1]} files, {plain[0][2]} syncs")
        compare("builds to plain files", zip(built, files))
        compare("plain to those before", zip(files[1:], files))
    if words.only in (None, "opening"):
        opening(bench, paths, size)
    if words.only in (None, "asks"):
        asks(bench, words, rows)
    if words.only in (None, "polls"):
        polls(bench, words)


def builds(bench, texts, rounds):
    """All units built and the same files written plainly, in turn."""
    built, plain = [], []
    for _ in range(rounds):
        built.append(bench.builds(texts))
        plain.append(bench.plain())
    if not rounds:
        bench.builds(texts)
    return built, plain


def opening(bench, paths, size):
    pairs = [(bench.replay(bench.store, NONE), run(["xargs", "-0", "sha256sum"], "\0".join(paths))) for _ in range(bench.rounds)]
    say("opening", median([it for it, _ in pairs]), size / 1e6, "MB")
    say("  sha256sum of all files", median([it for _, it in pairs]), size / 1e6, "MB")
    compare("opening to sha256sum", pairs)


def asks(bench, words, rows):
    store = bench.store
    open_ = bench.often(lambda: bench.replay(store, NONE))
    poll = bench.often(lambda: bench.replay(store, script.scripts([{"do": "poll"}])[0]))
    say("import of all", poll - open_, rows, "rows")
    text = script.scripts([{"do": "poll"}] + [script.ask(number, words.units) for number in range(words.asks)])[0]
    say("asks", bench.often(lambda: bench.replay(store, text) - bench.reading(text)) - poll, words.asks, "asks")


def polls(bench, words):
    edits = [script.build(number * 37 % words.units, words.units, number + 1) for number in range(words.changes)]
    one, other = (script.scripts([{"do": "poll"}] + [step for edit in edits for step in [edit] + polls])[0] for polls in ([{"do": "poll"}], []))
    changed = [bench.replay(bench.place(bench.store), one) - bench.replay(bench.place(bench.store), other) for _ in range(bench.rounds)]
    say("polls of one change", median(changed), words.changes, "polls")


main()
