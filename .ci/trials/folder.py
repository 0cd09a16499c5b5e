#!/usr/bin/env python3
"""Trials of the built program on real folders, outside the gate; each compares with model.py.

  folder.py PROGRAM ROOM [TRIAL..]    ROOM is a new folder on a disk; the trials of the table at the end, or those named

They want strace, and for small and read-only disks the right to mount.
"""
import json
import os
import random
import re
import shutil
import signal
import subprocess
import sys
import time

import model

PROGRAM, ROOM = (os.path.abspath(it) for it in sys.argv[1:3])
CALLS = "openat,open,creat,write,pwrite64,fsync,fdatasync,rename,renameat,renameat2,unlink,unlinkat,mkdir,mkdirat,close,read,lstat,stat,newfstatat,fstat,statx,getdents64,ftruncate"
KILLS = int(os.environ.get("KILLS", "100"))
NONE = {"format": 1, "lanes": []}


def place(name):
    at = f"{ROOM}/{name}"
    shutil.rmtree(at, ignore_errors=True)
    os.makedirs(at)
    return at


def run(folder, words, script=None, **how):
    text = json.dumps(script).encode() if script is not None else b""
    ran = subprocess.run([PROGRAM, folder, *words], input=text, capture_output=True, timeout=600, **how)
    return ran.returncode, ran.stdout.decode(), ran.stderr.decode()


def wanted(came, should, what):
    if came != should:
        sys.exit(f"FAILED: {what}\n  came:   {str(came)[:2000]}\n  wanted: {str(should)[:2000]}")


def build(number, output, shared=3):
    """A build whose unit and first record differ from those of every other number, with a record that many share."""
    usr, base = f"s:f{number}", f"c:h{number % shared}"
    records = [{"path": f"{output}.swift", "symbols": [{"usr": usr, "name": f"f{number}", "kind": "Function"}, {"usr": base, "name": base, "kind": "Function", "lang": "C"}],
                "occurrences": [{"usr": usr, "line": number + 1, "col": 6, "roles": ["Definition"]},
                                {"usr": base, "line": number + 2, "col": 3, "roles": ["Reference", "Call"], "relations": [{"usr": usr, "roles": ["CalledBy"]}]}]},
               {"path": f"h{number % shared}.h", "symbols": [{"usr": base, "name": base, "kind": "Function", "lang": "C"}], "occurrences": [{"usr": base, "line": 1, "col": 1, "roles": ["Declaration"]}]}]
    return {"do": "build", "unit": {"output": output, "main": f"{output}.swift", "module": "M", "records": records}}


def one_lane(*steps):
    return {"format": 1, "lanes": [list(steps)]}


ASKS = one_lane({"do": "poll"}, *({"do": "ask", "query": "callers", "usr": f"c:h{at}"} for at in range(3)), {"do": "ask", "query": "mains", "path": "h0.h"},
                {"do": "ask", "query": "incoming", "usr": "c:h1", "depth": 3}, {"do": "ask", "query": "pattern", "text": "f", "start": True})


# ---- a trace of system calls

FINISHED = re.compile(r"^(?:\d+ +)?(?:\d+\.\d+ )?(\w+)\((.*)\) += (-?\d+|\?)(.*)$")


def trace(folder, words, script, kill_after=None):
    """The calls of a run as (name, words, answer), in order, the run's output, and how long it took."""
    log, before = f"{ROOM}/trace", time.monotonic()
    if os.path.exists(log):
        os.unlink(log)
    with open(f"{ROOM}/script", "w") as it:
        json.dump(script, it)
    with open(f"{ROOM}/script") as text, open(f"{ROOM}/out", "wb") as out:
        # -D: the program is this process's child, and the tracer its grandchild, so that the kill hits the program alone.
        ran = subprocess.Popen(["strace", "-D", "-f", "-q", "-y", "-s", "80", "-e", f"trace={CALLS}", "-o", log, PROGRAM, folder, *words], stdin=text, stdout=out, stderr=subprocess.PIPE)
        if kill_after is not None:
            try:
                ran.wait(timeout=kill_after)
            except subprocess.TimeoutExpired:
                ran.send_signal(signal.SIGKILL)
        error = ran.communicate()[1]
    took = time.monotonic() - before
    # The tracer may still be writing; where the kill came before the program began, there is no trace.
    lines = ""
    for _ in range(100):
        if os.path.exists(log):
            with open(log, errors="replace") as it:
                lines = it.read()
        if re.search(r"\+\+\+ (exited|killed)[^\n]*\n\Z", lines):
            break
        time.sleep(0.02)
    return lines.splitlines(), ran.returncode, error, took


def calls_of(lines):
    """The calls that ended; one that was cut off has the answer None."""
    open_calls = {}
    for line in lines:
        pid = line.split(" ", 1)[0]
        if "<unfinished ...>" in line:
            open_calls[pid] = line[:line.index(" <unfinished ...>")]
            continue
        resumed = re.match(r"^(\d+) +<\.\.\. \w+ resumed>(.*)$", line)
        if resumed:
            line = open_calls.pop(pid, f"{pid} ?(") + resumed[2].lstrip(",") if not resumed[2].startswith(",") else open_calls.pop(pid) + resumed[2]
        found = FINISHED.match(line)
        if found:
            yield found[1], found[2], (None if found[3] == "?" else int(found[3]))
    for cut in open_calls.values():
        found = re.match(r"^\d+ +(\w+)\((.*)$", cut)
        if found:
            yield found[1], found[2], None


def is_sync_of(area, call):
    return call[0] == "fsync" and f"/{area}>" in call[1] and call[2] == 0


def publications(calls):
    """Of a trace: how many unit renames ended, how many a sync of the units folder has behind it, and whether one more was cut off."""
    made = acknowledged = 0
    cut = False
    for call in calls:
        if call[0].startswith("rename") and re.search(r"/units/[0-9a-f]+\"", call[1]):
            if call[2] == 0:
                made += 1
            elif call[2] is None:
                cut = True
        elif is_sync_of("units", call):
            acknowledged = made
    return acknowledged, made, cut


# ---- the trials

def syscalls():
    """The system calls of one build, of a second with a shared record, of a check, a poll and an ask, as they come."""
    folder = place("syscalls") + "/store"
    short = lambda words: re.sub(r"\"[^\"]*/store(/(\w+)(?:/(\w{0,8})\w*)?)?\"", lambda m: f"{m[2] or 'F'}{'/' + m[3] if m[3] else ''}", re.sub(r"<[^>]*/store(/(\w+)(?:/(\w{0,8})\w*)?)?>", lambda m: f"<{m[2] or 'F'}{'/' + m[3] if m[3] else ''}>", words))
    for what, words, script in (("a build in a fresh folder", ["replay"], one_lane(build(0, "a"))), ("a build that shares a record", ["replay"], one_lane(build(3, "b"))), ("check", ["check"], NONE),
                                ("a poll and an ask", ["replay"], one_lane({"do": "poll"}, {"do": "ask", "query": "callers", "usr": "c:h0"}))):
        lines, status, error, _ = trace(folder, words, script)
        wanted(status, 0, f"{what}: {error}")
        print(f"-- {what}")
        for name, given, answer in calls_of(lines):
            if "/store" in given:
                print(f"{name}({short(given)[:110]}) = {answer}")
    return "read the lists above"


def order():
    """Of each build in a run of 50: its records are synced and renamed, the unit synced, the records folder synced where one was renamed, the unit renamed, the units folder synced; no file is opened twice."""
    folder = place("order") + "/store"
    lines, status, error, _ = trace(folder, ["replay"], one_lane(*(build(at, f"u{at % 20}") for at in range(50))))
    wanted(status, 0, error)
    word = []
    for name, given, answer in calls_of(lines):
        if "/store/" not in given or answer is None:
            continue
        if name == "openat" and "/slots/" in given and answer >= 0:
            word.append("o" if "O_EXCL" in given and "O_CREAT" in given else "?")
        elif name == "write" and "/slots/" in given:
            word.append("w")
        elif name == "fsync":
            word.append("f" if "/slots/" in given else "R" if "/records>" in given else "U" if "/units>" in given else "?")
        elif name.startswith("rename"):
            word.append("r" if "/records/" in given else "u")
        elif name.startswith("unlink"):
            word.append("x")
    word = "".join(word)
    # Opening syncs both; then 50 builds, each of at most two new records, and a unit.
    wanted(bool(re.fullmatch(r"RU((owfr){0,2}owfR?uU){50}", word)), True, f"the order of {word}")
    wanted(all(("R" in one) == ("r" in one) for one in re.findall(r"[owfrR]*uU", word[2:])), True, "a sync of the records exactly where one was renamed")
    wanted(word.count("o"), 50 + 50 + 3, "files made")
    return f"50 builds, {word.count('f') + word.count('R') + word.count('U')} syncs"


def kills():
    """SIGKILL at random moments of a run of builds: what stands are the units after some number of builds, at least those that a sync acknowledged, each with its records."""
    steps = [build(at, f"u{at % 60}") for at in range(240)]
    after = [model.Store()]
    for step in steps:
        unit, bodies = model.job_of(step["unit"], 1)
        after.append(model.Store({**after[-1].units, model.sha(unit["output"].encode()): model.unit_bytes(unit)}, {**after[-1].records, **bodies}))
    took = trace(place("kills") + "/store", ["replay"], one_lane(*steps))[3]
    chance, seen, number, left_slots = random.Random(int(os.environ.get("SEED", "1"))), [], 0, 0
    while number < KILLS:
        folder = place("kills") + "/store"
        # The first of them come while the folder is made and opened.
        moment = chance.uniform(0, 0.1 if number % 10 == 0 else took)
        lines, status, _, _ = trace(folder, ["replay"], one_lane(*steps), moment)
        if status != -signal.SIGKILL:
            # It had ended before.
            continue
        acknowledged, made, cut = publications(calls_of(lines))
        store = model.Store.of_folder(folder)
        fits = [n for n, it in enumerate(after) if it.units == store.units]
        wanted(len(fits), 1, f"kill {number}: the units are those after some number of builds")
        wanted(acknowledged <= fits[0] <= made + cut, True, f"kill {number}: {fits[0]} units where {acknowledged} are acknowledged and {made} made")
        needed = {name: data for name, data in after[fits[0]].records.items() if any(name in (r for _, _, r in model.read_unit(unit)["records"]) for unit in store.units.values())}
        wanted({name: store.records.get(name) for name in needed}, needed, f"kill {number}: each record is whole")
        wanted(run(folder, ["check"]), (0, model.check(store), ""), f"kill {number}: check")
        wanted(run(folder, ["replay"], ASKS), (0, model.replay(ASKS, store), ""), f"kill {number}: the asks")
        slots = os.path.join(folder, "slots")
        left_slots += bool(os.path.isdir(slots) and os.listdir(slots))
        # And it goes on from there: the builds once more, over what the stop left.
        if number % 5 == 0:
            should = model.replay(one_lane(*steps[:6]), model.Store.of_folder(folder))
            wanted(run(folder, ["replay"], one_lane(*steps[:6])), (0, should, ""), f"kill {number}: builds after it")
        seen.append(fits[0])
        number += 1
    return f"{KILLS} kills; from {min(seen)} to {max(seen)} of {len(steps)} builds stood; {left_slots} left a file in slots"


def flipped(file):
    """Changes the last bit of a file."""
    with open(file, "r+b") as it:
        it.seek(-1, os.SEEK_END)
        byte = it.read(1)[0]
        it.seek(-1, os.SEEK_END)
        it.write(bytes([byte ^ 1]))


def replaced(file, make):
    make(f"{file}.new")
    os.rename(f"{file}.new", file)


# What becomes of a record, in one step each, and how a load says so.
DEEDS = ((os.unlink, "lost"), (lambda file: replaced(file, lambda to: os.symlink("/dev/null", to)), "lost"), (flipped, "damaged"), (lambda file: replaced(file, lambda to: open(to, "wb").close()), "damaged"))


def losses():
    """A record that goes or is damaged at a random moment of a run that builds and asks: from then on its asks say so, with status 9, and all else is as if nothing had happened."""
    count, chance = int(os.environ.get("LOSSES", "40")), random.Random(int(os.environ.get("SEED", "1")))
    steps = [{"do": "poll"}]
    for at in range(120):
        # Taken up anew, a version has no record loaded: each of these asks loads one.
        steps += [build(100 + at, f"v{at % 30}"), {"do": "refresh"}, {"do": "ask", "query": "def", "usr": f"s:f{at % 3}"}, {"do": "ask", "query": "def", "usr": f"s:f{3 + at % 5}"}]
    script, victim, first = one_lane(*steps), build(0, "u0"), f"units/{model.sha(b'v0')}"
    record = model.sha(model.record_bytes(model.record_of(victim["unit"]["records"][0]), 1))
    took, asks = 0, []
    for number in range(-1, count):
        folder = place("losses") + "/store"
        wanted(run(folder, ["replay"], one_lane(*(build(at, f"u{at}") for at in range(8))))[0], 0, "the first builds")
        store = model.Store.of_folder(folder)
        should = model.replay(script, store).splitlines()
        with open(f"{ROOM}/script", "w") as it:
            json.dump(script, it)
        with open(f"{ROOM}/script") as text, open(f"{ROOM}/out", "w+") as out:
            ran = subprocess.Popen([PROGRAM, folder, "replay"], stdin=text, stdout=out, stderr=subprocess.PIPE, text=True)
            # The import is over once something is built.
            while not os.path.exists(f"{folder}/{first}") and ran.poll() is None:
                time.sleep(0.001)
            begun = time.monotonic()
            if number >= 0:
                time.sleep(chance.uniform(0, took))
                deed, word = DEEDS[number % len(DEEDS)]
                deed(f"{folder}/records/{record}")
            error = ran.communicate()[1]
            out.seek(0)
            came = out.read().splitlines()
        if number < 0:
            took = time.monotonic() - begun
            wanted((came, ran.returncode, error), (should, 0, ""), "a run in which nothing is lost")
            continue
        loads = [at for at, line in enumerate(should) if line == f"0 load {record} ok" and at > should.index("0 install 8")]
        bad = [at for at in loads if came[at:at + 1] != [should[at]]]
        wanted(bad, loads[len(loads) - len(bad):], f"loss {number}: a load that comes after a bad one is bad")
        # Where the record goes between the look at it and its opening, the folder failed in that one load.
        words = {at: "fault" if at == bad[0] and came[at].endswith(" fault") else word for at in bad}
        made = [at for at, line in enumerate(should) if line.startswith("0 load ") and at > should.index("0 install 8")]
        lines, rows = [f"0 load {record} {words[at]}" if at in words else line for at, line in enumerate(should)], True
        for at, line in enumerate(lines):
            if line.startswith("ask "):
                load = made[int(line.split()[2])]
                rows = load not in words
                lines[at] = line if rows else f"{line[:line.index(' rows ')]} {words[load]}"
            elif line.startswith("row\t") and not rows:
                lines[at] = None
        ending = (9, "a file of the store was lost or damaged during the run\n") if word in words.values() else (3, "directory fault during the run\n") if words else (0, "")
        wanted((ran.returncode, error, came), (*ending, [line for line in lines if line is not None]), f"loss {number}")
        stands = model.Store.of_folder(folder)
        others = lambda of: {name: data for name, data in of.records.items() if name != record}
        wanted((stands.units, others(stands), os.listdir(f"{folder}/slots")), (store.units, others(store), []), f"loss {number}: the files")
        wanted((record in stands.records, stands.records.get(record) == store.records[record]), (word == "damaged", False), f"loss {number}: the record stays as it was left")
        wanted(run(folder, ["check"]), (0, model.check(stands), ""), f"loss {number}: check")
        again = one_lane(victim, {"do": "poll"}, *(step for step in steps if step["do"] == "ask"))
        wanted(run(folder, ["replay"], again), (0, model.replay(again, stands), ""), f"loss {number}: its build brings it back")
        asks.append(len(bad))
    return f"{count} losses; from {min(asks)} to {max(asks)} of {len(loads)} asks met them"


def mounted(at, options):
    subprocess.run(["mount", "-t", "tmpfs", "-o", options, "tmpfs", at], check=True)


def full_disk():
    """A disk of 256 KiB: builds go on until one fails, the run says so with status 3, and what stands is sound."""
    at = place("full")
    mounted(at, "size=256k")
    try:
        steps = [build(number, f"u{number}") for number in range(400)]
        status, out, error = run(f"{at}/store", ["replay"], one_lane(*steps))
        wanted((status, error), (3, "directory fault during the run\n"), "a full disk")
        synced = len(re.findall(r"^0 publish \w+ synced$", out, re.M))
        faults = len(re.findall(r" (?:fault|unsynced)$", out, re.M))
        store = model.Store.of_folder(f"{at}/store")
        wanted(0 < synced < 400 and faults > 0, True, "some builds, and some faults")
        wanted(set(re.findall(r"^0 publish (\w+) synced$", out, re.M)), set(store.units), "the units that are synced stand")
        wanted(run(f"{at}/store", ["check"]), (0, model.check(store), ""), "check on a full disk")
        wanted(run(f"{at}/store", ["replay"], ASKS), (0, model.replay(ASKS, store), ""), "asks on a full disk")
        subprocess.run(["mount", "-o", "remount,size=16m", at], check=True)
        store = model.Store.of_folder(f"{at}/store")
        wanted(run(f"{at}/store", ["replay"], one_lane(*steps)), (0, model.replay(one_lane(*steps), store), ""), "once there is room")
        return f"{synced} of 400 builds, {faults} faults; all 400 once there is room"
    finally:
        subprocess.run(["umount", at], check=True)


def read_only():
    """A disk that can't be written: a store on it answers; a build there fails with status 3, and a new store with status 8."""
    at = place("read_only")
    mounted(at, "size=4m")
    try:
        steps = [build(number, f"u{number}") for number in range(5)]
        wanted(run(f"{at}/store", ["replay"], one_lane(*steps))[0], 0, "the builds")
        store = model.Store.of_folder(f"{at}/store")
        subprocess.run(["mount", "-o", "remount,ro", at], check=True)
        wanted(run(f"{at}/store", ["check"]), (0, model.check(store), ""), "check")
        wanted(run(f"{at}/store", ["replay"], ASKS), (0, model.replay(ASKS, store), ""), "asks")
        status, out, error = run(f"{at}/store", ["replay"], one_lane(build(9, "u9")))
        wanted((status, out.splitlines()[-2].split()[-1], "publish" in out, error), (3, "fault", False, "directory fault during the run\n"), "a build")
        status, out, error = run(f"{at}/new", ["replay"], NONE)
        wanted((status, out), (8, ""), f"a new store: {error}")
        wanted(run(f"{at}/new", ["check"])[:2], (8, ""), "a check of a new store")
        subprocess.run(["mount", "-o", "remount,rw", at], check=True)
        # A damaged unit can't be taken away there, so the store can't be opened.
        victim = f"{at}/store/units/{min(store.units)}"
        with open(victim, "ab") as it:
            it.write(b"x")
        subprocess.run(["mount", "-o", "remount,ro", at], check=True)
        wanted(run(f"{at}/store", ["replay"], NONE)[:2], (8, ""), "opening with a refused unit")
        wanted(run(f"{at}/store", ["check"]), (0, model.check(model.Store.of_folder(f"{at}/store")), ""), "check with a refused unit")
        return "answers; status 3 for a build, 8 for a new store and where a refused unit can't be removed: " + error.strip()
    finally:
        subprocess.run(["umount", at], check=True)


def odd_folders():
    """`units` a file, a link, or what stands in the store's place a file: status 8, nothing written, nothing changed."""
    for what, make in (("units a file", lambda at: (os.makedirs(at), open(f"{at}/units", "w").close())), ("units a link", lambda at: (os.makedirs(at), os.makedirs(f"{at}-other"), os.symlink(f"{at}-other", f"{at}/units"))),
                       ("slots a file", lambda at: (os.makedirs(at), open(f"{at}/slots", "w").close())), ("the store a file", lambda at: open(at, "w").close()), ("no folder above", lambda at: None)):
        at = place("odd") + ("/none/store" if what == "no folder above" else "/store")
        shutil.rmtree(f"{ROOM}/odd/store-other", ignore_errors=True)
        make(at)
        for words in (["replay"], ["check"]):
            status, out, error = run(at, words, NONE)
            wanted((status, out), (8, ""), f"{what}: {words[0]}")
        shown = error.strip()
    return shown


def links():
    """A link in `records` or `units` that leads outside is passed over: the unit that needs it is refused, and what it leads to stays as it was."""
    folder = place("links") + "/store"
    steps = [build(number, f"u{number}") for number in range(4)]
    wanted(run(folder, ["replay"], one_lane(*steps))[0], 0, "the builds")
    whole = model.Store.of_folder(folder)
    unit = sorted(whole.units)[0]
    record = model.read_unit(whole.units[unit])["records"][-1][2]
    outside = f"{ROOM}/links/outside"
    os.rename(f"{folder}/records/{record}", outside)
    os.symlink(outside, f"{folder}/records/{record}")
    os.symlink(outside, f"{folder}/units/{'0' * 64}")
    os.mkfifo(f"{folder}/units/{'1' * 64}")
    os.makedirs(f"{folder}/records/{'2' * 64}")
    store = model.Store.of_folder(folder)
    wanted(record in store.records, False, "the model passes over the link too")
    wanted(run(folder, ["check"]), (0, model.check(store), ""), "check")
    wanted(run(folder, ["replay"], one_lane(*steps, {"do": "collect"})), (0, model.replay(one_lane(*steps, {"do": "collect"}), store), ""), "the builds over a link")
    with open(outside, "rb") as it:
        wanted(it.read(), whole.records[record], "what the link led to")
    wanted(os.path.islink(f"{folder}/records/{record}"), False, "the link is replaced by the record")
    # A slot that a stop left, as a second name of a file outside: it is never written into.
    with open(f"{ROOM}/links/precious", "w") as it:
        it.write("precious")
    os.link(f"{ROOM}/links/precious", f"{folder}/slots/0")
    wanted(run(folder, ["replay"], one_lane(build(9, "u9")))[0], 0, "a build over a slot that was left")
    with open(f"{ROOM}/links/precious") as it:
        wanted(it.read(), "precious", "the other name of the slot's file")
    return "passed over, and left as they were"


def foreign():
    """100,000 foreign entries in units and records: the answers are as without them."""
    folder = place("foreign") + "/store"
    steps = [build(number, f"u{number}") for number in range(20)]
    wanted(run(folder, ["replay"], one_lane(*steps))[0], 0, "the builds")
    without = time.monotonic()
    wanted(run(folder, ["replay"], NONE)[0], 0, "opening")
    without = time.monotonic() - without
    for number in range(50_000):
        for area in ("units", "records"):
            open(f"{folder}/{area}/{number} is no file name.tmp", "w").close()
    store = model.Store.of_folder(folder)
    at = time.monotonic()
    wanted(run(folder, ["check"]), (0, model.check(store), ""), "check")
    took = time.monotonic() - at
    more = one_lane({"do": "poll"}, build(30, "u30"), {"do": "poll"}, *ASKS["lanes"][0], {"do": "collect"})
    wanted(run(folder, ["replay"], more), (0, model.replay(more, store), ""), "a replay")
    left = sum(not model.is_file_name(it) for area in ("units", "records") for it in os.listdir(f"{folder}/{area}"))
    wanted(left, 100_000, "the foreign entries")
    return f"a check takes {took * 1000:.0f} ms, an opening without them {without * 1000:.0f} ms"


def side_by_side():
    """Two stores beside each other, written at one time by two runs: each is as if it were alone."""
    at = place("beside")
    scripts = [one_lane(*(build(number * 2 + each, f"u{number % 30}") for number in range(120)), *ASKS["lanes"][0]) for each in range(2)]
    runs = [subprocess.Popen([PROGRAM, f"{at}/{each}", "replay"], stdin=subprocess.PIPE, stdout=subprocess.PIPE) for each in range(2)]
    for it, text in zip(runs, scripts):
        it.stdin.write(json.dumps(text).encode())
        it.stdin.close()
    outs = [it.stdout.read().decode() for it in runs]
    for each, it in enumerate(runs):
        it.wait()
        store = model.Store()
        wanted((it.returncode, outs[each]), (0, model.replay(scripts[each], store)), f"store {each}")
        stands = model.Store.of_folder(f"{at}/{each}")
        wanted((stands.units, stands.records), (store.units, store.records), f"the files of store {each}")
    return "two runs of 120 builds"


def lanes():
    """Random scripts of several lanes and orders, each replayed twice on one folder: bytes, status and files are the model's."""
    chance = random.Random(int(os.environ.get("SEED", "1")))
    count = int(os.environ.get("COUNT", "60"))
    for number in range(count):
        folder, store = place("lanes") + "/store", model.Store()
        for script in (random_script(chance), random_script(chance)):
            wanted(run(folder, ["replay"], script), (0, model.replay(script, store), ""), f"script {number}: {json.dumps(script)}")
            stands = model.Store.of_folder(folder)
            wanted((stands.units, stands.records), (store.units, store.records), f"files of script {number}")
            wanted(run(folder, ["check"]), (0, model.check(store), ""), f"check of script {number}")
    return f"{count} times two scripts"


def random_script(chance):
    lanes = chance.randint(1, 4)
    poller = chance.randrange(lanes)
    usr = lambda: chance.choice(["s:f%d" % chance.randrange(12), "c:h%d" % chance.randrange(3)])
    path = lambda: chance.choice(["u%d.swift" % chance.randrange(6), "h%d.h" % chance.randrange(3)])

    def ask():
        query = chance.choice("def refs occ rel callers overrides name pattern symbols mains units includes includers incoming outgoing supertypes subtypes codegen".split())
        fields = {"occ": lambda: {"usr": usr(), "roles": chance.sample(["Definition", "Call", "Reference", "CalledBy"], 2)}, "rel": lambda: {"usr": usr(), "roles": ["CalledBy"]},
                  "name": lambda: {"name": chance.choice(["f1", "f2", "c:h1", ""])}, "pattern": lambda: {"text": chance.choice(["f", "1", "H"]), "start": chance.random() < 0.5, "fold": chance.random() < 0.5},
                  "codegen": lambda: {"codegen": chance.choice(["g1", "g2", "g3"])}}
        if query in fields:
            return {"do": "ask", "query": query, **fields[query]()}
        if query in ("symbols", "mains", "units", "includes", "includers"):
            return {"do": "ask", "query": query, "path": path()}
        return {"do": "ask", "query": query, "usr": usr(), **({"depth": chance.randint(1, 4)} if query in ("incoming", "outgoing", "supertypes", "subtypes") else {})}

    def a_build():
        made = build(chance.randrange(12), f"u{chance.randrange(6)}")
        if chance.random() < 0.3:
            made["unit"]["files"] = [{"path": path(), "system": chance.random() < 0.5}]
        if chance.random() < 0.5:
            made["unit"]["includes"] = [{"from": f"{made['unit']['output']}.swift", "line": 1, "to": path()}]
        for symbol in made["unit"]["records"][0]["symbols"]:
            if format_ == 2 and chance.random() < 0.5:
                symbol["codegen"] = f"g{chance.randrange(4)}"
        return made

    def step(lane):
        kind = chance.choice(["build"] * 4 + ["remove", "refresh", "refresh", "release", "collect", "collect", "poll", "poll"] + ["ask"] * 4)
        if kind == "poll" and lane != poller:
            kind = "refresh"
        return {"build": a_build, "remove": lambda: {"do": "remove", "output": f"u{chance.randrange(6)}"}, "ask": ask}.get(kind, lambda: {"do": kind})()

    format_ = chance.randint(1, 2)
    plans = [[step(lane) for _ in range(chance.randint(0, 12))] for lane in range(lanes)]
    if format_ == 1:
        plans = [[it for it in plan if it.get("query") != "codegen"] for plan in plans]
    return {"format": format_, "lanes": plans, "order": [chance.randrange(lanes) for _ in range(chance.randint(0, 60))]}


TRIALS = {it.__name__: it for it in (order, lanes, kills, losses, full_disk, read_only, odd_folders, links, foreign, side_by_side, syscalls)}


def main():
    os.makedirs(ROOM, exist_ok=True)
    for name in sys.argv[3:] or TRIALS:
        print(f"{name}: {TRIALS[name]()}", flush=True)


main()
