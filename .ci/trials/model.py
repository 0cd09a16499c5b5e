#!/usr/bin/env python3
"""A second store, in Python: what a replay, a check or gen N prints, by the rules that docs/FORMATS.md states.

  model.py STORE replay [LEFT] < SCRIPT
  model.py STORE check
  model.py STORE gen N

It keeps every unit with every record in memory and answers an ask by a filter over all of their rows: no index, no
tables, and none of the program's code or definitions. STORE is read and never changed. With LEFT the store as it is
after the replay is written there, as a folder. It takes scripts that are accepted, and no call of it fails.
"""
import hashlib, json, os, struct, sys

KINDS = ("Unknown Module Namespace NamespaceAlias Macro Enum Struct Class Protocol Extension Union TypeAlias Function Variable Field EnumConstant InstanceMethod ClassMethod "
         "StaticMethod InstanceProperty ClassProperty StaticProperty Constructor Destructor ConversionFunction Parameter Using").split()
KIND = {**{word: code for code, word in enumerate(KINDS)}, "CommentTag": 1000}
LANG = {"C": 0, "Objective-C": 1, "C++": 2, "Swift": 100}
ROLES = ("Declaration Definition Reference Read Write Call Dynamic AddressOf Implicit ChildOf BaseOf OverrideOf ReceivedBy CalledBy ExtendedBy AccessorOf ContainedBy IBTypeOf "
         "SpecializationOf").split()
ROLE = {word: 1 << bit for bit, word in enumerate(ROLES)}
PROPS = "Generic TemplatePartialSpecialization TemplateSpecialization UnitTest IBAnnotated IBOutletCollection GKInspectable Local ProtocolInterface".split()
PROP = {word: 1 << bit for bit, word in enumerate(PROPS)}
KIND_WORD = {code: word for word, code in KIND.items()}
LANG_WORD = {code: word for word, code in LANG.items()}
LAST_RELATION = (1 << 19) - (1 << 9)


def sha(data):
    return hashlib.sha256(data).hexdigest()


def bits(words, codes):
    return sum({codes[word] for word in words})


def words_of(value, names):
    return "+".join(word for bit, word in enumerate(names) if value >> bit & 1) or "-"


# ---- values and their bytes. A record is (symbols, occurrences), its texts are str: they have the order of their bytes.

def record_of(plan):
    """A record's symbols (usr, kind, lang, props, name, codegen), and its occurrences with symbols as indices."""
    symbols = sorted((s["usr"], KIND[s.get("kind", "Unknown")], LANG[s.get("lang", "Swift")], bits(s.get("props", []), PROP), s.get("name", ""), s.get("codegen", ""))
                     for s in plan.get("symbols", []))
    index = {symbol[0]: at for at, symbol in enumerate(symbols)}
    occurrences = set()
    for o in plan.get("occurrences", []):
        relations = tuple(sorted({(index[r["usr"]], bits(r["roles"], ROLE)) for r in o.get("relations", [])}))
        roles = bits(o["roles"], ROLE)
        for _, of_relation in relations:
            roles |= of_relation
        occurrences.add((o["line"], o["col"], index[o["usr"]], roles, relations))
    return symbols, sorted(occurrences)


def u32(*numbers):
    return struct.pack(f">{len(numbers)}I", *numbers)


def text(value):
    data = value.encode()
    return u32(len(data)) + data


def record_bytes(record, format_):
    symbols, occurrences = record
    out = [b"IXR1" if format_ == 1 else b"IXR2", u32(len(symbols))]
    for usr, kind, lang, props, name, codegen in symbols:
        out += [u32(kind, lang, props), text(usr), text(name)] + ([text(codegen)] if format_ == 2 else [])
    out.append(u32(len(occurrences)))
    for line, column, symbol, roles, relations in occurrences:
        out.append(u32(line, column, symbol, roles, len(relations)))
        out += [u32(of_relation, at) for at, of_relation in relations]
    return b"".join(out)


def unit_bytes(unit):
    out = [b"IXU1", text(unit["output"]), text(unit["main"]), text(unit["module"]), u32(unit["system"]), u32(sum(len(unit[k]) for k in ("units", "records", "files")))]
    out += [u32(1) + text(output) for output in unit["units"]]
    out += [u32(2) + text(path) + u32(system) + text(name) for path, system, name in unit["records"]]
    out += [u32(3) + text(path) + u32(system) for path, system in unit["files"]]
    out.append(u32(len(unit["includes"])))
    out += [text(start) + u32(line) + text(to) for start, line, to in unit["includes"]]
    data = b"".join(out)
    return data + hashlib.sha256(data).digest()


def job_of(plan, format_):
    """A unit and its record files by name."""
    bodies, deps = {}, set()
    for r in plan.get("records", []):
        data = record_bytes(record_of(r), format_)
        bodies[sha(data)] = data
        deps.add((r["path"], int(r.get("system", False)), sha(data)))
    return {"output": plan["output"], "main": plan.get("main", ""), "module": plan.get("module", ""), "system": int(plan.get("system", False)), "units": sorted(set(plan.get("units", []))),
            "records": sorted(deps), "files": sorted({(f["path"], int(f.get("system", False))) for f in plan.get("files", [])}),
            "includes": sorted({(i["from"], i["line"], i["to"]) for i in plan.get("includes", [])})}, bodies


class Fault(Exception):
    """The first fault of a file, as the word of it."""


class Reader:
    def __init__(self, data, field_end=None):
        self.data, self.at = data, 0

    def u32(self):
        if len(self.data) - self.at < 4:
            raise Fault("short")
        self.at += 4
        return struct.unpack_from(">I", self.data, self.at - 4)[0]

    def allowed(self, good, width=4):
        value = self.u32()
        if not good(value):
            raise Fault(f"field {self.at - width}")
        return value

    def text(self, may_be_empty=False):
        start = self.at
        size = self.u32()
        if size > 4096:
            raise Fault(f"field {start}")
        if len(self.data) - self.at < size:
            raise Fault("short")
        found = self.data[self.at:self.at + size]
        self.at += size
        try:
            value = found.decode()
        except UnicodeDecodeError:
            raise Fault(f"field {start}")
        if any(ord(c) < 32 or ord(c) == 127 for c in value) or not value and not may_be_empty:
            raise Fault(f"field {start}")
        return value

    def magic(self, allowed):
        if len(self.data) < 4:
            raise Fault("short")
        if self.data[:4] not in allowed:
            raise Fault("magic")
        self.at = 4

    def rising(self, start, before, value):
        if before is not None and not before < value:
            raise Fault(f"order {start}")


def read_record(data):
    r = Reader(data)
    r.magic((b"IXR1", b"IXR2"))
    symbols, occurrences = [], []
    for _ in range(r.u32()):
        start = r.at
        kind, lang, props = r.allowed(KIND_WORD.__contains__), r.allowed(LANG_WORD.__contains__), r.allowed(lambda n: n < 512)
        usr, name = r.text(), r.text(True)
        codegen = r.text(True) if data[:4] == b"IXR2" else ""
        r.rising(start, symbols[-1][0] if symbols else None, usr)
        symbols.append((usr, kind, lang, props, name, codegen))
    for _ in range(r.u32()):
        start = r.at
        line, column = r.allowed(bool), r.allowed(bool)
        symbol = r.u32()
        if symbol >= len(symbols):
            raise Fault(f"index {r.at - 4}")
        roles_at = r.at
        roles = r.allowed(lambda n: 0 < n < 1 << 19)
        relations = []
        for _ in range(r.u32()):
            at = r.at
            of_relation = r.allowed(lambda n: n and not n & ~LAST_RELATION)
            other = r.u32()
            if other >= len(symbols):
                raise Fault(f"index {r.at - 4}")
            r.rising(at, relations[-1] if relations else None, (other, of_relation))
            relations.append((other, of_relation))
        if any(of_relation & ~roles for _, of_relation in relations):
            raise Fault(f"roles {roles_at}")
        value = line, column, symbol, roles, tuple(relations)
        r.rising(start, occurrences[-1] if occurrences else None, value)
        occurrences.append(value)
    if r.at < len(data):
        raise Fault(f"trailing {r.at}")
    return symbols, occurrences


def is_file_name(name):
    return 1 <= len(name) <= 64 and not set(name) - set("0123456789abcdef")


def read_unit(data):
    r = Reader(data)
    r.magic((b"IXU1",))
    unit = {"output": r.text(), "main": r.text(True), "module": r.text(True), "system": r.allowed(lambda n: n < 2), "units": [], "records": [], "files": [], "includes": []}
    before = None
    for _ in range(r.u32()):
        start = r.at
        kind = r.allowed(lambda n: n in (1, 2, 3))
        value = (r.text(),)
        if kind > 1:
            value += (r.allowed(lambda n: n < 2),)
        if kind == 2:
            at = r.at
            value += (r.text(),)
            if not is_file_name(value[2]):
                raise Fault(f"field {at}")
        r.rising(start, before, (kind, value))
        before = kind, value
        unit[("units", "records", "files")[kind - 1]].append(value[0] if kind == 1 else value)
    before = None
    for _ in range(r.u32()):
        start = r.at
        value = r.text(), r.allowed(bool), r.text()
        r.rising(start, before, value)
        before = value
        unit["includes"].append(value)
    body = r.at
    if len(data) - body < 32:
        raise Fault("short")
    if data[body:body + 32] != hashlib.sha256(data[:body]).digest():
        raise Fault("digest")
    if len(data) > body + 32:
        raise Fault(f"trailing {body + 32}")
    return unit


# ---- a store: unit and record files by name

class Store:
    def __init__(self, units=(), records=()):
        self.units, self.records = dict(units), dict(records)

    @staticmethod
    def of_folder(folder):
        def area(name):
            found, at = {}, os.path.join(folder, name)
            for file in os.listdir(at) if os.path.isdir(at) else []:
                path = os.path.join(at, file)
                if is_file_name(file) and os.path.isfile(path) and not os.path.islink(path):
                    with open(path, "rb") as it:
                        found[file] = it.read()
            return found
        return Store(area("units"), area("records"))

    def to_folder(self, folder):
        for name, files in (("units", self.units), ("records", self.records), ("slots", {})):
            at = os.path.join(folder, name)
            os.makedirs(at, exist_ok=True)
            for file in os.listdir(at):
                os.unlink(os.path.join(at, file))
            for file, data in files.items():
                with open(os.path.join(at, file), "wb") as it:
                    it.write(data)

    def opened(self):
        """The sound units by name with what they are, and the refused ones with their causes."""
        sound, refused, whole = {}, {}, {}
        for name in sorted(self.units):
            try:
                unit = read_unit(self.units[name])
                if sha(unit["output"].encode()) != name:
                    raise Fault("name")
                for _, _, record in unit["records"]:
                    if record not in self.records:
                        raise Fault(f"record-missing {record}")
                    if record not in whole:
                        try:
                            whole[record] = sha(self.records[record]) == record and bool(read_record(self.records[record]))
                        except Fault:
                            whole[record] = False
                    if not whole[record]:
                        raise Fault(f"record-damaged {record}")
                sound[name] = unit
            except Fault as fault:
                refused[name] = str(fault)
        return sound, refused


def check(store):
    sound, refused = store.opened()
    lines = [f"unit {name} {len(unit['records'])}" for name, unit in sorted(sound.items())] + [f"refused {name} {cause}" for name, cause in sorted(refused.items())]
    return "\n".join(lines + [f"checked {len(sound)} {len(refused)}"]) + "\n"


# ---- answers, by filters over all rows

class Version:
    """The units at a mark, with the value of each record that they need."""

    def __init__(self, units, values):
        self.units, self.values = units, values
        self.by_record = {}
        for unit in units.values():
            for path, _, record in unit["records"]:
                self.by_record.setdefault(record, set()).add(path)
        self.all = None

    def rows(self):
        if self.all is None:
            self.all = set()
            for record, paths in self.by_record.items():
                symbols, occurrences = self.values[record]
                for line, column, symbol, roles, relations in occurrences:
                    usr, kind, lang, props, name, _ = symbols[symbol]
                    related = tuple((symbols[at][0], of_relation) for at, of_relation in relations)
                    self.all.update((path, line, column, usr, name, kind, lang, props, roles, related) for path in paths)
        return self.all

    def symbols(self):
        return ((record, symbol) for record in self.by_record for symbol in self.values[record][0])

    def providers(self, usrs):
        return {record for record, symbol in self.symbols() if symbol[0] in usrs}

    def related(self, usrs):
        return {record for record in self.by_record for occurrence in self.values[record][1] for at, _ in occurrence[4] if self.values[record][0][at][0] in usrs}

    def defined(self, usrs):
        found = set()
        for usr in usrs:
            rows = {row for row in self.rows() if row[3] == usr}
            found |= {row for row in rows if row[8] & ROLE["Definition"]} or {row for row in rows if row[8] & ROLE["Declaration"]}
        return found

    def named(self, ask):
        """The USRs that a name, a pattern or a code generation name leads to."""
        if ask["query"] == "name":
            return {symbol[0] for _, symbol in self.symbols() if symbol[4] == ask["name"]}
        if ask["query"] == "codegen":
            return {symbol[0] for _, symbol in self.symbols() if symbol[5] == ask["codegen"]}
        fold = (lambda s: "".join(chr(ord(c) + 32) if "A" <= c <= "Z" else c for c in s)) if ask.get("fold") else lambda s: s
        part, start, end = fold(ask["text"]), ask.get("start", False), ask.get("end", False)
        fits = {(False, False): lambda n: part in n, (True, False): lambda n: n.startswith(part), (False, True): lambda n: n.endswith(part), (True, True): lambda n: n == part}[start, end]
        return {symbol[0] for _, symbol in self.symbols() if fits(fold(symbol[4]))}

    def listing(self, path):
        return [name for name, unit in self.units.items() if path in {p for p, _, _ in unit["records"]} | {p for p, _ in unit["files"]}]

    def edges(self, query, usr):
        """The edges of one step from a USR, as (to, path, line, column)."""
        role = ROLE["CalledBy" if query in ("incoming", "outgoing") else "BaseOf"]
        for row in self.rows():
            for other, roles in row[9]:
                if roles & role and query in ("incoming", "subtypes") and row[3] == usr:
                    yield other, *row[:3]
                if roles & role and query in ("outgoing", "supertypes") and other == usr:
                    yield row[3], *row[:3]

    def walk(self, ask):
        """The edges of a walk, and the record names that each level needs."""
        level, seen, edges, needs = {ask["usr"]}, {ask["usr"]}, set(), []
        for depth in range(1, ask["depth"] + 1):
            if not level:
                break
            needs.append(self.providers(level) if ask["query"] in ("incoming", "subtypes") else self.related(level))
            further = set()
            for start in level:
                for to, path, line, column in self.edges(ask["query"], start):
                    edges.add((depth, start, to, path, line, column))
                    further.add(to)
            level = further - seen
            seen |= level
        return edges, needs

    def needs(self, ask):
        """Lists of record names: one for a plain query, one a level for a walk."""
        query = ask["query"]
        if query in ("def", "refs", "occ", "callers"):
            return [self.providers({ask["usr"]})]
        if query in ("rel", "overrides"):
            return [self.related({ask["usr"]})]
        if query in ("name", "pattern", "codegen"):
            return [self.providers(self.named(ask))]
        if query == "symbols":
            return [{record for record, paths in self.by_record.items() if ask["path"] in paths}]
        if query in ("incoming", "outgoing", "supertypes", "subtypes"):
            return self.walk(ask)[1]
        return []

    def answer(self, ask):
        """The lines of an answer."""
        query = ask["query"]
        if query == "mains":
            return ["path\t" + main for main in sorted({self.units[name]["main"] for name in self.listing(ask["path"])} - {""})]
        if query == "units":
            return ["unit\t" + name for name in sorted(self.listing(ask["path"]))]
        if query in ("includes", "includers"):
            here, there = (0, 2) if query == "includes" else (2, 0)
            return ["path\t" + path for path in sorted({include[there] for unit in self.units.values() for include in unit["includes"] if include[here] == ask["path"]})]
        if query in ("incoming", "outgoing", "supertypes", "subtypes"):
            return ["edge\t" + "\t".join(map(str, edge)) for edge in sorted(self.walk(ask)[0])]
        return [row_line(row) for row in sorted(self.selected(ask))]

    def selected(self, ask):
        query, usr = ask["query"], ask.get("usr")
        if query == "def":
            return self.defined({usr})
        if query in ("name", "pattern", "codegen"):
            return set() if query == "codegen" and not ask["codegen"] else self.defined(self.named(ask))
        if query == "symbols":
            return {row for row in self.rows() if row[0] == ask["path"] and row[8] & (ROLE["Definition"] | ROLE["Declaration"])}
        if query in ("refs", "occ"):
            mask = ROLE["Reference"] if query == "refs" else bits(ask["roles"], ROLE)
            return {row for row in self.rows() if row[3] == usr and row[8] & mask}
        if query == "callers":
            return {row for row in self.rows() if row[3] == usr and any(roles & ROLE["CalledBy"] for _, roles in row[9])}
        mask = bits(ask["roles"], ROLE) if query == "rel" else ROLE["OverrideOf"]
        return {row for row in self.rows() if any(other == usr and roles & mask for other, roles in row[9])}


def row_line(row):
    path, line, column, usr, name, kind, lang, props, roles, relations = row
    fields = ["row", path, str(line), str(column), words_of(roles, ROLES), KIND_WORD[kind], LANG_WORD[lang], words_of(props, PROPS), usr, name]
    return "\t".join(fields + [f"{words_of(of_relation, ROLES)}={other}" for other, of_relation in relations])


# ---- lanes

class Lane:
    def __init__(self, number, steps, run):
        self.number, self.run, self.held, self.lease, self.answers = number, run, None, None, []
        self.loaded = set()
        self.calls = self.all_calls(steps)
        self.next = next(self.calls, None)

    def step(self):
        """Makes the lane's next call. False where none was left."""
        if self.next is None:
            return False
        self.run.events.append(f"{self.number} {self.next()}")
        self.next = next(self.calls, None)
        return True

    def all_calls(self, steps):
        for step in steps:
            yield from getattr(self, "do_" + step["do"])(step)

    def do_build(self, step):
        store = self.run.store
        unit, bodies = job_of(step["unit"], self.run.format)
        name = sha(unit["output"].encode())

        def lease():
            self.lease = set(bodies)
            return f"lease {len(bodies)}"

        def put(record):
            how = "shared" if store.records.get(record) == bodies[record] else "written"
            store.records[record] = bodies[record]
            return f"put {record} {how}"

        def publish():
            store.units[name] = unit_bytes(unit)
            self.run.publish(name, unit)
            self.lease = None
            return f"publish {name} synced"

        yield lease
        for record in sorted(bodies):
            yield lambda record=record: put(record)
        yield lambda: f"stage {name} ok"
        yield publish

    def do_remove(self, step):
        name = sha(step["output"].encode())

        def remove():
            if name not in self.run.units():
                return f"remove {name} none"
            del self.run.store.units[name]
            self.run.publish(name, None)
            return f"remove {name} synced"

        yield remove

    def do_poll(self, step):
        run = self.run

        def scan():
            run.importing = len(run.publications)
            return f"scan ok {run.importing}"

        def install():
            run.current, run.importing = run.importing, None
            self.held = run.current
            self.loaded = set()
            return f"install {run.current}"

        yield scan
        for record in sorted(run.needed(run.importing) - run.needed(run.current)):
            yield lambda record=record: f"load {record} ok"
        yield install

    def do_refresh(self, step):
        def adopt():
            self.held = self.run.current
            self.loaded = set()
            return f"adopt {self.held}"

        yield adopt

    def do_release(self, step):
        def release():
            self.held = None
            self.loaded = set()
            return "release"

        yield release

    def do_collect(self, step):
        def collect():
            for record in sorted(self.run.store.records):
                if record not in self.run.protected():
                    del self.run.store.records[record]
                    return f"collect removed {record}"
            return "collect nothing"

        yield collect

    def do_ask(self, step):
        number = len(self.answers)
        if self.held is None:
            self.answers.append([f"ask {self.number} {number} none"])
            return
        version = self.run.version(self.held)
        for names in version.needs(step):
            for record in sorted(names - self.loaded):
                yield lambda record=record: f"load {record} ok"
                self.loaded.add(record)
        rows = version.answer(step)
        self.answers.append([f"ask {self.number} {number} at {self.held} rows {len(rows)}"] + rows)


class Run:
    def __init__(self, script, store):
        self.store, self.format = store, script["format"]
        sound, refused = store.opened()
        self.refused = [f"refused {name} {cause}" for name, cause in sorted(refused.items())]
        for name in refused:
            del store.units[name]
        self.at = [{}]
        self.publications = []
        self.current, self.importing = 0, None
        self.events, self.values, self.versions = [], {}, {}
        for name, unit in sorted(sound.items()):
            self.publish(name, unit)
        self.lanes = []
        self.lanes = [Lane(number, steps, self) for number, steps in enumerate(script["lanes"])]
        for number in script.get("order", []):
            self.lanes[number].step()
        for lane in self.lanes:
            while lane.step():
                pass

    def publish(self, name, unit):
        self.publications.append(name)
        units = dict(self.at[-1])
        if unit is None:
            del units[name]
        else:
            units[name] = unit
        self.at.append(units)
        for _, _, record in unit["records"] if unit else []:
            if record not in self.values:
                self.values[record] = read_record(self.store.records[record])

    def units(self):
        return self.at[-1]

    def needed(self, mark):
        return {record for unit in self.at[mark].values() for _, _, record in unit["records"]}

    def version(self, mark):
        if mark not in self.versions:
            self.versions[mark] = Version(self.at[mark], self.values)
        return self.versions[mark]

    def protected(self):
        marks = {len(self.publications), self.current, self.importing} | {lane.held for lane in self.lanes}
        return set().union(*(self.needed(mark) for mark in marks if mark is not None), *(lane.lease or () for lane in self.lanes))

    def transcript(self):
        lines = self.refused + self.events + [line for lane in self.lanes for answer in lane.answers for line in answer]
        return "\n".join(lines + [f"end {len(self.events)}"]) + "\n"


def replay(script, store):
    """The transcript of a script over a store, which is changed as the replay leaves it."""
    return Run(script, store).transcript()


def generated(n):
    def build(i):
        j, k = (7 * i + 3) % n, i % 10
        symbols = [{"usr": f"s:g{i}", "name": f"f{i}", "kind": "Function"}] + ([{"usr": f"s:g{j}", "name": f"f{j}", "kind": "Function"}] if j != i else [])
        occurrences = [{"usr": f"s:g{i}", "line": 1, "col": 1, "roles": ["Definition"]},
                       {"usr": f"s:g{j}", "line": 2, "col": 1, "roles": ["Reference", "Call"], "relations": [{"usr": f"s:g{i}", "roles": ["CalledBy"]}]}]
        header = {"path": f"g/h{k}.h", "symbols": [{"usr": f"c:h{k}", "name": f"h{k}", "kind": "Function", "lang": "C"}], "occurrences": [{"usr": f"c:h{k}", "line": 1, "col": 1, "roles": ["Declaration"]}]}
        return {"do": "build", "unit": {"output": f"g/{i}.o", "main": f"g/{i}.swift", "module": "G", "records": [{"path": f"g/{i}.swift", "symbols": symbols, "occurrences": occurrences}, header]}}

    few = range(min(n, 100))
    first = [build(i) for i in range(n)] + [{"do": "poll"}]
    for i in few:
        first += [{"do": "ask", "query": "callers", "usr": f"s:g{i}"}, {"do": "ask", "query": "incoming", "usr": f"s:g{i}", "depth": 3}]
    second = [step for i in few for step in ({"do": "refresh"}, {"do": "ask", "query": "callers", "usr": f"s:g{i}"})]
    return {"format": 1, "lanes": [first, second, [{"do": "collect"}] * n], "order": [e % 3 for e in range(3 * n)]}


def gen(n):
    run = Run(generated(n), Store())
    return f"units {len(run.units())}\nevents {len(run.events)}\ntranscript {sha(run.transcript().encode())}\n"


def main():
    folder, words = sys.argv[1], sys.argv[2:]
    store = Store.of_folder(folder)
    if words[:1] == ["check"]:
        sys.stdout.write(check(store))
    elif words[:1] == ["gen"]:
        sys.stdout.write(gen(int(words[1])))
    else:
        sys.stdout.write(replay(json.loads(sys.stdin.buffer.read()), store))
        if words[1:]:
            store.to_folder(words[1])


if __name__ == "__main__":
    main()
