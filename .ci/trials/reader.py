"""A second reader of scripts: bytes to the value's debug text, or the refusal's line."""
import re, math

KINDS = "Unknown Module Namespace NamespaceAlias Macro Enum Struct Class Protocol Extension Union TypeAlias Function Variable Field EnumConstant InstanceMethod ClassMethod StaticMethod InstanceProperty ClassProperty StaticProperty Constructor Destructor ConversionFunction Parameter Using".split()
KIND = {w: i for i, w in enumerate(KINDS)}; KIND["CommentTag"] = 1000
LANG = {"C": 0, "Objective-C": 1, "C++": 2, "Swift": 100}
ROLE = {w: i for i, w in enumerate("Declaration Definition Reference Read Write Call Dynamic AddressOf Implicit ChildOf BaseOf OverrideOf ReceivedBy CalledBy ExtendedBy AccessorOf ContainedBy IBTypeOf SpecializationOf".split())}
PROP = {w: i for i, w in enumerate("Generic TemplatePartialSpecialization TemplateSpecialization UnitTest IBAnnotated IBOutletCollection GKInspectable Local ProtocolInterface".split())}


class Refused(Exception):
    pass


class NotJson(Refused):
    pass


# ---- JSON, strictly (RFC 8259), at most 127 deep

WS = re.compile(r"[ \t\n\r]*")
STR = re.compile(r'"((?:[^"\\\x00-\x1f]|\\["\\/bfnrt]|\\u[0-9a-fA-F]{4})*)"')
NUM = re.compile(r"-?(?:0|[1-9][0-9]*)(?:\.[0-9]+)?(?:[eE][+-]?[0-9]+)?")
ESC = re.compile(r"\\u([0-9a-fA-F]{4})|\\(.)")
PLAIN = {"b": "\b", "f": "\f", "n": "\n", "r": "\r", "t": "\t", '"': '"', "\\": "\\", "/": "/"}


def unescape(s):
    if "\\" not in s:
        return s
    out = []
    pos = 0
    high = None
    for m in ESC.finditer(s):
        if high is not None and (m.start() != pos or not m.group(1)):
            raise NotJson("not JSON")
        out.append(s[pos:m.start()])
        pos = m.end()
        if m.group(1):
            unit = int(m.group(1), 16)
            if high is not None:
                if not 0xDC00 <= unit < 0xE000:
                    raise NotJson("not JSON")
                out.append(chr(0x10000 + ((high - 0xD800) << 10) + unit - 0xDC00))
                high = None
            elif 0xD800 <= unit < 0xDC00:
                high = unit
            elif 0xDC00 <= unit < 0xE000:
                raise NotJson("not JSON")
            else:
                out.append(chr(unit))
        else:
            out.append(PLAIN[m.group(2)])
    if high is not None:
        raise NotJson("not JSON")
    out.append(s[pos:])
    return "".join(out)


class Parser:
    def __init__(self, text):
        self.t, self.p = text, 0

    def ws(self):
        self.p = WS.match(self.t, self.p).end()

    def string(self):
        m = STR.match(self.t, self.p)
        if not m:
            raise NotJson("not JSON")
        self.p = m.end()
        return unescape(m.group(1))

    def value(self, depth):
        self.ws()
        t, p = self.t, self.p
        c = t[p:p + 1]
        if c == '"':
            return self.string()
        if c == "{":
            if depth == 0:
                raise NotJson("not JSON")
            self.p += 1
            out = {}
            self.ws()
            if self.t[self.p:self.p + 1] == "}":
                self.p += 1
                return out
            while True:
                self.ws()
                key = self.string()
                self.ws()
                if self.t[self.p:self.p + 1] != ":":
                    raise NotJson("not JSON")
                self.p += 1
                out[key] = self.value(depth - 1)
                self.ws()
                c = self.t[self.p:self.p + 1]
                self.p += 1
                if c == "}":
                    return out
                if c != ",":
                    raise NotJson("not JSON")
        if c == "[":
            if depth == 0:
                raise NotJson("not JSON")
            self.p += 1
            out = []
            self.ws()
            if self.t[self.p:self.p + 1] == "]":
                self.p += 1
                return out
            while True:
                out.append(self.value(depth - 1))
                self.ws()
                c = self.t[self.p:self.p + 1]
                self.p += 1
                if c == "]":
                    return out
                if c != ",":
                    raise NotJson("not JSON")
        for word, v in (("true", True), ("false", False), ("null", None)):
            if t.startswith(word, p):
                self.p += len(word)
                return v
        m = NUM.match(t, p)
        if not m or m.end() == p:
            raise NotJson("not JSON")
        self.p = m.end()
        s = m.group(0)
        if re.fullmatch(r"[0-9]+", s) and int(s) < 2 ** 64:
            return int(s)
        if re.fullmatch(r"-[1-9][0-9]*", s) and int(s) >= -2 ** 63:
            return int(s)
        f = float(s)
        if math.isinf(f):
            raise NotJson("not JSON")
        return f


def parse(data):
    try:
        text = data.decode("utf-8")
    except UnicodeDecodeError:
        raise NotJson("not JSON")
    parser = Parser(text)
    v = parser.value(127)
    parser.ws()
    if parser.p != len(text):
        raise NotJson("not JSON")
    return v


# ---- the grammar

def bad_value(path):
    raise Refused(f'value at "{path}"')


def bad_field(path):
    raise Refused(f'field at "{path}"')


def obj(v, path):
    if not isinstance(v, dict):
        bad_value(path)


def known(v, path, names):
    if any(k not in names for k in v):
        bad_field(path)


def req(v, path, name, read):
    if name not in v:
        bad_field(f"{path}/{name}")
    return read(v[name], f"{path}/{name}")


def opt(v, path, name, default, read):
    return read(v[name], f"{path}/{name}") if name in v else default


def string(v, path):
    if not isinstance(v, str):
        bad_value(path)
    return v


def text_or_empty(v, path):
    string(v, path)
    b = v.encode()
    if len(b) > 4096 or any(x < 32 or x == 127 for x in b):
        bad_value(path)
    return v


def text(v, path):
    if text_or_empty(v, path) == "":
        bad_value(path)
    return v


def flag(v, path):
    if not isinstance(v, bool):
        bad_value(path)
    return v


def number(v, path):
    if isinstance(v, bool) or not isinstance(v, int) or v < 0:
        bad_value(path)
    return v


def count(most):
    def read(v, path):
        n = number(v, path)
        if not 1 <= n <= most:
            bad_value(path)
        return n
    return read


coord = count(4294967295)


def arr(v, path, what, most):
    if not isinstance(v, list):
        bad_value(path)
    if len(v) > most:
        raise Refused(f"too many {what}")


def items(what, most, read):
    def go(v, path):
        arr(v, path, what, most)
        return [read(x, f"{path}/{i}") for i, x in enumerate(v)]
    return go


def word(table, least=0):
    def read(v, path):
        if not isinstance(v, str) or v not in table or table[v] < least:
            bad_value(path)
        return table[v]
    return read


def mask(table, least=0, some=False):
    def go(v, path):
        arr(v, path, "words", 64)
        if some and not v:
            bad_value(path)
        m = 0
        for i, x in enumerate(v):
            m |= 1 << word(table, least)(x, f"{path}/{i}")
        return m
    return go


roles = mask(ROLE, 0, True)
relations = mask(ROLE, 9, True)


def known_usr(usrs):
    def read(v, path):
        if text(v, path) not in usrs:
            bad_value(path)
        return v
    return read


def dbg(s):
    return '"' + s.replace("\\", "\\\\").replace('"', '\\"') + '"'


def b(x):
    return "true" if x else "false"


def lst(xs):
    return "[" + ", ".join(xs) + "]"


def relation(usrs):
    def read(v, path):
        obj(v, path); known(v, path, ("usr", "roles"))
        usr = req(v, path, "usr", known_usr(usrs))
        r = req(v, path, "roles", relations)
        return f"RelationPlan {{ usr: {dbg(usr)}, roles: Roles {{ bits: {r} }} }}"
    return read


def occurrence(usrs):
    def read(v, path):
        obj(v, path); known(v, path, ("usr", "line", "col", "roles", "relations"))
        usr = req(v, path, "usr", known_usr(usrs))
        line = req(v, path, "line", coord)
        col = req(v, path, "col", coord)
        r = req(v, path, "roles", roles)
        rel = opt(v, path, "relations", [], items("relations", 256, relation(usrs)))
        return f"OccurrencePlan {{ usr: {dbg(usr)}, line: {line}, col: {col}, roles: Roles {{ bits: {r} }}, relations: {lst(rel)} }}"
    return read


def symbol(fmt, usrs):
    def read(v, path):
        obj(v, path)
        known(v, path, ("usr", "name", "kind", "lang", "props") + (("codegen",) if fmt == 2 else ()))
        usr = req(v, path, "usr", text)
        if usr in usrs:
            bad_value(path + "/usr")
        usrs.add(usr)
        name = opt(v, path, "name", "", text_or_empty)
        kind = opt(v, path, "kind", 0, word(KIND))
        lang = opt(v, path, "lang", 100, word(LANG))
        props = opt(v, path, "props", 0, mask(PROP))
        codegen = opt(v, path, "codegen", "", text_or_empty) if fmt == 2 else ""
        return f"SymbolPlan {{ usr: {dbg(usr)}, name: {dbg(name)}, kind: Kind {{ code: {kind} }}, lang: Lang {{ code: {lang} }}, props: Props {{ bits: {props} }}, codegen: {dbg(codegen)} }}"
    return read


def record(fmt):
    def read(v, path):
        obj(v, path); known(v, path, ("path", "system", "symbols", "occurrences"))
        p = req(v, path, "path", text)
        system = opt(v, path, "system", False, flag)
        usrs = set()
        syms = opt(v, path, "symbols", [], items("symbols", 65536, symbol(fmt, usrs)))
        occs = opt(v, path, "occurrences", [], items("occurrences", 65536, occurrence(usrs)))
        return f"RecordPlan {{ format: {('', 'One', 'Two')[fmt]}, path: {dbg(p)}, system: {b(system)}, symbols: {lst(syms)}, occurrences: {lst(occs)} }}"
    return read


def file(v, path):
    obj(v, path); known(v, path, ("path", "system"))
    p = req(v, path, "path", text)
    return f"FilePlan {{ path: {dbg(p)}, system: {b(opt(v, path, 'system', False, flag))} }}"


def include(v, path):
    obj(v, path); known(v, path, ("from", "line", "to"))
    fr = req(v, path, "from", text)
    line = req(v, path, "line", coord)
    to = req(v, path, "to", text)
    return f"IncludePlan {{ from: {dbg(fr)}, line: {line}, to: {dbg(to)} }}"


def unit(fmt):
    def read(v, path):
        obj(v, path); known(v, path, ("output", "main", "module", "system", "units", "records", "files", "includes"))
        output = req(v, path, "output", text)
        main = opt(v, path, "main", "", text_or_empty)
        module = opt(v, path, "module", "", text_or_empty)
        system = opt(v, path, "system", False, flag)
        units = opt(v, path, "units", [], items("units", 4096, text))
        records = opt(v, path, "records", [], items("records", 4096, record(fmt)))
        files = opt(v, path, "files", [], items("files", 4096, file))
        includes = opt(v, path, "includes", [], items("includes", 4096, include))
        return f"UnitPlan {{ output: {dbg(output)}, main: {dbg(main)}, module: {dbg(module)}, system: {b(system)}, units: {lst(map(dbg, units))}, records: {lst(records)}, files: {lst(files)}, includes: {lst(includes)} }}"
    return read


def ask(fmt, v, path, front):
    q = req(v, path, "query", string)
    name = q[:1].upper() + q[1:]
    one = {"def": "usr", "refs": "usr", "callers": "usr", "overrides": "usr", "symbols": "path", "mains": "path", "units": "path", "includes": "path", "includers": "path"}
    if fmt == 2:
        one["codegen"] = "codegen"
    if q in one:
        f = one[q]
        known(v, path, front + (f,))
        return f"{name} {{ {f}: {dbg(req(v, path, f, text))} }}"
    if q in ("occ", "rel"):
        known(v, path, front + ("usr", "roles"))
        usr = req(v, path, "usr", text)
        r = req(v, path, "roles", roles if q == "occ" else relations)
        return f"{name} {{ usr: {dbg(usr)}, roles: Roles {{ bits: {r} }} }}"
    if q == "name":
        known(v, path, front + ("name",))
        return f"Name {{ name: {dbg(req(v, path, 'name', text_or_empty))} }}"
    if q == "pattern":
        known(v, path, front + ("text", "start", "end", "fold"))
        t = req(v, path, "text", text)
        s, e, f = (opt(v, path, n, False, flag) for n in ("start", "end", "fold"))
        return f"Pattern {{ text: {dbg(t)}, start: {b(s)}, end: {b(e)}, fold: {b(f)} }}"
    if q in ("incoming", "outgoing", "supertypes", "subtypes"):
        known(v, path, front + ("usr", "depth"))
        usr = req(v, path, "usr", text)
        return f"{name} {{ usr: {dbg(usr)}, depth: {req(v, path, 'depth', count(16))} }}"
    bad_value(path + "/query")


def step(fmt):
    def read(v, path):
        obj(v, path)
        do = req(v, path, "do", string)
        if do == "build":
            known(v, path, ("do", "unit"))
            return f"Build({req(v, path, 'unit', unit(fmt))})"
        if do == "remove":
            known(v, path, ("do", "output"))
            return f"Remove({dbg(req(v, path, 'output', text))})"
        if do == "ask":
            return f"Ask({ask(fmt, v, path, ('do', 'query'))})"
        if do in ("poll", "refresh", "release", "collect"):
            known(v, path, ("do",))
            return do[0].upper() + do[1:]
        bad_value(path + "/do")
    return read


def form(v, path):
    if number(v, path) not in (1, 2):
        bad_value(path)
    return v


def script(v):
    obj(v, ""); known(v, "", ("format", "lanes", "order"))
    fmt = req(v, "", "format", form)
    lanes = req(v, "", "lanes", items("lanes", 16, items("steps", 4096, step(fmt))))

    def lane_number(x, path):
        if number(x, path) >= len(lanes):
            bad_value(path)
        return str(x)
    order = opt(v, "", "order", [], items("order", 65536, lane_number))
    polling = [i for i, lane in enumerate(lanes) if "Poll" in lane]
    if len(polling) > 1:
        raise Refused(f"second polling lane {polling[1]}")
    return f"Script {{ lanes: {lst(map(lst, lanes))}, order: {lst(order)} }}"


def read(data):
    try:
        return script(parse(data))
    except Refused as e:
        return str(e)


def read_ask(data):
    """The ask of a JSON text that stands alone."""
    try:
        v = parse(data)
        obj(v, "")
        return ask(2, v, "", ("query",))
    except Refused as e:
        return str(e)
