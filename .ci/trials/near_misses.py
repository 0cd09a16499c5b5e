"""near_misses.py PROGRAM COUNT SEED: scripts with one value changed, dropped, doubled, moved or renamed, up to three at once; compares
the program's answers with reader.py's."""
import json, os, random, re, subprocess, sys

HERE = os.path.dirname(os.path.realpath(__file__))
sys.path.insert(0, HERE)
import reader

TESTS = os.path.join(HERE, "../../crates/ix_plan/src/tests.rt")


class Obj(list):  # pairs
    pass


def load(text):
    return json.loads(text, object_pairs_hook=Obj)


def copy(v):
    if isinstance(v, Obj):
        return Obj((k, copy(x)) for k, x in v)
    if isinstance(v, list):
        return [copy(x) for x in v]
    return v


class Raw(str):
    pass


def quote(s, rng):
    out = []
    for c in s:
        if rng and rng.random() < 0.03 and ord(c) < 0x10000 and not 0xD800 <= ord(c) < 0xE000:
            out.append("\\u%04x" % ord(c))
        else:
            out.append(json.dumps(c, ensure_ascii=False)[1:-1])
    return '"' + "".join(out) + '"'


def dump(v, rng=None):
    if isinstance(v, Raw):
        return str(v)
    if isinstance(v, Obj):
        return "{" + ",".join(quote(k, rng) + ":" + dump(x, rng) for k, x in v) + "}"
    if isinstance(v, list):
        return "[" + ",".join(dump(x, rng) for x in v) + "]"
    if isinstance(v, str):
        return quote(v, rng)
    return json.dumps(v)


def places(v, out):
    """Every slot: (container, index)."""
    for i in range(len(v)):
        x = v[i][1] if isinstance(v, Obj) else v[i]
        out.append((v, i))
        if isinstance(x, list):
            places(x, out)
    return out


def get(slot):
    c, i = slot
    return c[i][1] if isinstance(c, Obj) else c[i]


def put(slot, x):
    c, i = slot
    c[i] = (c[i][0], x) if isinstance(c, Obj) else x


WORDS = list(reader.KIND) + list(reader.LANG) + list(reader.ROLE) + list(reader.PROP) + "def refs occ rel callers overrides name pattern symbols mains units includes includers incoming outgoing supertypes subtypes codegen build remove poll refresh ask release collect register unregister".split()
KEYS = "format lanes order do unit output query usr roles name text start end fold path depth main module system units records files includes symbols occurrences from line to kind lang props codegen col relations explicit".split()
NUMBERS = [Raw(x) for x in "0 1 2 3 -1 -0 1.0 1e0 16 17 4294967295 4294967296 18446744073709551615 18446744073709551616 1e400 -1e400 0.5 1E2 9223372036854775808 -9223372036854775808 -9223372036854775809 123456789012345678901234567890".split()]
TEXTS = ["", "a", "u1", "u2", "x" * 4096, "x" * 4097, "é" * 2048, "é" * 2048 + "a", "\u0001", "\u007f", "\u0000", "\t", "\u0080", "𝄞", "\\", "\"", "/", " ", "Def", "DEF", "true"]
RAWS = [Raw(x) for x in ["", '"\\ud834\\udd1e"', '"\\ud834"', '"\\udd1e"', '"\\ud834x"', "[", "{", "nul", "NaN", "01", "+1", "1.", ".5", "'a'", "tru", "[1,]", '{"a":1,}', '"\t"', '"\\x41"', "/**/1"]]


def value(rng):
    r = rng.randrange(10)
    if r == 0: return None
    if r == 1: return rng.random() < 0.5
    if r in (2, 3): return rng.choice(NUMBERS)
    if r == 4: return []
    if r == 5: return Obj()
    if r == 6: return rng.choice(TEXTS)
    if r == 7: return [rng.choice(WORDS) for _ in range(rng.choice([1, 2, 3, 64, 65]))]
    if r == 8 and rng.random() < 0.4: return rng.choice(RAWS)
    return rng.choice(WORDS)


def near(v, rng):
    """The same kind of value, a little off."""
    if isinstance(v, bool): return rng.choice([not v, None, 0, 1, "true"])
    if isinstance(v, int): return rng.choice([v + 1, v - 1, Raw(f"{v}.0"), Raw(f"{v}e0"), -v, str(v), 0] + NUMBERS)
    if isinstance(v, str): return rng.choice([v + "x", v[:-1], v.lower(), v.upper(), v + " ", "", [v], rng.choice(WORDS), rng.choice(TEXTS)])
    if isinstance(v, Obj): return rng.choice([[v], Obj(), list(v), None])
    if isinstance(v, list): return rng.choice([v + v, v[:-1], v[1:], list(reversed(v)), Obj(), None, [v], v[0] if v else 1])
    return value(rng)


def mutate(v, rng):
    slots = places(v, [])
    if not slots:
        return value(rng)
    slot = rng.choice(slots)
    c, i = slot
    r = rng.randrange(12)
    if r == 0: put(slot, value(rng))
    elif r in (1, 2): put(slot, near(get(slot), rng))
    elif r == 3: del c[i]
    elif r == 4: c.insert(i, copy(c[i]))                 # doubled
    elif r == 5: c.append(copy(c[i]))
    elif r == 6:                                          # moved to another place
        x = get(slot)
        target = rng.choice(slots)
        if isinstance(target[0], Obj):
            target[0].append((c[i][0] if isinstance(c, Obj) else rng.choice(KEYS), copy(x)))
        else:
            target[0].insert(rng.randrange(len(target[0]) + 1), copy(x))
        if rng.random() < 0.5 and target[0] is not c:
            del c[i]
    elif r == 7 and isinstance(c, Obj): c[i] = (rng.choice(KEYS), c[i][1])          # renamed
    elif r == 8 and isinstance(c, Obj): c.insert(i, (rng.choice(KEYS + ["x", "", "Usr"]), value(rng)))
    elif r == 9: put(slot, copy(get(rng.choice(slots))))  # another's value
    elif r == 10:                                         # swapped
        other = rng.choice(slots)
        a, b = copy(get(slot)), copy(get(other))
        put(slot, b); put(other, a)
    else: put(slot, near(get(slot), rng))
    return v


def seeds():
    """The scripts of ix_plan's tests."""
    with open(TESTS) as it:
        src = it.read()
    out = [re.search(r'const WORKED: &str =\s*r#"(.*?)"#;', src, re.S).group(1)]
    table = re.search(r'const SCRIPTS: &str = r##"(.*?)"##;', src, re.S).group(1)
    out += [line.split(" | ")[0] for line in table.split("\n")]
    return [load(text) for text in out]


def cases(n, rng):
    base = seeds()
    for _ in range(n):
        v = copy(rng.choice(base[:1] * 12 + base))
        for _ in range(rng.choice([1, 1, 1, 2, 3])):
            v = mutate(v, rng)
            if not isinstance(v, list):
                break
        t = dump(v, rng if rng.random() < 0.3 else None).encode("utf-8", "surrogatepass")
        if rng.random() < 0.04:                            # a byte of the text
            i = rng.randrange(len(t) + 1)
            t = rng.choice([t[:i] + bytes([rng.randrange(256)]) + t[i:], t[:i] + t[i + 1:], t[:i] + bytes([rng.randrange(256)]) + t[i + 1:], t[:i]])
        yield t.replace(b"\n", b" ").replace(b"\r", b" ")


ODD = re.compile(rb"\\\\u\{[0-9a-f]+\}")


def main():
    program, total, seed = sys.argv[1], int(sys.argv[2]), int(sys.argv[3])
    rng = random.Random(seed)
    done = bad = 0
    kinds = {}
    while done < total:
        lines = list(cases(min(5000, total - done), rng))
        got = subprocess.run([program, "lines"], input=b"\n".join(lines), capture_output=True).stdout.decode("utf-8", "replace").split("\n")
        got = got[:len(lines)]
        if len(got) != len(lines):
            print("lines", len(got), len(lines)); return 1
        for line, answer in zip(lines, got):
            want = reader.read(line)
            k = want.split(" ")[0]
            kinds[k] = kinds.get(k, 0) + 1
            if want != answer and re.sub(r"\\u\{([0-9a-f]+)\}", lambda m: chr(int(m.group(1), 16)), answer) != want:
                bad += 1
                if bad < 20:
                    print("script:", line[:3000].decode("utf-8", "replace")); print("  got ", answer[:500]); print("  want", want[:500])
        done += len(lines)
        print(done, "done", bad, "differ", kinds, flush=True)
    return 1 if bad else 0


if __name__ == "__main__":
    sys.exit(main())
