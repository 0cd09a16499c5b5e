"""large.py FOLDER: writes scripts of just under 16 MiB into the folder: many builds, one record of many symbols, in order and shuffled, one of many occurrences;
and records of 65,536 symbols by the form of their USRs: clash.json, where all have one hash by the hasher of std; plain.json, of the same
length, by chance; long.json, long ones that differ in their last letters alone."""
import json, random, sys
MOST = 16 * 2 ** 20
rng = random.Random(5)


def save(name, v):
    t = json.dumps(v, separators=(",", ":"), ensure_ascii=False)
    assert len(t.encode()) <= MOST, len(t.encode())
    open(f"{sys.argv[1]}/{name}.json", "w").write(t)
    print(name, len(t.encode()))


ROLES = ["Reference", "Call", "Read", "Write", "Definition", "Declaration"]


def record(i, symbols, occs):
    usrs = [f"s:{i:x}4main{j}yyF" for j in range(symbols)]
    return {"path": f"src/module{i}/file.swift", "symbols": [{"usr": u, "name": f"name{j}", "kind": "Function", "lang": "Swift"} for j, u in enumerate(usrs)],
            "occurrences": [{"usr": rng.choice(usrs), "line": k // 3 + 1, "col": k % 90 + 1, "roles": rng.sample(ROLES, 1 + k % 2), "relations": ([{"usr": rng.choice(usrs), "roles": ["CalledBy", "ContainedBy"]}] if k % 2 else [])} for k in range(occs)]}


def builds(count, symbols, occs):
    return {"format": 1, "lanes": [[{"do": "build", "unit": {"output": f"out{i}.o", "main": f"m{i}", "records": [record(i, symbols, occs)]}} for i in range(count)]]}


size = len(json.dumps(builds(10, 200, 1000), separators=(",", ":"))) / 10
save("builds", builds(int(MOST / size) - 1, 200, 1000))
SYMBOLS = [{"usr": f"s:{j:x}" + "u" * 120, "name": f"n{j}" + "m" * 24, "kind": "Class", "lang": "C++", "props": ["Local", "Generic"], "codegen": ""} for j in range(65536)]
save("symbols", {"format": 2, "lanes": [[{"do": "build", "unit": {"output": "o", "records": [{"path": "p", "symbols": SYMBOLS}]}}]]})
save("occurrences", {"format": 1, "lanes": [[{"do": "build", "unit": {"output": "o", "records": [dict(record(0, 65536 // 2, 0), occurrences=[{"usr": f"s:04main{(j * 7919) % 32768}yyF", "line": j + 1, "col": 1, "roles": ["Call"], "relations": [{"usr": f"s:04main{(j * 31) % 32768}yyF", "roles": ["CalledBy"]}]} for j in range(65536)])]}}]]})
save("shuffled", {"format": 2, "lanes": [[{"do": "build", "unit": {"output": "o", "records": [{"path": "p", "symbols": rng.sample(SYMBOLS, 65536)}]}}]]})


# USRs of 48 bytes with one hash (FoldHasher of std): the second block of 16 bytes begins with the state that the first one leaves,
# so the product there is 0 whatever its other half is.
WHOLE, MULTIPLIER, START = 2 ** 64 - 1, 0x9E3779B97F4A7C15, 0x243F6A8885A308D3
LETTERS = b"abcdefghijklmnopqrstuvwxyz0123456789"


def folded(a, b):
    product = a * b
    return (product & WHOLE) ^ (product >> 64)


def clashing():
    while True:
        first = bytes(rng.choice(LETTERS) for _ in range(16))
        state = folded(int.from_bytes(first[:8], "little") ^ (START + 48), int.from_bytes(first[8:], "little") ^ MULTIPLIER)
        front = first + state.to_bytes(8, "little")
        if all(32 < byte < 127 for byte in front):
            return [front.decode() + f"{i:08}" + "0123456789abcdef" for i in range(65536)]


def symbols(usrs):
    return {"format": 2, "lanes": [[{"do": "build", "unit": {"output": "o", "records": [{"path": "p", "symbols": [{"usr": u} for u in usrs]}]}}]]}


def shuffled(usrs):
    rng.shuffle(usrs)
    return usrs


save("clash", symbols(shuffled(clashing())))
save("plain", symbols(shuffled([f"{i:06}" + "".join(chr(rng.choice(LETTERS)) for _ in range(42)) for i in range(65536)])))
save("long", symbols(shuffled(["s:" + "u" * 220 + f"{i:06}" for i in range(65536)])))
