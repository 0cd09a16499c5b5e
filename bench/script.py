"""Scripts for a store of many units, generated: the same for the same numbers."""
import json
import random

# An input has at most 16 MiB, and a lane 4,096 steps.
MOST_BYTES = 15 << 20
MOST_STEPS = 4000
FUNCTIONS = 8


def function(unit, number):
    return {"usr": f"c:@F@f{unit}_{number}#", "name": f"f{unit}_{number}", "kind": "Function", "lang": "C++"}


def shared(number):
    """A header that many units include: a class with a method."""
    name = f"Base{number}"
    symbols = [{"usr": f"c:@S@{name}", "name": name, "kind": "Class", "lang": "C++"}, {"usr": f"c:@S@{name}@F@run#", "name": "run", "kind": "InstanceMethod", "lang": "C++"}]
    occurrences = [{"usr": symbols[0]["usr"], "line": 3, "col": 7, "roles": ["Definition"]},
                   {"usr": symbols[1]["usr"], "line": 5, "col": 16, "roles": ["Declaration"], "relations": [{"usr": symbols[0]["usr"], "roles": ["ChildOf"]}]}]
    return {"path": f"include/{name}.h", "symbols": symbols, "occurrences": occurrences}


def header(unit):
    """A unit's own header: its functions are declared in it."""
    symbols = [function(unit, number) for number in range(FUNCTIONS)]
    return {"path": f"include/f{unit}.h", "symbols": symbols, "occurrences": [{"usr": it["usr"], "line": 3 + at, "col": 5, "roles": ["Declaration"]} for at, it in enumerate(symbols)]}


def source(unit, units, base, edit):
    """A unit's source: a class over a shared one, and functions that call each other and those of other units. An edit moves its lines."""
    chance = random.Random(unit * units + 1)
    own = [function(unit, number) for number in range(FUNCTIONS)]
    others = [function(other, chance.randrange(FUNCTIONS)) for other in sorted(chance.sample(range(units), min(units, 5))) if other != unit]
    above, run = base["symbols"]
    derived = {"usr": f"c:@S@Derived{unit}", "name": f"Derived{unit}", "kind": "Class", "lang": "C++"}
    method = {"usr": f"c:@S@Derived{unit}@F@run#", "name": "run", "kind": "InstanceMethod", "lang": "C++"}
    line = 5 + edit
    occurrences = [{"usr": derived["usr"], "line": line, "col": 7, "roles": ["Definition"]},
                   {"usr": above["usr"], "line": line, "col": 24, "roles": ["Reference"], "relations": [{"usr": derived["usr"], "roles": ["BaseOf", "ContainedBy"]}]},
                   {"usr": method["usr"], "line": line + 1, "col": 8, "roles": ["Definition", "Dynamic"],
                    "relations": [{"usr": derived["usr"], "roles": ["ChildOf"]}, {"usr": run["usr"], "roles": ["OverrideOf"]}]}]
    for it in own:
        line += 8
        occurrences.append({"usr": it["usr"], "line": line, "col": 5, "roles": ["Definition"]})
        for at in range(5):
            called = chance.choice(own + others + [run])
            roles = ["Reference", "Call"] + ["Dynamic"] * (called is run)
            occurrences.append({"usr": called["usr"], "line": line + 1 + at, "col": 3, "roles": roles, "relations": [{"usr": it["usr"], "roles": ["CalledBy", "ContainedBy"]}]})
    return {"path": f"src/f{unit}.cpp", "symbols": own + others + [above, run, derived, method], "occurrences": occurrences}


def build(unit, units, edit=0):
    base = shared(unit % max(1, units // 20))
    path = f"src/f{unit}.cpp"
    includes = [{"from": path, "line": 1, "to": f"include/f{unit}.h"}, {"from": path, "line": 2, "to": base["path"]}]
    return {"do": "build", "unit": {"output": f"out/f{unit}.o", "main": path, "records": [source(unit, units, base, edit), header(unit), base], "includes": includes}}


def ask(number, units):
    """One of fifteen questions in turn, about a unit that was chosen by chance."""
    chance = random.Random(number)
    unit = chance.randrange(units)
    usr, base, path = function(unit, number % FUNCTIONS)["usr"], f"c:@S@Base{unit % max(1, units // 20)}", f"include/Base{unit % max(1, units // 20)}.h"
    forms = [("def", {"usr": usr}), ("refs", {"usr": usr}), ("callers", {"usr": usr}), ("occ", {"usr": usr, "roles": ["Call"]}), ("rel", {"usr": usr, "roles": ["CalledBy"]}),
             ("overrides", {"usr": f"{base}@F@run#"}), ("name", {"name": f"Derived{unit}"}), ("symbols", {"path": f"src/f{unit}.cpp"}), ("mains", {"path": path}), ("units", {"path": path}),
             ("includes", {"path": f"src/f{unit}.cpp"}), ("includers", {"path": path}), ("subtypes", {"usr": base, "depth": 2}), ("incoming", {"usr": usr, "depth": 2}), ("outgoing", {"usr": usr, "depth": 2})]
    query, fields = forms[number % len(forms)]
    return {"do": "ask", "query": query, **fields}


def scripts(steps):
    """The steps as one lane of one script, or of several that each keep the limits."""
    texts, size = [[]], 0
    for step in steps:
        text = json.dumps(step, separators=(",", ":"))
        if size + len(text) > MOST_BYTES or len(texts[-1]) == MOST_STEPS:
            texts.append([])
            size = 0
        texts[-1].append(text)
        size += len(text) + 2
    return ['{"format":1,"lanes":[[' + ",\n".join(part) + "]]}\n" for part in texts]


def rows(steps):
    """How many symbols, occurrences and relations a poll after these builds brings in: those of each different record once."""
    seen, count = set(), 0
    for step in steps:
        for record in step["unit"]["records"]:
            text = json.dumps(record)
            if text not in seen:
                seen.add(text)
                count += len(record["symbols"]) + sum(1 + len(it.get("relations", ())) for it in record["occurrences"])
    return count
