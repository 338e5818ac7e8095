# Facts that stand in the requires of three or more functions of src/: each conjunct, without .now, .old and .new.
import collections
import glob
import re

functions = collections.defaultdict(set)
for path in sorted(glob.glob("crates/*/src/*.rt")):
    crate = path.split("/")[1]
    for name, head in re.findall(r"\bfn (\w+)((?:.|\n)*?)\n *\{\n", open(path).read()):
        for body in re.findall(r"requires(?: \w+)? \{((?:.|\n)*?)\}(?=\s*(?:requires|ensures|$))", head):
            for fact in re.split(r"\s×\s", " ".join(body.split())):
                fact = re.sub(r"\.(now|old|new)\b", "", fact.strip()).strip("()").strip()
                functions[fact].add(f"{crate}::{name}")
shared = {fact: names for fact, names in functions.items() if len(names) >= 3}
for fact, names in sorted(shared.items(), key=lambda item: (-len(item[1]), item[0])):
    print(len(names), fact, "|", *sorted(names))
print(len(shared), "facts in", sum(map(len, shared.values())), "places")
