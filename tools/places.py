#!/usr/bin/env python3
"""Lists the places of old forms in crates/*/src, point by point, in a commit or in the working tree.

    tools/places.py [COMMIT]

It goes by text. A line is a place to look at, not yet one to change. The points are those of docs/DESIGN-PASS.md.
"""
import re
import subprocess
import sys
from collections import defaultdict

COMMIT = sys.argv[1] if len(sys.argv) > 1 else None


def run(*args):
    return subprocess.run(args, capture_output=True, text=True, check=True).stdout


def sources():
    if COMMIT:
        names = run("git", "ls-tree", "-r", "--name-only", COMMIT, "crates").split()
    else:
        names = run("git", "ls-files", "crates").split()
    for name in names:
        if re.search(r"/src/.*\.rt$", name):
            yield name, run("git", "show", f"{COMMIT}:{name}") if COMMIT else open(name).read()


FILES = dict(sources())

LINES = {
    "1, own enums": r"^ *(pub(\([a-z]+\))? )?enum ",
    "1, flags beside values": r"\b[a-z_]+: bool\b",
    "1, numbers for kinds, refusals or errors": r"Refused\(u8\)|fn refusal.*-> u8|Result<[A-Za-z0-9<>]+, (usize|u8|u32)>",
    "3, loops that count by hand": r"\bwhile |\bloop \{|\bfor (?!_ in)[a-z_()&, ]+ in \(?[0-9a-z_]+\.\.",
    "4, order, conversion and printing by hand": r"fn (compare|ranked|ordered|longer|longer_run|number|from_number|name|text|several|value|from_value"
    r"|[a-z]+_text|show_[a-z]+|code|[a-z]+_code|of|address|line|route|hop|hop_of|matched|opened|inserted|deleted|counted|following"
    r"|refused|failed)\b.*(->|\()",
    "4, errors passed on by hand": r"Err\((stop|fault|failure|inner|stopped|place|_)\) => (return )?(Err|refused|failed|Said|Ok\(Said)",
    "6, buffers with a length, parallel arrays": r"\(\[[a-z0-9]+; [0-9]+\], usize\)|, usize\)> \{$",
    "6, sorted or unsorted lists searched by hand": r"for \(?[a-z, ]+\)? in (0\.\.(self\.)?(routes|lines)|self\.lines)|while i > 0",
    "7, switches on which step to run": r"enum OfPrefix|command: OfPrefix|blanks: bool|\bcall < [0-9]+|call: u32",
}

PREMISES = ["Keeps A", r"AllByRecursion \(Held", r"Sound \(A"]
TOGETHER = [r"line: &\[u8\],? *\n? *from: usize", r"heap: Global,\s+(what|command|asked): &str", r"rt: &HostRuntime,\s+list: &", r"list: &mut RouteList<A>,\s+scan: &mut Scan"]


def bodies(text):
    """The functions of a file, each with its contract's words and its body."""
    for m in re.finditer(r"\bfn ([a-z_0-9]+)", text):
        start = re.compile(r"(^|\s)\{\s*\n").search(text, m.end())
        end = re.compile(r";\n").search(text, m.end())
        if not start or (end and end.start() < start.start() and "\n\n" not in text[m.end() : end.start()]):
            continue
        depth, i = 1, start.end()
        while depth and i < len(text):
            depth += {"{": 1, "}": -1}.get(text[i], 0)
            i += 1
        yield m.group(1), text[m.end() : start.start()], re.sub(r"\s+", " ", text[start.end() : i - 1]).strip()


def show(title, places):
    print(f"{title}: {len(places)}")
    for place in places:
        print(f"    {place}")


for title, pattern in LINES.items():
    found = []
    for name, text in FILES.items():
        for n, line in enumerate(text.split("\n"), 1):
            if re.search(pattern, line) and not line.strip().startswith("//"):
                found.append(f"{name.removeprefix('crates/')}:{n}: {line.strip()[:110]}")
    show(title, found)

same = defaultdict(list)
for name, text in FILES.items():
    for fn, _, body in bodies(text):
        # each program has a `main`
        if body and not body.startswith("//") and fn != "main":
            plain = re.sub(r"\b(32|128|64|58|122|u32|u64|u128|Ipv4|Ipv6|reference_nodes|reference)\b", "N", body)
            same[fn, plain].append(name.removeprefix("crates/"))
twins = {k: v for k, v in same.items() if len(v) > 1}
show("2, functions with the same name and body but for a type, a size or a constant", [f"{fn}: {', '.join(v)}" for (fn, _), v in twins.items()])
print(f"    that is {sum(len(v) for v in twins.values())} functions")

for premise in PREMISES:
    found = []
    for name, text in FILES.items():
        for fn, contract, _ in bodies(text):
            if re.search(premise + r"[^}]*→", contract):
                found.append(f"{name.removeprefix('crates/')} {fn}")
    show(f"5, functions with the premise `{premise}`", found)
for pattern in TOGETHER:
    found = [f"{name.removeprefix('crates/')} {n}" for name, text in FILES.items() if (n := len(re.findall(pattern, text)))]
    show(f"5, parameters that travel together, `{pattern}`", found)
