#!/usr/bin/env python3
"""Brings the repository's own definitions and lemmas to one spelling: words in snake case, types in camel case.

    python3 tools/respell.py            counts the names, and lists those that might fall together with another one
    python3 tools/respell.py --names    lists each name with its new spelling
    python3 tools/respell.py --write    writes the new spelling

It is run at the top of the repository. Names of the standard library, of Rust code and of the goals that the prover makes are left alone,
and so are comments and texts.
"""
import re
import subprocess
import sys

OWN_CRATES = [line.split(':')[0].split()[0] for line in open('crates.txt', encoding='utf8') if line.strip() and not line.startswith('#')]
FILES = [f for f in subprocess.check_output(
    ['git', 'ls-files', '-co', '--exclude-standard', 'crates'], text=True).split('\n') if f.endswith(('.antt', '.rt'))]

TOKEN = r"[^\s(){}\[\];.,:«»|⌜⌝∣\"]+"
SKIP = re.compile(r'"(?:[^"\\]|\\.)*"|--[^\n]*|//[^\n]*|' + TOKEN)
SKIP_RT = re.compile(r"\"(?:[^\"\\]|\\.)*\"|//[^\n]*|" + TOKEN)


def is_lemma_or_spec(f):
    """specs/*.antt and proofs/*.antt, and no answer file of a function"""
    return re.fullmatch(r'crates/[^/]+/(specs|proofs)/[^/]+\.antt', f) is not None


def dashed(name):
    return re.fullmatch(r"[A-Za-z][A-Za-z0-9_₀-₉]*(-[A-Za-z0-9_₀-₉]+)+'?", name) is not None


def respelled(name):
    if name[0].isupper():
        return ''.join(part[0].upper() + part[1:] for part in name.split('-'))
    return name.replace('-', '_')


texts = {f: open(f, encoding='utf8').read() for f in FILES}

# names that a file brings in from elsewhere
foreign = {}
for f, text in texts.items():
    names = set()
    for m in re.finditer(r'^\s*(?:ghost |pub )*use ([^\s;{]+?)\.\{([^}]*)\}', text, flags=re.M):
        root = m.group(1).split('.')
        own = root[0] == 'Rattle' and root[1] in OWN_CRATES
        if not own:
            for item in m.group(2).split(','):
                names.add(item.split(' as ')[-1].strip())
    foreign[f] = names

# names that the repository defines
own = {}
for f, text in texts.items():
    if is_lemma_or_spec(f):
        for m in re.finditer(r"^[ ]*(?:abbrev |unfoldable |pub |data |record )*([^\s:(){}.,;=]+)(?: [({][^\n]*?)? :(?:\s|$)", text, flags=re.M):
            if dashed(m.group(1)):
                own.setdefault(m.group(1), set()).add(f)
    for m in re.finditer(r' as ([A-Za-z][\w-]*)', text):
        if dashed(m.group(1)) and re.search(r'^\s*(?:ghost |pub )*use [^\n]* as ' + re.escape(m.group(1)) + r'[,} ]', text, flags=re.M):
            own.setdefault(m.group(1), set()).add(f)

# names that would fall together
every = set()
for f, text in texts.items():
    every |= set(re.findall(TOKEN, text))
clashes = sorted((n, respelled(n)) for n in own if respelled(n) in every)
by_target = {}
for n in own:
    by_target.setdefault(respelled(n), set()).add(n)
twice = {t: ns for t, ns in by_target.items() if len(ns) > 1}

if '--names' in sys.argv:
    for n in sorted(own):
        print(n, '->', respelled(n), sorted(own[n])[:3])

bad = False
for n, t in clashes:
    here = [f for f in texts if re.search(r'(?<![\w-])' + re.escape(n) + r'(?![\w-])', texts[f]) and re.search(r'(?<![\w-])' + re.escape(t) + r'(?![\w-])', texts[f])]
    print('falls together?', n, t, here[:4])
for t, ns in twice.items():
    print('falls together', t, ns)

changed = 0
for f, text in texts.items():
    skip = SKIP_RT if f.endswith('.rt') else SKIP
    local = {n for n in own if f in own[n]}

    def turn(m):
        word = m.group(0)
        if word in own and (word in local or word not in foreign[f]):
            return respelled(word)
        return word

    new = skip.sub(turn, text)
    if new != text:
        changed += 1
        if '--write' in sys.argv:
            open(f, 'w', encoding='utf8').write(new)

# the pages name definitions between backticks
for f in subprocess.check_output(['git', 'ls-files', 'README.md', 'docs/*.md'], text=True).split():
    text = open(f, encoding='utf8').read()
    new = re.sub(r'`[^`\n]+`', lambda m: re.sub(r"[A-Za-z][\w-]*", lambda w: respelled(w.group(0)) if w.group(0) in own else w.group(0), m.group(0)), text)
    if new != text:
        changed += 1
        if '--write' in sys.argv:
            open(f, 'w', encoding='utf8').write(new)
print(len(own), 'names,', changed, 'files')
