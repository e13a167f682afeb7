#!/usr/bin/env python3
# Brings the repository's own definitions and lemmas to today's spelling, once, behind port.py: words joined by `_`, types in camel case.
# A name that a file takes from the kit keeps its spelling there. `--show` prints the names and changes nothing.
import glob, re, sys

IDENT = r"[^\s(){}\[\].,;:·«»\\@\"`]+"
TOKEN = re.compile(IDENT)

def files():
    antt = glob.glob('crates/*/specs/**/*.antt', recursive=True) + glob.glob('crates/*/proofs/**/*.antt', recursive=True)
    return sorted(antt), sorted(glob.glob('crates/*/src/**/*.rt', recursive=True))


def is_walk(path):
    return path.endswith('/Proof.antt')


def new_name(name):
    if '-' not in name.strip('-') or not re.search(r'\w-\w', name):
        return name
    if name[0].isupper():
        return ''.join(part[0].upper() + part[1:] for part in name.split('-'))
    return name.replace('-', '_')


HEAD = re.compile(r"^\s*(?:(?:abbrev|unfoldable|pub|record|data)\s+)*(" + IDENT + r"(?:\s+" + IDENT + r")*?)\s*(?:[({].*[)}]\s*)*:(?:\s|$)")
LET = re.compile(r"\blet (" + IDENT + r")\s*[:=]")
ALIAS = re.compile(r"(?<= as )" + IDENT)
BOUND = re.compile(r"[({λ]\s*((?:" + IDENT + r"\s+)*" + IDENT + r")\s*:")


def own_names(paths):
    names = set()
    for path in paths:
        if is_walk(path):
            continue
        for line in open(path):
            line = line.split('--')[0] if not re.search(r"\w--\w", line) else line
            if line.startswith('use '):
                names.update(ALIAS.findall(line))
                continue
            for found in [HEAD.match(line)] + list(LET.finditer(line)) + list(BOUND.finditer(line)):
                if found:
                    names.update(found.group(1).split())
    return {n for n in names if new_name(n) != n}


USE = re.compile(r"^(?:ghost )?use ([^{;\n]+?)\.\{([^}]*)\}", re.M)


def lent(text):
    """The names that a file takes from the kit."""
    names = set()
    for path, items in USE.findall(text):
        if re.match(r"Rattle\.(?!std\b|core\b)", path):
            continue
        for item in items.split(','):
            names.update(item.split())
    return names


def respelled(text, names):
    kept = lent(text) - set(ALIAS.findall(text))
    return TOKEN.sub(lambda m: new_name(m.group(0)) if m.group(0) in names and m.group(0) not in kept else m.group(0), text)


def main():
    antt, rust = files()
    names = own_names(antt)
    if '--show' in sys.argv:
        for name in sorted(names):
            print(name, new_name(name))
        return
    for path in antt + rust:
        old = open(path).read()
        new = respelled(old, names)
        if new != old:
            open(path, 'w').write(new)


main()
