#!/usr/bin/env python3
"""Writes docs/DESIGN-CONTRACTS.md: each public signature with its clauses, each definition and each theorem that changed since a commit,
old and new side by side; and where the promise of each public function that is gone stands now.

    python3 tools/port/oldnew.py COMMIT

Layout, imports and comments do not count. A definition that changed in the names of types alone (TYPES below) is listed by name."""
import os
import re
import subprocess
import sys

TOP = os.path.dirname(os.path.dirname(os.path.dirname(os.path.abspath(__file__))))
PAGE = os.path.join(TOP, "docs", "DESIGN-CONTRACTS.md")

# what a script renamed in definitions, theorems and lemmas
TYPES = [
    (r"\bFound\b", "Option ℕ"),
    (r"\bAt\b", "Some"),
    (r"\bNothing\b", "None"),
    (r"(?<![.\w])Context\b(?!\.)", "Option Context"),
    (r"\bOption Option Context\b", "Option Context"),
]

# public functions that are gone, and what states their promise now
GONE = {}
for line in open(os.path.join(TOP, "tools", "port", "gone.txt"), encoding="utf-8"):
    if line.strip() and not line.startswith("#"):
        key, text = line.rstrip("\n").split(" : ", 1)
        GONE[key] = text


def files(commit):
    if commit is None:
        out = {}
        for base, dirs, names in os.walk(os.path.join(TOP, "crates")):
            dirs[:] = [d for d in dirs if d not in ("out", "bazel-out")]
            for n in names:
                if n.endswith((".rt", ".antt")):
                    p = os.path.join(base, n)
                    out[os.path.relpath(p, TOP)] = open(p, encoding="utf-8").read()
        return out
    names = subprocess.run(["git", "-C", TOP, "ls-tree", "-r", "--name-only", commit, "crates"], capture_output=True, text=True, check=True).stdout.split()
    return {
        n: subprocess.run(["git", "-C", TOP, "show", f"{commit}:{n}"], capture_output=True, text=True, check=True).stdout
        for n in names
        if n.endswith((".rt", ".antt"))
    }


def flat(text):
    return re.sub(r"\s+", " ", text).strip()


def functions(tree):
    """crate, type and name: the file, and the signature with its clauses"""
    out = {}
    for path, text in tree.items():
        if not path.endswith(".rt"):
            continue
        crate = path.split("/")[1]
        owner = None
        lines = text.split("\n")
        i = 0
        while i < len(lines):
            m = re.match(r"impl(?:<[^>]*>)? (?:(\S+) for )?(\w+)", lines[i])
            if m:
                owner = m.group(2)
            elif lines[i] == "}":
                owner = None
            m = re.match(r"( *)pub (?:extern \"C\" )?(?:const )?fn (\w+)", lines[i])
            if m:
                j = i
                sig = []
                while True:
                    l = lines[j]
                    if re.match(m.group(1) + r"\{$", l) or (j > i and l == m.group(1) + "{"):
                        break
                    if l.endswith("{") and not re.match(r" *(requires|ensures)", l):
                        sig.append(l[:-1])
                        break
                    sig.append(l)
                    j += 1
                name = (owner + "::" if owner and m.group(1) else "") + m.group(2)
                out[(crate, name)] = (path, [flat(x) for x in split(sig)])
                i = j
            i += 1
    return out


def split(sig):
    """the signature, then each clause"""
    parts = [""]
    for l in sig:
        if re.match(r"\s*(requires|ensures)\b", l):
            parts.append(l)
        else:
            parts[-1] += " " + l
    return [re.sub(r",\s*\)", ")", re.sub(r"\(\s+", "(", flat(p))) for p in parts]


def statements(tree):
    """file and name: kind and text of each definition, record and theorem of specs/, and each public lemma's type of proofs/"""
    out = {}
    for path, text in tree.items():
        if not path.endswith(".antt") or "/specs/" not in path:
            continue
        text = re.sub(r"^\s*--.*$", "", text, flags=re.M)
        text = re.sub(r"^(pub )?use .*$", "", text, flags=re.M)
        blocks = re.split(r"\n(?=\S)", text)
        name = None
        for b in blocks:
            m = re.match(r"(?:(?:unfoldable|abbrev) )?pub (?:record |data )?([\w'-]+)", b) or re.match(r"()(?:(?:unfoldable|abbrev) )?(?:pub )?([\w'-]+) :", b)
            m2 = re.match(r"(?:(?:unfoldable|abbrev) )?(?:pub )?(?:record |data )?([\w'-]+)[^\n]*:", b)
            if m2 and not b.startswith(("module", "pub mod")):
                name = m2.group(1)
                out.setdefault((path, name), "")
            if name is not None and b.strip() and not b.startswith(("pub mod",)):
                out[(path, name)] = flat(out[(path, name)] + " " + b)
    return out


def statement(name, text):
    """a definition whole; of a theorem what it states, without its proof"""
    if re.match(r"(unfoldable|abbrev|pub record|pub data)\b", text):
        return text
    text = text.split(" unfolding ")[0]
    return re.split(r" module _ | " + re.escape(name) + r" ", text[len(name) + 4 :])[0] and text[: len(name) + 4] + re.split(r" module _ | " + re.escape(name) + r" ", text[len(name) + 4 :])[0]


def named():
    """the words that README and the pages name, these two pages and the one of the port aside"""
    out = set()
    for base, names in ((TOP, ["README.md"]), (os.path.join(TOP, "docs"), os.listdir(os.path.join(TOP, "docs")))):
        for n in names:
            if n.endswith(".md") and not n.startswith(("DESIGN-", "PORT")):
                out.update(re.findall(r"[A-Za-z_][\w'-]*", open(os.path.join(base, n), encoding="utf-8").read()))
    return out


def theorems(tree, words):
    """file and name: what each theorem states that stands under parameters in specs/, or in proofs/ where a page names it"""
    out = {}
    for path, text in tree.items():
        if not path.endswith(".antt") or path.endswith(("Answers.antt", "Invariants.antt")):
            continue
        text = re.sub(r"^\s*--.*\n", "", text, flags=re.M)
        for m in re.finditer(r"^( *)pub ([\w'-]+) : (.*?)(?=\n\1(?:unfolding\b|\2\b)|\n\n|\Z)", text, flags=re.M | re.S):
            if ("/specs/" in path and m.group(1)) or ("/proofs/" in path and m.group(2) in words):
                if " pub " not in flat(m.group(3)):
                    out[(path, m.group(2))] = flat(m.group(3))
    return out


def renamed(text):
    for a, b in TYPES:
        text = re.sub(a, b, text)
    return flat(text)


def main():
    commit = sys.argv[1]
    old, new = files(commit), files(None)
    fo, fn = functions(old), functions(new)
    rows = []
    gone = []
    same = 0
    for key in sorted(fo):
        crate, name = key
        if key not in fn:
            gone.append(key)
            continue
        a, b = fo[key], fn[key]
        if a[1] == b[1]:
            same += 1
        else:
            rows.append((key, a, b))
    fresh = [k for k in sorted(fn) if k not in fo]
    so, sn = ({k: statement(k[1], v) for k, v in statements(x).items()} for x in (old, new))
    types, changed, away, came = {}, [], [], []
    for key in sorted(so):
        if key not in sn:
            away.append(key)
        elif so[key] == sn[key]:
            continue
        elif renamed(so[key]) == renamed(sn[key]):
            types.setdefault(key[0], []).append(key[1])
        else:
            changed.append(key)
    for key in sorted(sn):
        if key not in so:
            came.append(key)
    words = named()
    to, tn = theorems(old, words), theorems(new, words)
    told = [k for k in sorted(to) if k in tn and renamed(to[k]) != renamed(tn[k])]
    lost = [k for k in sorted(to) if k not in tn and k not in sn]
    came = [k for k in came if k not in to]
    with open(PAGE, "w", encoding="utf-8") as f:
        w = lambda s="": f.write(s + "\n")
        w("# Contracts, definitions and theorems: old and new")
        w()
        w(f"Written by `tools/port/oldnew.py {commit}` from that commit and the files beside it. `docs/DESIGN-PASS.md` says why each kind of change promises at least as much.")
        w()
        w(f"{len(fo)} public functions before: {same} with signature and clauses unchanged, {len(rows)} changed, {len(gone)} gone; {len(fresh)} are new.")
        w()
        w("## Public functions that are gone, and what states their promise")
        w()
        w("| Function | Now |")
        w("|---|---|")
        missing = []
        for c, n in gone:
            t = GONE.get(f"{c}::{n}")
            if t is None:
                missing.append(f"{c}::{n}")
            w(f"| `{c}::{n}` | {t or 'MISSING'} |")
        w()
        w("## New public functions")
        w()
        for k in fresh:
            w(f"- `{k[0]}::{k[1]}` ({fn[k][0]})")
        w()
        w("## Public functions whose signature or clauses changed")
        for (c, n), a, b in rows:
            w()
            w(f"### {c}::{n}")
            w()
            w("```")
            for p in a[1]:
                w("old  " + p)
            for p in b[1]:
                w("new  " + p)
            w("```")
        w()
        w("## Definitions and theorems of specs/ that changed in the names of types alone")
        w()
        w("`Found` is `Option ℕ`, `At` `Some`, `Nothing` `None`, and the context `Option Context`.")
        w()
        for p in sorted(types):
            w(f"- {p}: " + ", ".join(f"`{n}`" for n in types[p]))
        w()
        w("## Definitions and theorems of specs/ that changed otherwise, went or came")
        for p, n in changed:
            w()
            w(f"### {p}, {n}")
            w()
            w("```")
            w("old  " + so[(p, n)])
            w("new  " + sn[(p, n)])
            w("```")
        w()
        w("## Theorems under parameters, and those of proofs/ that a page names, whose statement changed otherwise")
        for p, n in told:
            w()
            w(f"### {p}, {n}")
            w()
            w("```")
            w("old  " + to[(p, n)])
            w("new  " + tn[(p, n)])
            w("```")
        for p, n in lost:
            text = GONE.get(f"{p} {n}")
            if text is None:
                missing.append(f"{p} {n}")
            w()
            w(f"`{n}` ({p}) is gone: {text or 'MISSING'}")
        w()
        w("Gone:")
        w()
        for p, n in away:
            t = GONE.get(f"{p} {n}")
            if t is None:
                missing.append(f"{p} {n}")
            w(f"- `{n}` ({p}): {t or 'MISSING'}")
        w()
        w("New:")
        w()
        for p, n in came:
            w(f"- `{n}` ({p})")
    for m in missing:
        print("no word on where its promise stands:", m)
    return 1 if missing else 0


if __name__ == "__main__":
    sys.exit(main())
