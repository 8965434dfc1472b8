#!/usr/bin/env python3
"""Brings the repository's own definitions and lemmas to today's spelling, once, over the whole repository.

usage: spelling.py [--dry] [--dashes names|all|keep] [--types] [REPO]

Words in snake_case (`numberIf` -> `number_if`), types in CamelCase (--types: also a lower-case definition into `Type 0`), a prime is `'`.
A dash in a lemma's name becomes `_` (--dashes all, the default); with --dashes names it stays where each part is itself a name
of this repository or a word of std, as in `length-pushed` (std's own style); with --dashes keep every dash stays.
Where a lemma and a definition fall together, the lemma gets `_lem` (std's rule), as `first_lost` and `first_lost_lem`.
Then each clause that port.py left with a λ, as `ensures { λ r. ⌜ P ⌝ }`, is written `ensures { P }` with `result` for r, and the
clauses that CLAUSES lists get names that say what they hold.
Names defined in specs/ and proofs/ change; functions, consts, types and fields of src/, strings, inputs and outputs keep theirs.
It rewrites specs/, proofs/, the contracts and comments of src/, must-fail edits, and backticked words of docs/ and README.
What would fall together with another name, a word of the Prelude that a file of the repository imports, or a keyword keeps its name and is listed,
unless OVERRIDES names another. Commit first. A second run changes nothing.
"""
import glob
import os
import re
import sys

OVERRIDES = {
    # a definition named as a word of clauses
    "result": "result_of",
    # port.py has turned the lemma to what is the definition's spelling
    "leftBoth": "left_both",
    "left_both": "left_both_lem",
}
# Clauses whose names port.py made from the order or the first sign of what they say: by crate and function, the old name and the new.
CLAUSES = {
    "adopted": {
        "finish": {"depth_le_depth": "counts", "by_index": "outcome"},
        "adopt": {"depth_le_depth": "counts", "by_index": "outcome"},
        "renew_at": {"depth_value": "counts", "by_index": "outcome"},
        "leave_both": {"depth_value": "counts", "q_after": "outcome"},
        "turn": {"depth_le_depth": "counts", "by_index": "outcome"},
        "walk_up": {"ensures depth_nonzero": "ensures counts", "by_index": "outcome"},
    },
    "calls": {"call": {"fact": "outcome", "taken_value": "taken"}},
    "ends": {"assign": {"x_value": "depth_of_x"}},
    "formatting": {"enlist": {"list_in_bounds_2": "room_in_list"}},
    "insertion": {"element_in": {"nodes_bound": "counts_in_bounds"}},
    "lent": {"put_link": {"fact_1": "f_bound", "fact_2": "g_bound"}},
    "order": {"ordered": {"by_index": "entries_in_range"}},
    "reconstruct": {"make_anew": {"fact": "counts", "fact_2": "outcome"}},
    "texts": {"every": {"by_index": "unseen"}},
}
KEYWORDS = set(
    """record ruleset data open result module use pub abbrev unfoldable unfolding unfold where let in elim with rw simp cc omega search grind subst of do if then else
    ghost requires ensures invariant law self syntax infixl infixr infix as at by private mutual postulate import forall ground assumption absurd Type level
    fn struct enum impl trait match loop while for return mod const static mut ref move dyn crate super type true false""".split()
)
STD = "/opt/rattle/rattle"
ID = r"[^\s(){}.;,@\"«»\[\]\\`]+"
DEF = re.compile(r"^(\s*)((?:pub |abbrev |unfoldable |private )*)(record |data )?(%s)((?: \{[^}]*\}| \([^)]*\))*)\s+:(?:\s|$)" % ID)
STRING = re.compile(r"b?\"(?:[^\"\\]|\\.)*\"|b?'(?:[^'\\\n]|\\.)'", re.S)


def read(p):
    with open(p, encoding="utf-8") as f:
        return f.read()


def write(p, t):
    with open(p, "w", encoding="utf-8") as f:
        f.write(t)


def files(root, *ends):
    out = []
    for d, ds, fs in os.walk(os.path.join(root, "crates")):
        ds[:] = sorted(x for x in ds if x not in ("out", ".git"))
        out += [os.path.join(d, f) for f in sorted(fs) if f.endswith(ends)]
    return out


def snake(name):
    # an index or a prime at the end stays; CAPITALS stay
    if re.fullmatch(r"[A-Z0-9_]+", name):
        return name
    out = re.sub(r"(?<=[A-Z])([A-Z])(?=[a-z])", lambda m: "_" + m[1].lower(), name)
    return re.sub(r"(?<=[a-z0-9])([A-Z])", lambda m: "_" + m[1].lower(), out)


def camel(name):
    return "".join(p[:1].upper() + p[1:] for p in re.split(r"[-_]", name) if p)


def definitions(root):
    """name -> set of (kind, file): kind is 'type', 'field' or 'word'."""
    found = {}
    for p in files(root, ".antt"):
        lines = read(p).split("\n")
        old_walk = p.endswith("/Proof.antt")
        in_record = False
        for i, l in enumerate(lines):
            if re.match(r"\S", l):
                in_record = False
            if re.match(r"\s*(pub )?record ", l):
                in_record = True
            if l.lstrip().startswith("--") or l.startswith("use ") or l.startswith("pub use "):
                continue
            m = DEF.match(l)
            if not m or "→" in m[4] or "≡" in m[4] or m[4] in ("_", "let", "λ", "(", "module", "in") or l.strip().startswith("let "):
                continue
            indent, marks, kind, name = m[1], m[2], m[3], m[4]
            rest = l[m.end() :]
            k = i + 1
            while k < len(lines) and re.match(r"\s+(→|×)", lines[k]):
                rest += " " + lines[k].strip()
                k += 1
            if re.search(r"/proofs/.*/(Answers|Invariants)\.antt$", p) and re.match(r"\s*goal\.", rest):
                continue
            if old_walk and re.search(r"\btie\.|\bstatement\b", rest + (lines[i + 1] if i + 1 < len(lines) else "")):
                continue
            if old_walk and name.endswith("-spec"):
                continue
            is_type = bool(kind) or bool(re.search(r"(^|→ )Type \S+( where)?\s*$", rest))
            found.setdefault(name, set()).add(("type" if is_type else "field" if in_record and indent and not kind else "word", os.path.relpath(p, root)))
    return found


def std_words():
    """Words of std's libraries by the module that exports them, as far as `use` lines of the repository name them."""
    out = set()
    for p in glob.glob(STD + "/*/specs/Prelude.antt"):
        for group in re.findall(r"\{([^}]*)\}", read(p)):
            out |= {w.split(" as ")[-1].strip() for w in group.split(",")}
    return out


def imported(root):
    """Words that the repository's files import from outside it, each with the files."""
    own = {os.path.basename(os.path.dirname(p)) for p in glob.glob(root + "/crates/*/src")}
    out = {}
    for p in files(root, ".antt", ".rt"):
        for path, group in re.findall(r"(?m)^\s*(?:pub )?(?:ghost )?use ([^\s{]+)\.\{([^}]*)\}", read(p)):
            parts = path.split(".")
            if parts[0] == "Rattle" and len(parts) > 1 and parts[1] in own:
                continue
            for w in group.split(","):
                out.setdefault(w.split(" as ")[-1].strip(), set()).add(os.path.relpath(p, root))
    return out


def source_names(root):
    out = set()
    for p in files(root, ".rt"):
        text = STRING.sub('""', re.sub(r"//.*", "", read(p)))
        out |= set(re.findall(r"\b(?:fn|struct|enum|const|static|mod|trait|type)\s+(\w+)", text))
        out |= set(re.findall(r"(?m)^\s*(?:pub )?(\w+): [^{]", text))
        out |= set(re.findall(r"(?m)^\s*([A-Z]\w*)(?:\(|,| \{)", text))
    return out


def is_lemma(root, path, name):
    """Whether what the file declares by that name is proved, and not defined: its type ends in an equation, an order or a fact."""
    m = re.search(r"(?m)^\s*(?:pub |abbrev |unfoldable )*%s(?: \{[^}]*\})? :(.*(?:\n\s+(?:→|×).*)*)" % re.escape(name), read(os.path.join(root, path)))
    last = m[1].split("→")[-1] if m else ""
    return bool(re.search(r"≡|≤|<|⊥|×|¬", last))


def plan(root, dashes, types):
    defs, src, std, brought = definitions(root), source_names(root), std_words(), imported(root)
    known = {n for n in defs} | std | set(brought) | src
    flat = {re.sub(r"[-_]", "", n).lower() for n in ()}
    turn, kept = {}, []

    def part_is_name(p):
        return p in known and len(p) > 1

    for name in sorted(defs):
        kinds = {k for k, _ in defs[name]}
        if name in OVERRIDES:
            # a name that an override has taken is not turned again
            if name not in OVERRIDES.values() or any(OVERRIDES[a] == name for a in defs if a in OVERRIDES):
                turn[name] = OVERRIDES[name]
            continue
        if name in src or "◌" in name or not re.search(r"[A-Za-z]", name):
            continue
        new = name.replace("′", "'")
        if kinds == {"type"}:
            if re.search(r"[-_]", new):
                new = camel(new)
            elif types and new[:1].islower():
                new = camel(new)
        elif "type" not in kinds:  # a word or a field
            if "-" in new:
                pieces = new.split("-")
                out = snake(pieces[0])
                for a, b in zip(pieces, pieces[1:]):
                    keep = dashes == "keep" or (dashes == "names" and part_is_name(a) and part_is_name(b))
                    out += ("-" if keep else "_") + snake(b)
                new = out
            elif not new[:1].isupper():
                new = snake(new)
        if new != name:
            turn[name] = new
    # a lemma that falls together with a definition gets _lem
    dashed = lambda n: "-" in n
    for name, new in sorted(turn.items()):
        if dashed(name) or name in OVERRIDES:
            continue
        for other in [o for o, n in turn.items() if n == new and o != name and dashed(o)]:
            turn[other] = new + "_lem"
        if new in defs and new not in turn and not any("/src" in f for _, f in defs[new]) and new not in src and all("/proofs/" in f or is_lemma(root, f, new) for _, f in defs[new]):
            turn[new] = new + "_lem"
    for name, new in list(turn.items()):
        if dashed(name) and new in defs and new not in turn and new + "_lem" not in defs:
            turn[name] = new + "_lem"
    # names that fall together
    texts = [set(re.findall(ID, read(p))) for p in files(root, ".antt", ".rt")]
    apart = lambda a, b: not any(a in t and b in t for t in texts)
    by_new = {}
    for a, b in turn.items():
        by_new.setdefault(b, []).append(a)
    for a, b in sorted(turn.items()):
        why = None
        if a in OVERRIDES:
            if b in defs and b not in OVERRIDES:
                why = f"is a definition of {sorted(f for _, f in defs[b])[0]}"
        elif len(by_new[b]) > 1:
            why = "also " + ", ".join(x for x in by_new[b] if x != a)
        elif b in defs and b not in turn and apart(a, b):
            pass
        elif b in defs and b not in turn:
            why = f"is a definition of {sorted(f for _, f in defs[b])[0]}"
        elif b in KEYWORDS:
            why = "is a keyword"
        elif b in brought:
            why = f"is imported from std in {sorted(brought[b])[0]}"
        elif b in std:
            why = "is a word of the Prelude"
        if why:
            kept.append((a, b, why))
    for a, _, _ in kept:
        turn.pop(a)
    # a variable with the new name, in a file that cites the old one
    risks = []
    for p in files(root, ".antt", ".rt"):
        text = read(p)
        words = set(re.findall(ID, text))
        for a in words & set(turn):
            if turn[a] in words and turn[a] not in defs:
                risks.append((a, turn[a], os.path.relpath(p, root)))
    # words already there that are keywords now
    clash = sorted(n for n in defs if n in KEYWORDS and n not in OVERRIDES)
    return defs, turn, kept, risks, clash


def respell(text, turn, steps, code, fields=()):
    """Each word of the text that is in the map, outside strings. In comments of code only words with a capital or a dash inside backticks."""
    brings = re.search(r"(?m)^ghost use [^\n]*[{ ]result[,}]", text)
    modules = {a for m, a in re.findall(r"(?m)^(?:pub )?(?:ghost )?use (\S+) as ([^\s;]+)", text) if not re.search(r"\.(Tie|Goals|Given|Statement)$", m)}
    word = re.compile(r"(b?\"(?:[^\"\\]|\\.)*\")|(%s)" % ID, re.S)

    def one(m):
        if m[1] is not None:
            return m[0]
        w = m[2]
        new = turn.get(w)
        if new is None:
            return w
        before = text[max(0, m.start() - 200) : m.start()]
        if before.endswith("."):
            path = re.search(r"((?:%s\.)+)$" % ID, before)
            head = path[1].split(".")[0] if path else ""
            # a step or a goal of Rattle's, not a name of ours
            walked = head == "c" or ".before." in before or before.endswith((".args.", ".fn.", ".now.", ".result."))
            at_once = re.search(r"(?:^|[^\w.'])c\.$|\.before\.$", before)
            if w.replace("_", "-") in steps and head not in modules and (at_once or walked and w not in fields):
                return w
            if "-" in w and head not in modules and (head in ("tie", "goal") or w in steps or (w not in fields and (head == "c" or ".before." in before[-40:]))):
                return w
            if w == "result":
                return w
        elif w == "result" and code:
            # `result` in a clause is the returned value; as a definition it is applied to arguments
            after = text[m.end() : m.end() + 2]
            in_use = re.search(r"ghost use [^\n]*$", before)
            applied = re.match(r" [\w(]", after) and re.search(r"(^|[({→≡×,∷∙=⌜]) ?$", before)
            if not in_use and not (applied and brings):
                return w
        elif w == "result" and re.match(r" =[^=]", text[m.end() : m.end() + 3]) and not re.search(r"\n\s*$", before):
            return w
        return new

    return word.sub(one, text)


LEFT = re.compile(r"((?:requires|ensures)\*?(?: \w+)? \{ )λ (%s)\. ⌜ (.*?) ⌝ \}" % ID, re.S)


def finish_clauses(text):
    def one(m):
        head, var, body = m[1], m[2], m[3]
        if re.search(r"(?<![^\s(){};,\[\]])result(?=[\s(){}.;,\[\]]|$)", body):
            return m[0]
        body = re.sub(r"(?<![^\s(){};,\[\]])%s(?=[\s(){}.;,\[\]]|$)" % re.escape(var), "result", body)
        if body.startswith("(") and body.endswith(")") and "×" not in body:
            depth, whole = 0, True
            for k, ch in enumerate(body):
                depth += ch == "("
                depth -= ch == ")"
                if depth == 0 and k < len(body) - 1:
                    whole = False
            body = body[1:-1] if whole else body
        # what a star says is of memory and loans; this is a plain fact
        return f"{head.replace('*', '', 1) if '◌∗◌' not in body and ' ∗ ' not in body else head}{body} }}"

    return LEFT.sub(one, text)


def name_clauses(text, functions):
    """The clauses of the functions that CLAUSES lists for this crate, by their new names."""
    for function, names in functions.items():
        head = re.search(r"(?m)^ *(?:pub )?fn %s\b.*?^ *\{$" % re.escape(function), text, re.S)
        if not head:
            continue
        turned = head[0]
        for old, new in names.items():
            kind = r"((?:requires|ensures)\*? )%s(?= \{)"
            if " " in old:
                turned = re.sub(r"(?m)\b%s(?= \{)" % re.escape(old), new, turned)
            else:
                turned = re.sub(kind % re.escape(old), lambda m: m[1] + new, turned)
        text = text[: head.start()] + turned + text[head.end() :]
    return text


def main():
    args = sys.argv[1:]
    dry, dashes, types, root = False, "all", False, "."
    while args:
        a = args.pop(0)
        if a == "--dry":
            dry = True
        elif a == "--dashes":
            dashes = args.pop(0)
        elif a == "--types":
            types = True
        elif a.startswith("-"):
            sys.exit(__doc__)
        else:
            root = a
    root = os.path.abspath(root)
    defs, turn, kept, risks, clash = plan(root, dashes, types)
    steps = {n.replace("_", "-") for n in source_names(root)}
    print(f"{len(defs)} names are defined in specs/ and proofs/; {len(turn)} are respelled, {len(kept)} would fall together and stay")
    for a, b in sorted(turn.items()):
        if dry:
            print(f"  {a} -> {b}    ({sorted(f for _, f in defs.get(a, [('', '?')]))[0]})")
    for a, b, why in kept:
        print(f"  stays: {a} (not {b}: {why})")
    for a, b, p in risks:
        print(f"  look: {p} has {a} -> {b} and a variable or name {b}")
    for n in clash:
        print(f"  look: {n} is a keyword and the name of a definition or field: {sorted(f for _, f in defs[n])[:3]}")
    foreign = {}
    for w, fs in imported(root).items():
        for f in fs:
            foreign.setdefault(f, set()).add(w)
    changed = 0
    fields = {n for n in defs if any(k == "field" for k, _ in defs[n])}
    targets = [(p, p.endswith(".rt")) for p in files(root, ".antt", ".rt", ".edit")]
    for p, code in targets:
        text = read(p)
        # a name that this file brings in from outside is not ours there
        theirs = foreign.get(os.path.relpath(p, root), set())
        mine = {a: b for a, b in turn.items() if a not in theirs} if theirs & set(turn) else turn
        if theirs & set(turn):
            print(f"  look: {os.path.relpath(p, root)} imports {', '.join(sorted(theirs & set(turn)))} from std: kept there")
        new = respell(text, mine, steps, code or p.endswith(".edit"), fields)
        if code:
            new = name_clauses(finish_clauses(new), CLAUSES.get(os.path.relpath(p, root).split("/")[1], {}))
        if new != text:
            changed += 1
            if not dry:
                write(p, new)
    pages = glob.glob(root + "/docs/*.md") + glob.glob(root + "/*.md")
    # port.py respelled some names in the crates and none in the pages
    now = {turn.get(n, n) for n in defs} | source_names(root)
    in_pages = dict(turn)
    for n in defs:
        for old in {n.replace("_", "-"), n.replace("'", "′"), n.replace("_", "-").replace("'", "′")}:
            if old not in now and old not in in_pages:
                in_pages[old] = turn.get(n, n)
    for p in pages:
        text = read(p)
        new = re.sub(r"`([^`\n]+)`", lambda m: "`" + respell(m[1], in_pages, set(), False) + "`", text)
        if new != text:
            changed += 1
            if not dry:
                write(p, new)
    print(f"{changed} files {'would change' if dry else 'changed'}")


if __name__ == "__main__":
    main()
