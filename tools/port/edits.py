#!/usr/bin/env python3
"""Brings the must-fail edits over: their `old:` and `new:` texts get the spelling of the file that they edit.

usage: edits.py [--write] LANDED_FOLDER REPO [CRATE..]

For each edit of LANDED it compares the edited file there and here word by word, which gives the words that the scripts turned in that file
(λ, ⌜⌝, primes, projections, names), and applies the same to `old:` and `new:`. Pairs are applied in turn, as rt does: each old text must
stand once in what the earlier pairs made. It prints 'as it was', 'turned' or 'by hand' (with the line here that is nearest) for each edit,
and with --write writes those that are turned. It starts from LANDED's text each time, so it can be run again after a later respelling.
"""
import difflib
import glob
import os
import re
import sys

TOKEN = re.compile(r"[^\s(){}.;,\[\]\"]+|[(){}.;,\[\]\"]")


def read(p):
    with open(p, encoding="utf-8") as f:
        return f.read()


def tight(text):
    text = text.replace("′", "'")
    return re.sub(r"(?<=[\w')\]]) \.(?=[\w(])", ".", text)


def word_map(old, new):
    """Words of the old text that stand as others at the same place in the new one; each word's commonest turn."""
    a, b = TOKEN.findall(tight(old)), TOKEN.findall(new)
    counts, same = {}, {}
    # by lines first, since whole files are long
    sm = difflib.SequenceMatcher(None, a, b, autojunk=False) if len(a) * len(b) < 4e7 else None
    if sm is None:
        return {}
    for tag, i1, i2, j1, j2 in sm.get_opcodes():
        if tag == "equal":
            for w in a[i1:i2]:
                same[w] = same.get(w, 0) + 1
        elif tag == "replace" and i2 - i1 == j2 - j1:
            for x, y in zip(a[i1:i2], b[j1:j2]):
                if re.match(r"\w", x) and re.match(r"\w", y) and re.sub(r"[-_']", "", x).lower()[:3] == re.sub(r"[-_']", "", y).lower()[:3]:
                    counts.setdefault(x, {}).setdefault(y, 0)
                    counts[x][y] += 1
    out = {}
    for x, ys in counts.items():
        y = max(ys, key=ys.get)
        if ys[y] >= same.get(x, 0):
            out[x] = y
    return out


def turn(text, words):
    lead = re.match(r"\s*", text)[0]
    body = tight(text[len(lead) :])
    out, at, quoted = "", 0, False
    for m in TOKEN.finditer(body):
        out += body[at : m.start()]
        w = m[0]
        if w == '"':
            quoted = not quoted
        out += w if quoted else words.get(w, w)
        at = m.end()
    return lead + out + body[at:]


def main():
    args = sys.argv[1:]
    write = "--write" in args
    args = [a for a in args if a != "--write"]
    if len(args) < 2:
        sys.exit(__doc__)
    landed, repo, only = args[0], args[1], args[2:]
    tally = {}
    maps = {}
    for p in sorted(glob.glob(landed + "/crates/*/must-fail/*.edit")):
        rel = os.path.relpath(p, landed)
        crate = rel.split("/")[1]
        if only and crate not in only:
            continue
        lines = read(p).split("\n")
        texts, out, verdict, why = {}, [], "as it was", []
        file, old = None, None
        for l in lines:
            m = re.match(r"(file|old|new):(.*)$", l)
            if not m:
                out.append(l)
                continue
            if m[1] == "file":
                file = m[2].strip()
                here, there = os.path.join(repo, "crates", crate, file), os.path.join(landed, "crates", crate, file)
                if not os.path.exists(here):
                    verdict = "by hand"
                    why.append(f"no file {file}")
                    texts.setdefault(file, "")
                else:
                    texts.setdefault(file, read(here))
                if (crate, file) not in maps and os.path.exists(there) and os.path.exists(here):
                    maps[crate, file] = word_map(read(there), read(here))
                out.append(l)
            elif m[1] == "old":
                old = m[2][1:] if m[2].startswith(" ") else m[2]
                out.append(l)
            else:
                new = m[2][1:] if m[2].startswith(" ") else m[2]
                words = maps.get((crate, file), {})
                # the wrong text may cite a word that was turned elsewhere in the file
                as_now = turn(new, words) if file.endswith(".antt") and turn(old, words) == old else new
                if as_now != new:
                    verdict = "turned" if verdict == "as it was" else verdict
                tried = [(old, as_now), (old.strip(), as_now.strip()), (turn(old, words), turn(new, words)), (turn(old, words).strip(), turn(new, words).strip())]
                for k, (o, n) in enumerate(tried):
                    # rt takes the text as it stands, blanks at its head too
                    if o and texts[file].count(o) == 1:
                        if k >= 2 or (k == 1 and o != old):
                            verdict = "turned" if verdict == "as it was" else verdict
                        texts[file] = texts[file].replace(o, n)
                        out[-1] = "old: " + o
                        out.append("new: " + n)
                        break
                else:
                    verdict = "by hand"
                    t = turn(old, words)
                    close = difflib.get_close_matches(t.strip(), [x.strip() for x in texts[file].split("\n")], 1, 0.3)
                    why.append(f"{file}: `{t.strip()}` stands {texts[file].count(t.strip())} times; nearest: {close[0] if close else '?'}")
                    out.append(l)
        tally[verdict] = tally.get(verdict, 0) + 1
        print(f"{verdict:10} {rel}")
        for w in why:
            print("           " + w[:400])
        if write and verdict == "turned":
            with open(os.path.join(repo, rel), "w", encoding="utf-8") as f:
                f.write("\n".join(out))
    print(", ".join(f"{v} {k}" for k, v in sorted(tally.items())))


if __name__ == "__main__":
    main()
