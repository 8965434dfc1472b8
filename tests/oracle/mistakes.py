"""Does the comparison notice? Each line is one deliberate mistake in a copy of the model; the comparison must then fail.

python3 mistakes.py [NUMBER ...]: a line for each mistake (or these), with what found it and after how many seconds; fails if one is not found.
python3 mistakes.py --some: every fourth, for the test command."""
import concurrent.futures
import os
import shutil
import subprocess
import sys
import tempfile
import time

HERE = os.path.dirname(os.path.abspath(__file__))
PARTS = ("model", "generate", "gen.py", "every.py", "compare.py", "shrink.py", "names.txt")

BUILDER, SOUND, RUNS, STATE, NAMES = ("model/%s.py" % n for n in ("builder", "sound", "runs", "state", "names"))

EDITS = [
    # adoption
    (BUILDER, "furthest = blocks[0]", "furthest = blocks[-1]"),
    (BUILDER, "blocks = [n for n in s.stack[at + 1:]", "blocks = [n for n in s.stack[at + 2:]"),
    (BUILDER, "s.stack.insert(s.stack.index(furthest) + 1, copy)", "s.stack.insert(at, copy)"),
    (BUILDER, "s.stack.insert(s.stack.index(furthest) + 1, copy)", "s.stack.insert(s.stack.index(furthest), copy)"),
    (BUILDER, "        if last is furthest:                                                # 4.13.7\n            s.list.remove(bookmark)\n            s.list.insert(s.list.index(node) + 1, bookmark)\n", ""),
    (BUILDER, "        if last is furthest:  ", "        if True:  "),
    (BUILDER, "s.list.insert(s.list.index(node) + 1, bookmark)", "s.list.insert(s.list.index(node), bookmark)"),
    (BUILDER, "for _ in range(8):", "for _ in range(7):"),
    (BUILDER, "for _ in range(8):", "for _ in range(9):"),
    (BUILDER, "if counter > 3 and node in s.list:", "if counter > 2 and node in s.list:"),
    (BUILDER, "if counter > 3 and node in s.list:", "if counter > 4 and node in s.list:"),
    (BUILDER, "            s.stack.remove(node)\n            continue", "            s.stack.remove(node)\n            counter -= 1\n            continue"),
    (BUILDER, "current.tag == (HTML, subject) and current not in s.list", "current.tag == (HTML, subject) and False"),
    (BUILDER, "current.tag == (HTML, subject) and current not in s.list", "current.name == subject and current not in s.list"),
    (BUILDER, "    formatting = entries[-1]", "    formatting = entries[0]"),
    (BUILDER, "    if formatting not in s.stack:\n        s.list.remove(formatting)\n        return False", "    if formatting not in s.stack:\n        return False"),
    (BUILDER, "s.rules.default_scope):\n        return False", "s.rules.table_scope):\n        return False"),
    (BUILDER, "        del s.stack[at:]\n        s.list.remove(formatting)", "        del s.stack[at:]"),
    (BUILDER, "        del s.stack[at:]\n", "        s.stack.pop()\n"),
    (BUILDER, "insert_at(appropriate_place(s, ancestor), last)", "insert_at(appropriate_place(s), last)"),
    (BUILDER, "insert_at(appropriate_place(s, ancestor), last)", "append(ancestor, last)"),
    (BUILDER, "        append(node, last)  ", "        append(node, furthest)  "),
    (BUILDER, "    move_children(furthest, copy)\n", ""),
    (BUILDER, "    if not entries:\n        any_other_end_tag(s, subject)\n", "    if not entries:\n"),
    (BUILDER, "ROOM_FOR_ADOPTION = 32", "ROOM_FOR_ADOPTION = 31"),
    (BUILDER, "ROOM_FOR_ADOPTION = 32", "ROOM_FOR_ADOPTION = 33"),
    (BUILDER, "    copy = s.new_copy(formatting)\n", "    copy = s.new_element(HTML, formatting.name, 0, s.attributes(formatting))\n"),
    (BUILDER, "    if found[-1] in s.list:\n        s.list.remove(found[-1])\n", ""),
    (BUILDER, "    if found[-1] in s.stack:\n        s.stack.remove(found[-1])\n", ""),
    (BUILDER, "    if found[-1] in s.stack:\n        s.stack.remove(found[-1])", "    if found[-1] in s.stack:\n        del s.stack[s.stack.index(found[-1]):]"),
    (BUILDER, "found[-1]", "found[0]"),
    # list
    (BUILDER, "range(markers[-1] + 1 if markers else 0, len(s.list))", "range(0 if markers else 0, len(s.list))"),
    (BUILDER, "    if len(same) >= 3:\n        del s.list[same[0]]", "    if len(same) >= 3:\n        del s.list[same[-1]]"),
    (BUILDER, "    if len(same) >= 3:\n        del s.list[same[0]]", "    if len(same) >= 2:\n        del s.list[same[0]]"),
    (BUILDER, "- (len(same) >= 3) >=", "- 0 >="),
    (BUILDER, "entry.name == name and have == pairs", "entry.name == name and len(have) == len(pairs)"),
    (BUILDER, "while at > 0 and not", "while at > 1 and not"),
    (BUILDER, "s.need(nodes=anew, places=anew)", "s.need(nodes=anew)"),
    (BUILDER, "    if not s.list or marker_or_open(s.list[-1]):", "    if not s.list:"),
    (BUILDER, "        if s.list.pop() is None:        # 1. to 4.\n            return", "        s.list.pop()"),
    # places and insertion
    (BUILDER, "templates[-1] > tables[-1]", "templates[0] > tables[-1]"),
    (BUILDER, "table = s.stack[tables[-1]]", "table = s.stack[tables[0]]"),
    (BUILDER, "parent = s.stack[tables[-1] - 1]", "parent = s.stack[0]"),
    (BUILDER, "            return s.stack[0], None\n", "            return target, None\n"),
    (BUILDER, "    if parent.tag == TEMPLATE:                                              # 3.\n        parent, before = parent.tie, None\n", ""),
    (BUILDER, "if s.foster and target.tag in FOSTERING:", "if s.foster:"),
    (BUILDER, "if s.foster and target.tag in FOSTERING:", "if target.tag in FOSTERING:"),
    (BUILDER, "last = parent.children[at - 1] if at else None", "last = parent.children[-1] if parent.children else None"),
    (BUILDER, "        s.need(pieces=1)\n        s.add_piece", "        s.need(nodes=1, pieces=1)\n        s.add_piece"),
    (BUILDER, "nodes=2 if (space, name) == TEMPLATE else 1", "nodes=1"),
    (BUILDER, "nodes=2 if (space, name) == TEMPLATE else 1", "nodes=2 if name == TEMPLATE[1] else 1"),
    (BUILDER, "(s.stack[0], None), (s.nodes[0], None))[where]", "(s.stack[0], None), (s.stack[0], None))[where]"),
    # stack
    (BUILDER, "            generate_implied_end_tags(s, CURSORY, name)\n            pop_through(s, lambda n: n is node)", "            generate_implied_end_tags(s, CURSORY, name)\n            s.stack.pop()"),
    (BUILDER, "if node.tag == (HTML, name):                    # 2.", "if node.name == name:                    # 2."),
    (BUILDER, "s.rules.button_scope", "s.rules.default_scope"),
    (BUILDER, "s.rules.table_scope", "s.rules.default_scope"),
    (BUILDER, "    call_6_clear_to_marker(s)                           # 4.\n", ""),
    (BUILDER, "THOROUGH if kind else CURSORY", "CURSORY if kind else CURSORY"),
    (BUILDER, "s.stack[-1].name != except_name", "True"),
    (BUILDER, "if len(s.stack) == 1:\n        raise Refused(3)", "if len(s.stack) == 2:\n        raise Refused(3)"),
    # dispatch
    (BUILDER, "if last and s.context is not None else", "if s.context is not None else"),
    (BUILDER, "and not last:                     # 4.", "and True:                     # 4."),
    (BUILDER, "node == tag[\"head\"] and not last", "node == tag[\"head\"]"),
    (BUILDER, "return s.modes[-1]", "return s.modes[0]"),
    (BUILDER, "if len(s.stack) == 1 and s.context is not None:", "if s.context is not None:"),
    (BUILDER, "tag == ANNOTATION and mark", "tag == ANNOTATION"),
    (BUILDER, "NUMBER[\"noscript\"] and scripting", "NUMBER[\"noscript\"]"),
    (BUILDER, "if in_template and s.room[2] < 1:", "if in_template and s.room[2] < 0:"),
    (BUILDER, "if not 1 <= mode <= 21:", "if not 1 <= mode <= 22:"),
    # order of refusals
    (BUILDER, "    s.need(nodes=1, places=1)\n    if len(s.list)", "    s.need(places=1)\n    if len(s.list)"),
    (BUILDER, "    s.need(nodes=1, places=1)\n    if len(s.list)", "    s.need(nodes=1)\n    if len(s.list)"),
    (BUILDER, "    s.need(pairs=len(pairs))\n", ""),
    (STATE, "        if places > self.free_places():\n            raise Refused(5)\n", ""),
    (STATE, "        if pieces > self.free_pieces():\n            raise Refused(7)\n", ""),
    (STATE, "node.start, node.count = entry.start, entry.count", "node.start, node.count = 0, 0"),
    # sets (each by every name)
    (NAMES, " xmp\")", "\")"),
    (NAMES, "marquee object template\")", "marquee template\")"),
    (NAMES, "TABLE_SCOPE = html(\"html table template\")", "TABLE_SCOPE = html(\"html table\")"),
    (NAMES, "rb rp rt rtc\")", "rb rp rt\")"),
    (NAMES, "tfoot th thead tr\")\n\nFOSTERING", "tfoot th thead\")\n\nFOSTERING"),
    (NAMES, "FOSTERING = html(\"table tbody", "FOSTERING = html(\"table"),
    (NAMES, "strike strong tt u\".split())", "strike strong tt u big\".replace(\"big code\", \"code\").replace(\" big\", \"\").split())"),
    # records
    (RUNS, "or byte == 0 and shift > 7", ""),
    (RUNS, "if value > 65535 or", "if"),
    (RUNS, "        done += 1\n", "        done += 1 if at else 0\n        done += 0 if done < 9 else 1\n"),
    # soundness
    (SOUND, "1 <= s.depth <= STACK", "1 <= s.depth"),
    (SOUND, "        if parent[LAST] != before:\n            return False\n", ""),
    (SOUND, " or nodes[c][PREV] != before:", ":"),
    (SOUND, "if c in met or nodes[c][PARENT] != p", "if c in met or False"),
    (SOUND, "(node[PARENT] or node[PREV] or node[NEXT])", "(node[PARENT] or node[PREV])"),
    (SOUND, "            and going_up_ends(nodes) and", "            and"),
    (SOUND, "or nodes[tie][KIND] != CONTENTS or nodes[tie][TIE] != n", "or nodes[tie][KIND] != CONTENTS"),
    (SOUND, "children == [2]", "2 in children"),
    (SOUND, "        while n and n not in passed:\n            passed.add(n)\n            n = up(nodes, n)", "        passed.add(n)"),
    (SOUND, "    return nodes[n][TIE] if nodes[n][KIND] == CONTENTS else nodes[n][PARENT]", "    return nodes[n][PARENT]"),
    (SOUND, "len(set(entries)) == len(entries) and", ""),
    (SOUND, "nodes[e][SPACE] == HTML and", ""),
    (SOUND, "        i, last = node[PIECE], 0\n        while i:\n            if i > len(s.pieces) or i in met:\n                return False\n", "        i, last, own = node[PIECE], 0, set()\n        while i:\n            if i > len(s.pieces) or i in own:\n                return False\n            own.add(i)\n"),
    (SOUND, "or node[END] != last", ""),
    (SOUND, "return len(met) == len(s.pieces)", "return True"),
    (SOUND, "if last == 0 or", "if"),
    (SOUND, "            if len({pair[0] for pair in s.pairs[start:start + count]}) != count:\n                return False\n", ""),
    (SOUND, "if count > 16 or start", "if start"),
    (SOUND, "    if not all(known(pair[0]) for pair in s.pairs):\n        return False\n", ""),
    (SOUND, "mark == 0 or mark == 1 and", "mark == 0 or"),
    (SOUND, "and s.foster <= 1 and s.head <= 1", "and s.foster <= 1"),
    (SOUND, "all(1 <= m <= 21 for m in s.modes) and", ""),
]

ARGS = ["--first", "--states", "6000", "--damaged", "12000", "--runs", "600", "--streams", "800", "--names", "--every", "4",
        "--oracle", os.path.join(HERE, "oracle", "target", "release", "oracle")]


def copied(to):
    for part in PARTS:
        source = os.path.join(HERE, part)
        if os.path.isdir(source):
            shutil.copytree(source, os.path.join(to, part), ignore=shutil.ignore_patterns("__pycache__"))
        else:
            shutil.copy(source, to)


def found(number):
    """What notices the mistake, None if nothing does; and the seconds until then."""
    path, old, new = EDITS[number]
    start = time.time()
    with tempfile.TemporaryDirectory() as folder:
        copied(folder)
        with open(os.path.join(folder, path)) as f:
            text = f.read()
        if old not in text:
            sys.exit("not there: %s: %s" % (path, old))
        with open(os.path.join(folder, path), "w") as f:
            f.write(text.replace(old, new))
        try:
            run = subprocess.run([sys.executable, "compare.py"] + ARGS, cwd=folder, stdout=subprocess.PIPE, stderr=subprocess.PIPE, timeout=600)
        except subprocess.TimeoutExpired:
            return "no end", time.time() - start
    error = run.stderr.decode().strip().split("\n")[-1]
    if run.returncode and not error.startswith("DIFFERENT"):
        error = "the model itself fails: " + error
    return error.replace("DIFFERENT: ", "") if run.returncode else None, time.time() - start


def shortened(text):
    return " ".join(text.split())[:60]


def main():
    some = sys.argv[1:] == ["--some"]
    chosen = list(range(1, len(EDITS), 4)) if some else [int(x) for x in sys.argv[1:]] or list(range(len(EDITS)))
    missed = 0
    with concurrent.futures.ThreadPoolExecutor(2) as pool:
        for number, (how, seconds) in zip(chosen, pool.map(found, chosen)):
            path, old, new = EDITS[number]
            missed += how is None
            print("%3d %4.0f s  %s: %s -> %s: %s" % (number, seconds, path, shortened(old), shortened(new) or "nothing", how or "NOT FOUND"), flush=True)
    print("%d mistakes, %d not found" % (len(chosen), missed))
    sys.exit(1 if missed else 0)


if __name__ == "__main__":
    main()
