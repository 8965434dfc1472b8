"""Module 9: is a saved state sound? One function a sentence of document 01's paragraph."""
from .names import ANNOTATION, FORMATTING_NAMES, HTML, ROOT, TEMPLATE, known
from .saved import (COMMENT, CONTENTS, COUNT, DOCUMENT, ELEMENT, END, FIRST, KIND, LAST, MARK, MARKER, NAME, NEXT, PARENT, PIECE,
                    PREV, SPACE, STACK, START, TEXT, TIE)


def sound(s):
    if not counts_fit(s):
        return False
    nodes = [None] + s.nodes
    return (links_are_used(nodes) and one_document(nodes) and unused_fields_are_zero(nodes) and children_agree(nodes)
            and going_up_ends(nodes) and templates_have_contents(nodes) and root_is_the_document_element(nodes)
            and stack_is_in_order(s, nodes) and list_is_formatting(s, nodes) and pieces_lie_in_texts(s, nodes)
            and tags_are_allowed(nodes) and spans_are_good(s, nodes) and settings_are_allowed(s))


def counts_fit(s):
    """Counts are within capacity; the document and the root are there, and the root is open."""
    return all(u <= r for u, r in zip(s.used, s.room)) and 1 <= s.depth <= STACK and s.used[0] >= 2


def links_are_used(nodes):
    """Each link is 0 or a used node."""
    most = len(nodes) - 1
    return all(x <= most for node in nodes[1:] for x in node[PARENT:TIE + 1])


def one_document(nodes):
    """Node 1, and no other, is a document; it has no parent. Every node has a kind."""
    return (nodes[1][KIND] == DOCUMENT and nodes[1][PARENT] == 0
            and all(node[KIND] in (ELEMENT, TEXT, COMMENT, CONTENTS) for node in nodes[2:]))


USES = {
    DOCUMENT: {KIND, PREV, NEXT, FIRST, LAST},
    ELEMENT: {KIND, PARENT, PREV, NEXT, FIRST, LAST, TIE, SPACE, NAME, MARK, START, COUNT},
    TEXT: {KIND, PARENT, PREV, NEXT, PIECE, END},
    COMMENT: {KIND, PARENT, PREV, NEXT, NAME},
    CONTENTS: {KIND, PREV, NEXT, FIRST, LAST, TIE},
}
CLEAR = {kind: [f for f in range(14) if f not in uses] for kind, uses in USES.items()}


def unused_fields_are_zero(nodes):
    """Only document, elements and contents have children; contents are in no list of children (they have no parent)."""
    return all(not any(node[f] for f in CLEAR[node[KIND]]) for node in nodes[1:])


def children_agree(nodes):
    """Links agree both ways, siblings have the same parent, a node without a parent has no siblings, and each child is met
    once from its parent's first."""
    met = set()
    for p, parent in enumerate(nodes):
        if p == 0:
            continue
        before, c = 0, parent[FIRST]
        while c:
            if c in met or nodes[c][PARENT] != p or nodes[c][PREV] != before:
                return False
            met.add(c)
            before, c = c, nodes[c][NEXT]
        if parent[LAST] != before:
            return False
    for n, node in enumerate(nodes):
        if n and n not in met and (node[PARENT] or node[PREV] or node[NEXT]):
            return False
    return True


def up(nodes, n):
    """The parent; of contents, the template."""
    return nodes[n][TIE] if nodes[n][KIND] == CONTENTS else nodes[n][PARENT]


def going_up_ends(nodes):
    ends = {0}
    for n in range(1, len(nodes)):
        path = set()
        while n not in ends:
            if n in path:
                return False
            path.add(n)
            n = up(nodes, n)
        ends |= path
    return True


def is_template(node):
    return node[KIND] == ELEMENT and (node[SPACE], node[NAME]) == TEMPLATE


def templates_have_contents(nodes):
    """Each HTML template, and nothing else, has one contents node, its own."""
    for n, node in enumerate(nodes):
        if n == 0:
            continue
        tie = node[TIE]
        if is_template(node):
            if tie == 0 or nodes[tie][KIND] != CONTENTS or nodes[tie][TIE] != n:
                return False
        elif node[KIND] == CONTENTS:
            if tie == 0 or not is_template(nodes[tie]) or nodes[tie][TIE] != n:
                return False
        elif tie:
            return False
    return True


def root_is_the_document_element(nodes):
    """The document's one element child is the root, node 2, an HTML html."""
    children = [n for n in range(1, len(nodes)) if nodes[n][PARENT] == 1 and nodes[n][KIND] == ELEMENT]
    return children == [2] and (nodes[2][SPACE], nodes[2][NAME]) == ROOT


def stack_is_in_order(s, nodes):
    """Entries are distinct elements, entry 0 the root; none is an ancestor of an earlier one, contents counted through the
    template."""
    if s.stack[0] != 2:
        return False
    passed = set()              # the entries so far and their ancestors
    for n in s.stack:
        if not 1 <= n < len(nodes) or nodes[n][KIND] != ELEMENT or n in passed:
            return False
        while n and n not in passed:
            passed.add(n)
            n = up(nodes, n)
    return True


def list_is_formatting(s, nodes):
    """List elements are distinct HTML elements with formatting names."""
    entries = [e for e in s.list if e != MARKER]
    return len(set(entries)) == len(entries) and all(
        1 <= e < len(nodes) and nodes[e][KIND] == ELEMENT and nodes[e][SPACE] == HTML and nodes[e][NAME] in FORMATTING_NAMES
        for e in entries)


def pieces_lie_in_texts(s, nodes):
    """Each used piece lies in exactly one text node, once, and each text node has one at least and only used ones."""
    met = set()
    for node in nodes[1:]:
        if node[KIND] != TEXT:
            continue
        i, last = node[PIECE], 0
        while i:
            if i > len(s.pieces) or i in met:
                return False
            met.add(i)
            i, last = s.pieces[i - 1][1], i
        if last == 0 or node[END] != last:
            return False
    return len(met) == len(s.pieces)


def tag_is_allowed(space, name, mark):
    return space <= 2 and known(name) and (mark == 0 or mark == 1 and (space, name) == ANNOTATION)


def tags_are_allowed(nodes):
    return all(tag_is_allowed(*node[SPACE:MARK + 1]) for node in nodes[1:] if node[KIND] == ELEMENT)


def spans_are_good(s, nodes):
    """A span is at most 16 used pairs, no name twice; every used pair has a name."""
    if not all(known(pair[0]) for pair in s.pairs):
        return False
    for node in nodes[1:]:
        if node[KIND] == ELEMENT:
            start, count = node[START], node[COUNT]
            if count > 16 or start + count > len(s.pairs):
                return False
            if len({pair[0] for pair in s.pairs[start:start + count]}) != count:
                return False
    return True


def settings_are_allowed(s):
    return (all(1 <= m <= 21 for m in s.modes) and s.foster <= 1 and s.head <= 1
            and (s.context is None or tag_is_allowed(*s.context)))
