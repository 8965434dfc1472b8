// Document 01's paragraph Sound, slow and plain. The Rust has nothing of the kind.
use crate::names::{names, SPACES};
use crate::saved::*;
use std::collections::HashSet;

fn tag_allowed(ns: u16, name: u16, mark: u16) -> bool {
    let annotation = ns == 1 && name == names().number_of("annotation-xml");
    ns < SPACES && names().known(name) && (mark == 0 || (mark == 1 && annotation))
}

fn is_template(s: &Saved, n: u16) -> bool {
    let node = s.node(n);
    node[KIND] == ELEMENT && node[SPACE] == 0 && node[NAME] == names().number_of("template")
}

fn up(s: &Saved, n: u16) -> u16 {
    let node = s.node(n);
    if node[KIND] == CONTENTS { node[TIE] } else { node[PARENT] }
}

fn distinct<T: std::hash::Hash + Eq>(mut all: impl Iterator<Item = T>) -> bool {
    let mut met = HashSet::new();
    all.all(|x| met.insert(x))
}

pub fn sound(s: &Saved) -> bool {
    counts(s) && kinds(s) && children(s) && templates(s) && stack(s) && list(s) && texts(s) && attributes(s) && rest(s)
}

fn counts(s: &Saved) -> bool {
    (0..5).all(|i| s.used[i] <= s.room[i]) && 1 <= s.depth && s.depth as usize <= STACK && 2 <= s.used[0]
}

// Links stay within the used nodes, and each kind has only its own fields.
fn kinds(s: &Saved) -> bool {
    (1..=s.used[0]).all(|n| {
        let node = s.node(n);
        let unused: &[usize] = match node[KIND] {
            DOCUMENT => &[PARENT, TIE, SPACE, NAME, MARK, START, COUNT, PIECE, END],
            ELEMENT => &[PIECE, END],
            TEXT => &[FIRST, LAST, TIE, SPACE, NAME, MARK, START, COUNT],
            COMMENT => &[FIRST, LAST, TIE, SPACE, MARK, START, COUNT, PIECE, END],
            CONTENTS => &[PARENT, SPACE, NAME, MARK, START, COUNT, PIECE, END],
            _ => return false,
        };
        let within = [PARENT, PREV, NEXT, FIRST, LAST, TIE].iter().all(|f| node[*f] <= s.used[0]);
        within && unused.iter().all(|f| node[*f] == 0) && (node[KIND] == DOCUMENT) == (n == 1)
    })
}

// Each list of children is walked from its first; every node with a parent is met in that one's list, once.
fn children(s: &Saved) -> bool {
    let mut owner = vec![0; s.nodes.len() + 1];
    for p in 1..=s.used[0] {
        let (mut c, mut before) = (s.node(p)[FIRST], 0);
        while c != 0 {
            let node = s.node(c);
            if owner[c as usize] != 0 || node[PARENT] != p || node[PREV] != before {
                return false;
            }
            owner[c as usize] = p;
            before = c;
            c = node[NEXT];
        }
        if s.node(p)[LAST] != before {
            return false;
        }
    }
    (1..=s.used[0]).all(|n| {
        let node = s.node(n);
        owner[n as usize] == node[PARENT] && (node[PARENT] != 0 || (node[PREV] == 0 && node[NEXT] == 0))
    }) && ends(s)
}

// Going up always ends.
fn ends(s: &Saved) -> bool {
    let mut good = vec![false; s.nodes.len() + 1];
    good[0] = true;
    for n in 1..=s.used[0] {
        let (mut path, mut at) = (Vec::new(), n);
        while !good[at as usize] {
            if path.len() > s.nodes.len() {
                return false;
            }
            path.push(at);
            at = up(s, at);
        }
        for x in path {
            good[x as usize] = true;
        }
    }
    true
}

fn templates(s: &Saved) -> bool {
    (1..=s.used[0]).all(|n| {
        let tie = s.node(n)[TIE];
        let paired = |want: bool| tie != 0 && s.node(tie)[TIE] == n && want;
        if is_template(s, n) {
            tie != 0 && paired(s.node(tie)[KIND] == CONTENTS)
        } else if s.node(n)[KIND] == CONTENTS {
            tie != 0 && paired(is_template(s, tie))
        } else {
            tie == 0
        }
    })
}

fn stack(s: &Saved) -> bool {
    let element = |n: u16| 1 <= n && n <= s.used[0] && s.node(n)[KIND] == ELEMENT;
    if !s.stack.iter().all(|n| element(*n)) || !distinct(s.stack.iter()) || s.stack[0] != 2 {
        return false;
    }
    let root = s.node(2);
    let one_child = (1..=s.used[0]).filter(|n| s.node(*n)[KIND] == ELEMENT && s.node(*n)[PARENT] == 1).eq([2]);
    if root[SPACE] != 0 || root[NAME] != names().number_of("html") || !one_child {
        return false;
    }
    let mut above = HashSet::new();
    for n in &s.stack {
        if above.contains(n) {
            return false;
        }
        let mut at = *n;
        while at != 0 && above.insert(at) {
            at = up(s, at);
        }
    }
    true
}

fn list(s: &Saved) -> bool {
    let entries: Vec<u16> = s.list.iter().copied().filter(|e| *e != MARKER).collect();
    distinct(entries.iter())
        && entries.iter().all(|e| {
            1 <= *e && *e <= s.used[0] && {
                let node = s.node(*e);
                node[KIND] == ELEMENT && node[SPACE] == 0 && names().formatting(node[NAME])
            }
        })
}

fn texts(s: &Saved) -> bool {
    let mut met = vec![false; s.pieces.len() + 1];
    for n in 1..=s.used[0] {
        let node = s.node(n);
        if node[KIND] != TEXT {
            continue;
        }
        let (mut i, mut last) = (node[PIECE], 0);
        if i == 0 {
            return false;
        }
        while i != 0 {
            if i > s.used[3] || met[i as usize] {
                return false;
            }
            met[i as usize] = true;
            last = i;
            i = s.pieces[i as usize - 1][1];
        }
        if node[END] != last {
            return false;
        }
    }
    met[1..].iter().all(|m| *m)
}

fn attributes(s: &Saved) -> bool {
    s.pairs.iter().all(|p| names().known(p[0]))
        && s.nodes.iter().filter(|node| node[KIND] == ELEMENT).all(|node| {
            let (start, count) = (node[START] as usize, node[COUNT] as usize);
            count <= 16
                && start + count <= s.used[4] as usize
                && distinct(s.pairs[start..start + count].iter().map(|p| p[0]))
                && tag_allowed(node[SPACE], node[NAME], node[MARK])
        })
}

fn rest(s: &Saved) -> bool {
    s.modes.iter().all(|m| (1..=21).contains(m))
        && s.foster <= 1
        && s.head <= 1
        && s.context.is_none_or(|c| tag_allowed(c[0], c[1], c[2]))
}
