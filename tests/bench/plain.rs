// The builder in plain Rust, with the same arena, calls and refusals and without proof: what the proved run is measured against.
// It is written as one would without a prover: arrays of structs, `Result` for refusals, sets as bits by name (`names`, written by
// measure.py). Some fields are stored and not read: a dump would read them.
use crate::names::*;

pub const NODES: usize = 2048;
const PIECES: usize = 8192;
const PAIRS: usize = 4096;
const STACK: usize = 512;
const LIST: usize = 256;
const MODES: usize = 64;
const MARKER: u16 = 65535;
const ADOPTION: usize = 32;

#[derive(Clone, Copy, Default)]
#[repr(C)]
pub struct Node {
    kind: u16,
    parent: u16,
    prev: u16,
    next: u16,
    first: u16,
    last: u16,
    tie: u16,
    space: u16,
    name: u16,
    mark: u16,
    start: u16,
    count: u16,
    piece: u16,
    end: u16,
}

impl Node {
    pub fn fields(&self) -> [u16; 14] {
        [
            self.kind, self.parent, self.prev, self.next, self.first, self.last, self.tie, self.space, self.name, self.mark, self.start, self.count,
            self.piece, self.end,
        ]
    }
}

#[derive(Clone, Copy)]
enum Place {
    End(u16),
    Before(u16),
}

pub struct Builder {
    pub nodes: Box<[Node; NODES + 1]>,
    pub used: usize,
    pieces: Box<[(u16, u16); PIECES + 1]>,
    pieces_used: usize,
    pairs: Box<[(u16, u16); PAIRS]>,
    pairs_used: usize,
    stack: [u16; STACK],
    depth: usize,
    list: [u16; LIST],
    listed: usize,
    modes: [u16; MODES],
    moded: usize,
    foster: bool,
    head: bool,
}

pub type Answer = Result<(), u8>;

fn known(name: u16) -> bool {
    name != 0 && (name <= LAST || name >= 512)
}

fn check_pairs(pairs: &[(u16, u16)]) -> Answer {
    for (i, p) in pairs.iter().enumerate() {
        if !known(p.0) || pairs[..i].iter().any(|q| q.0 == p.0) {
            return Err(2);
        }
    }
    Ok(())
}

impl Builder {
    pub fn new() -> Builder {
        Builder {
            nodes: Box::new([Node::default(); NODES + 1]),
            used: 0,
            pieces: Box::new([(0, 0); PIECES + 1]),
            pieces_used: 0,
            pairs: Box::new([(0, 0); PAIRS]),
            pairs_used: 0,
            stack: [0; STACK],
            depth: 0,
            list: [0; LIST],
            listed: 0,
            modes: [0; MODES],
            moded: 0,
            foster: false,
            head: false,
        }
    }

    // What was in the memory stays there.
    pub fn begin(&mut self) {
        self.pieces_used = 0;
        self.pairs_used = 0;
        self.listed = 0;
        self.moded = 0;
        self.foster = false;
        self.head = false;
        self.used = 2;
        self.nodes[1] = Node { kind: 1, ..Node::default() };
        self.nodes[2] = Node { kind: 2, name: HTML, ..Node::default() };
        self.append(1, 2);
        self.stack = [0; STACK];
        self.stack[0] = 2;
        self.depth = 1;
    }

    // ---- the tree

    fn at(&self, n: u16) -> &Node {
        &self.nodes[n as usize]
    }

    fn is_html(&self, n: u16, name: u16) -> bool {
        let x = self.at(n);
        x.kind == 2 && x.space == 0 && x.name == name
    }

    // Of the sets that the standard has for HTML elements, and of its few for MathML and SVG.
    fn in_set(&self, n: u16, set: u16) -> bool {
        let x = self.at(n);
        if x.kind != 2 || x.name > LAST {
            return false;
        }
        SETS[x.space as usize][x.name as usize] & set != 0
    }

    fn detach(&mut self, n: u16) {
        let Node { parent, prev, next, .. } = *self.at(n);
        if parent == 0 {
            return;
        }
        if prev == 0 {
            self.nodes[parent as usize].first = next;
        } else {
            self.nodes[prev as usize].next = next;
        }
        if next == 0 {
            self.nodes[parent as usize].last = prev;
        } else {
            self.nodes[next as usize].prev = prev;
        }
        let x = &mut self.nodes[n as usize];
        (x.parent, x.prev, x.next) = (0, 0, 0);
    }

    fn append(&mut self, p: u16, n: u16) {
        let last = self.at(p).last;
        let x = &mut self.nodes[n as usize];
        (x.parent, x.prev, x.next) = (p, last, 0);
        if last == 0 {
            self.nodes[p as usize].first = n;
        } else {
            self.nodes[last as usize].next = n;
        }
        self.nodes[p as usize].last = n;
    }

    fn insert_before(&mut self, s: u16, n: u16) {
        let Node { parent, prev, .. } = *self.at(s);
        let x = &mut self.nodes[n as usize];
        (x.parent, x.prev, x.next) = (parent, prev, s);
        self.nodes[s as usize].prev = n;
        if prev == 0 {
            self.nodes[parent as usize].first = n;
        } else {
            self.nodes[prev as usize].next = n;
        }
    }

    fn move_children(&mut self, old: u16, new: u16) {
        let first = self.at(old).first;
        let mut n = first;
        while n != 0 {
            let next = self.at(n).next;
            self.append(new, n);
            n = next;
        }
        let x = &mut self.nodes[old as usize];
        (x.first, x.last) = (0, 0);
    }

    fn make(&mut self, x: Node) -> u16 {
        self.used += 1;
        self.nodes[self.used] = x;
        self.used as u16
    }

    fn copy_of(&mut self, n: u16) -> u16 {
        let Node { name, start, count, .. } = *self.at(n);
        self.make(Node { kind: 2, name, start, count, ..Node::default() })
    }

    // ---- places

    fn end_of(&self, n: u16) -> Place {
        if self.is_html(n, TEMPLATE) {
            return Place::End(self.at(n).tie);
        }
        Place::End(n)
    }

    fn foster_place(&self) -> Place {
        for k in (0..self.depth).rev() {
            let n = self.stack[k];
            if self.is_html(n, TEMPLATE) {
                return self.end_of(n);
            }
            if self.is_html(n, TABLE) {
                let parent = self.at(n).parent;
                if parent == 0 {
                    return self.end_of(self.stack[k.max(1) - 1]);
                }
                if self.is_html(parent, TEMPLATE) {
                    return self.end_of(parent);
                }
                return Place::Before(n);
            }
        }
        self.end_of(self.stack[0])
    }

    fn place_at(&self, target: u16) -> Place {
        if self.foster && self.in_set(target, FOSTERING) {
            return self.foster_place();
        }
        self.end_of(target)
    }

    fn current(&self) -> u16 {
        self.stack[self.depth - 1]
    }

    fn place(&self) -> Place {
        self.place_at(self.current())
    }

    fn attach(&mut self, p: Place, n: u16) {
        match p {
            Place::End(q) => self.append(q, n),
            Place::Before(s) => self.insert_before(s, n),
        }
    }

    // ---- insertion

    fn room(&self, nodes: usize, places: usize) -> Answer {
        if NODES - self.used < nodes {
            return Err(4);
        }
        if STACK - self.depth < places {
            return Err(5);
        }
        Ok(())
    }

    fn room_for_pairs(&self, pairs: &[(u16, u16)]) -> Answer {
        if PAIRS - self.pairs_used < pairs.len() {
            return Err(8);
        }
        Ok(())
    }

    fn push(&mut self, n: u16) {
        self.stack[self.depth] = n;
        self.depth += 1;
    }

    fn insert(&mut self, space: u16, name: u16, mark: u16, pairs: &[(u16, u16)]) -> u16 {
        let p = self.place();
        let start = self.pairs_used as u16;
        let n = self.make(Node { kind: 2, space, name, mark, start, count: pairs.len() as u16, ..Node::default() });
        if space == 0 && name == TEMPLATE {
            let c = self.make(Node { kind: 5, tie: n, ..Node::default() });
            self.nodes[n as usize].tie = c;
        }
        self.attach(p, n);
        for q in pairs {
            self.pairs[self.pairs_used] = *q;
            self.pairs_used += 1;
        }
        n
    }

    fn element(&mut self, space: u16, name: u16, flags: u16, pairs: &[(u16, u16)]) -> Answer {
        let mark = flags / 2;
        if space > 2 || !known(name) || flags > 3 {
            return Err(2);
        }
        if mark == 1 && !(space == 1 && name == ANNOTATION_XML) || space == 0 && name == HTML {
            return Err(2);
        }
        check_pairs(pairs)?;
        let template = space == 0 && name == TEMPLATE;
        self.room(1 + template as usize, flags as usize % 2)?;
        self.room_for_pairs(pairs)?;
        let n = self.insert(space, name, mark, pairs);
        if flags % 2 == 1 {
            self.push(n);
        }
        Ok(())
    }

    fn text(&mut self, number: u16) -> Answer {
        let p = self.place();
        let before = match p {
            Place::End(q) => self.at(q).last,
            Place::Before(s) => self.at(s).prev,
        };
        let joins = before != 0 && self.at(before).kind == 3;
        if !joins {
            self.room(1, 0)?;
        }
        if self.pieces_used == PIECES {
            return Err(7);
        }
        self.pieces_used += 1;
        let i = self.pieces_used as u16;
        self.pieces[i as usize] = (number, 0);
        if joins {
            let end = self.at(before).end;
            self.pieces[end as usize].1 = i;
            self.nodes[before as usize].end = i;
        } else {
            let n = self.make(Node { kind: 3, piece: i, end: i, ..Node::default() });
            self.attach(p, n);
        }
        Ok(())
    }

    fn comment(&mut self, at: u16, number: u16) -> Answer {
        let p = match at {
            0 => self.place(),
            1 => Place::End(2),
            2 => Place::End(1),
            _ => return Err(2),
        };
        self.room(1, 0)?;
        let n = self.make(Node { kind: 4, name: number, ..Node::default() });
        self.attach(p, n);
        Ok(())
    }

    // ---- the stack

    fn pop(&mut self) -> u16 {
        self.depth -= 1;
        let n = self.stack[self.depth];
        self.stack[self.depth] = 0;
        n
    }

    fn pop_one(&mut self) -> Answer {
        if self.depth < 2 {
            return Err(3);
        }
        self.pop();
        Ok(())
    }

    fn open_at(&self, n: u16) -> Option<usize> {
        self.stack[..self.depth].iter().rposition(|x| *x == n)
    }

    fn remove_open(&mut self, k: usize) {
        self.stack.copy_within(k + 1..self.depth, k);
        self.depth -= 1;
        self.stack[self.depth] = 0;
    }

    fn implied(&mut self, set: u16, except: u16) {
        while self.in_set(self.current(), set) && self.at(self.current()).name != except {
            self.pop();
        }
    }

    fn scoped(&self, scope: u16, wanted: impl Fn(u16) -> bool) -> Option<usize> {
        for k in (0..self.depth).rev() {
            if wanted(self.stack[k]) {
                return Some(k);
            }
            if self.in_set(self.stack[k], scope) {
                return None;
            }
        }
        None
    }

    fn cut_to(&mut self, k: usize) {
        while self.depth > k {
            self.pop();
        }
    }

    fn end_tag(&mut self, name: u16) {
        for k in (0..self.depth).rev() {
            let n = self.stack[k];
            if self.is_html(n, name) {
                self.cut_to(k);
                return;
            }
            if self.in_set(n, SPECIAL) {
                return;
            }
        }
    }

    fn close_p(&mut self) -> Answer {
        let k = self.scoped(BUTTON, |n| self.is_html(n, P)).ok_or(3)?;
        self.cut_to(k);
        Ok(())
    }

    fn close_cell(&mut self) -> Answer {
        let is_cell = |n| self.is_html(n, TD) || self.is_html(n, TH);
        self.scoped(TABLE_SCOPE, is_cell).ok_or(3)?;
        self.implied(CURSORY, 0);
        loop {
            let n = self.pop();
            if self.is_html(n, TD) || self.is_html(n, TH) {
                break;
            }
        }
        self.clear();
        Ok(())
    }

    // ---- the list

    fn clear(&mut self) {
        while self.listed > 0 {
            self.listed -= 1;
            let e = self.list[self.listed];
            self.list[self.listed] = 0;
            if e == MARKER {
                return;
            }
        }
    }

    fn marker(&mut self) -> Answer {
        if self.listed == LIST {
            return Err(6);
        }
        self.list[self.listed] = MARKER;
        self.listed += 1;
        Ok(())
    }

    fn after_marker(&self) -> usize {
        self.list[..self.listed].iter().rposition(|e| *e == MARKER).map_or(0, |k| k + 1)
    }

    fn remove_listed(&mut self, k: usize) {
        self.list.copy_within(k + 1..self.listed, k);
        self.listed -= 1;
        self.list[self.listed] = 0;
    }

    fn listed_at(&self, n: u16) -> Option<usize> {
        self.list[..self.listed].iter().rposition(|x| *x == n)
    }

    fn equals(&self, e: u16, name: u16, pairs: &[(u16, u16)]) -> bool {
        let x = self.at(e);
        x.name == name && self.pairs[x.start as usize..][..x.count as usize] == *pairs
    }

    fn create(&mut self, name: u16, pairs: &[(u16, u16)]) -> Answer {
        if name > LAST || SETS[0][name as usize] & FORMATTING == 0 {
            return Err(2);
        }
        check_pairs(pairs)?;
        let (mut same, mut first) = (0, 0);
        for k in (self.after_marker()..self.listed).rev() {
            if self.equals(self.list[k], name, pairs) {
                (same, first) = (same + 1, k);
            }
        }
        self.room(1, 1)?;
        if self.listed - (same >= 3) as usize == LIST {
            return Err(6);
        }
        self.room_for_pairs(pairs)?;
        if same >= 3 {
            self.remove_listed(first);
        }
        let n = self.insert(0, name, 0, pairs);
        self.push(n);
        self.list[self.listed] = n;
        self.listed += 1;
        Ok(())
    }

    fn reconstruct(&mut self) -> Answer {
        let mut at = self.listed;
        while at > 0 && self.list[at - 1] != MARKER && self.open_at(self.list[at - 1]).is_none() {
            at -= 1;
        }
        self.room(self.listed - at, self.listed - at)?;
        for k in at..self.listed {
            let p = self.place();
            let n = self.copy_of(self.list[k]);
            self.attach(p, n);
            self.push(n);
            self.list[k] = n;
        }
        Ok(())
    }

    // ---- adoption

    fn named_after_marker(&self, name: u16) -> Option<u16> {
        let from = self.after_marker();
        self.list[from..self.listed].iter().rev().copied().find(|e| self.at(*e).name == name)
    }

    fn adoption(&mut self, name: u16) -> Answer {
        if name > LAST || SETS[0][name as usize] & FORMATTING == 0 {
            return Err(2);
        }
        self.room(ADOPTION, 0)?;
        let current = self.current();
        if self.is_html(current, name) && self.listed_at(current).is_none() {
            self.pop();
            return Ok(());
        }
        for _ in 0..8 {
            if !self.round(name) {
                break;
            }
        }
        Ok(())
    }

    fn round(&mut self, name: u16) -> bool {
        let Some(formatting) = self.named_after_marker(name) else {
            self.end_tag(name);
            return false;
        };
        let entry = self.listed_at(formatting).unwrap();
        let Some(at) = self.open_at(formatting) else {
            self.remove_listed(entry);
            return false;
        };
        if self.scoped(DEFAULT, |n| n == formatting).is_none() {
            return false;
        }
        let Some(block) = (at + 1..self.depth).find(|k| self.in_set(self.stack[*k], SPECIAL)) else {
            self.cut_to(at);
            self.remove_listed(entry);
            return false;
        };
        let furthest = self.stack[block];
        let ancestor = self.stack[at - 1];
        let (last, bookmark) = self.inner(formatting, block, entry + 1);
        self.detach(last);
        self.attach(self.place_at(ancestor), last);
        let copy = self.copy_of(formatting);
        self.move_children(furthest, copy);
        self.append(furthest, copy);
        self.settle(formatting, furthest, copy, bookmark);
        true
    }

    // The inner loop: the node that hangs last, and the place in the list before which the new entry goes.
    fn inner(&mut self, formatting: u16, block: usize, from: usize) -> (u16, usize) {
        let furthest = self.stack[block];
        let (mut last, mut bookmark, mut k, mut counter) = (furthest, from, block, 0);
        loop {
            counter += 1;
            k -= 1;
            let node = self.stack[k];
            if node == formatting {
                return (last, bookmark);
            }
            let mut entry = self.listed_at(node);
            if let (true, Some(e)) = (counter > 3, entry) {
                self.remove_listed(e);
                bookmark -= (e < bookmark) as usize;
                entry = None;
            }
            let Some(e) = entry else {
                self.remove_open(k);
                continue;
            };
            let copy = self.copy_of(node);
            self.list[e] = copy;
            self.stack[k] = copy;
            if last == furthest {
                bookmark = e + 1;
            }
            self.detach(last);
            self.append(copy, last);
            last = copy;
        }
    }

    // The copy takes the formatting element's part in the list, at the bookmark, and in the stack, above the furthest block.
    fn settle(&mut self, formatting: u16, furthest: u16, copy: u16, bookmark: usize) {
        let old = self.listed_at(formatting).unwrap();
        if old < bookmark {
            self.list.copy_within(old + 1..bookmark, old);
            self.list[bookmark - 1] = copy;
        } else {
            self.list.copy_within(bookmark..old, bookmark + 1);
            self.list[bookmark] = copy;
        }
        let at = self.open_at(formatting).unwrap();
        let to = self.open_at(furthest).unwrap();
        self.stack.copy_within(at + 1..to + 1, at);
        self.stack[to] = copy;
    }

    fn misnested_a(&mut self) -> Answer {
        let Some(found) = self.named_after_marker(A) else {
            return Ok(());
        };
        self.adoption(A)?;
        if let Some(k) = self.listed_at(found) {
            self.remove_listed(k);
        }
        if let Some(k) = self.open_at(found) {
            self.remove_open(k);
        }
        Ok(())
    }

    // ---- small ones

    fn push_mode(&mut self, mode: u16) -> Answer {
        if mode == 0 || mode > 21 {
            return Err(2);
        }
        if self.moded == MODES {
            return Err(6);
        }
        self.modes[self.moded] = mode;
        self.moded += 1;
        Ok(())
    }

    fn pop_mode(&mut self) -> Answer {
        if self.moded == 0 {
            return Err(3);
        }
        self.moded -= 1;
        self.modes[self.moded] = 0;
        Ok(())
    }

    fn end(&mut self, name: u16) -> Answer {
        if !known(name) || name == HTML {
            return Err(2);
        }
        self.end_tag(name);
        Ok(())
    }

    fn implied_call(&mut self, kind: u16, except: u16) -> Answer {
        if kind > 1 || except != 0 && !known(except) {
            return Err(2);
        }
        self.implied(if kind == 0 { CURSORY } else { THOROUGH }, except);
        Ok(())
    }
}

fn flag(on: u16) -> Result<bool, u8> {
    if on > 1 {
        return Err(2);
    }
    Ok(on == 1)
}

struct Reader<'a> {
    data: &'a [u8],
    at: usize,
}

impl Reader<'_> {
    #[inline]
    fn number(&mut self) -> Result<u16, u8> {
        let mut v: u32 = 0;
        for k in 0..3 {
            let b = *self.data.get(self.at).ok_or(9)?;
            self.at += 1;
            v |= ((b & 127) as u32) << (7 * k);
            if b < 128 {
                if k > 0 && b == 0 || v > 65535 {
                    return Err(9);
                }
                return Ok(v as u16);
            }
        }
        Err(9)
    }

    fn pairs<'b>(&mut self, pairs: &'b mut [(u16, u16); 16]) -> Result<&'b [(u16, u16)], u8> {
        let count = self.number()? as usize;
        for k in 0..count {
            let p = (self.number()?, self.number()?);
            if k < 16 {
                pairs[k] = p;
            }
        }
        pairs.get(..count).ok_or(2)
    }

    #[inline(always)]
    fn call(&mut self, b: &mut Builder) -> Answer {
        match self.number()? {
            1 => {
                let mut room = [(0, 0); 16];
                let (space, name, flags) = (self.number()?, self.number()?, self.number()?);
                let pairs = self.pairs(&mut room)?;
                b.element(space, name, flags, pairs)
            }
            2 => {
                let v = self.number()?;
                b.text(v)
            }
            3 => {
                let (at, v) = (self.number()?, self.number()?);
                b.comment(at, v)
            }
            4 => {
                let mut room = [(0, 0); 16];
                let name = self.number()?;
                let pairs = self.pairs(&mut room)?;
                b.create(name, pairs)
            }
            5 => b.marker(),
            6 => Ok(b.clear()),
            7 => b.reconstruct(),
            8 => {
                let name = self.number()?;
                b.adoption(name)
            }
            9 => b.misnested_a(),
            10 => {
                let name = self.number()?;
                b.end(name)
            }
            11 => b.close_p(),
            12 => b.close_cell(),
            13 => {
                let (kind, except) = (self.number()?, self.number()?);
                b.implied_call(kind, except)
            }
            14 => b.pop_one(),
            15 => {
                b.foster = flag(self.number()?)?;
                Ok(())
            }
            16 => {
                let mode = self.number()?;
                b.push_mode(mode)
            }
            17 => b.pop_mode(),
            18 => {
                b.head = flag(self.number()?)?;
                Ok(())
            }
            _ => Err(2),
        }
    }
}

// One record; a refused one changes nothing.
pub fn step(b: &mut Builder, data: &[u8]) -> Answer {
    Reader { data, at: 0 }.call(b)
}

// A begin and a run: how many records were done.
#[inline(never)]
pub fn run(b: &mut Builder, data: &[u8]) -> usize {
    b.begin();
    let mut r = Reader { data, at: 0 };
    let mut done = 0;
    while r.at < data.len() {
        if r.call(b).is_err() {
            break;
        }
        done += 1;
    }
    done
}
