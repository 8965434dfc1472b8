// A saved state, as ../FORMAT.md describes it.

pub const KIND: usize = 0;
pub const PARENT: usize = 1;
pub const PREV: usize = 2;
pub const NEXT: usize = 3;
pub const FIRST: usize = 4;
pub const LAST: usize = 5;
pub const TIE: usize = 6;
pub const SPACE: usize = 7;
pub const NAME: usize = 8;
pub const MARK: usize = 9;
pub const START: usize = 10;
pub const COUNT: usize = 11;
pub const PIECE: usize = 12;
pub const END: usize = 13;

pub const DOCUMENT: u16 = 1;
pub const ELEMENT: u16 = 2;
pub const TEXT: u16 = 3;
pub const COMMENT: u16 = 4;
pub const CONTENTS: u16 = 5;

pub const MARKER: u16 = 65535;
pub const STACK: usize = 512;

pub type Node = [u16; 14];

// Capacities and counts: nodes, list, modes, pieces, pairs.
#[derive(Clone, Default, PartialEq, Eq, Debug)]
pub struct Saved {
    pub room: [u16; 5],
    pub used: [u16; 5],
    pub depth: u16,
    pub foster: u16,
    pub head: u16,
    pub context: Option<[u16; 3]>,
    pub stack: Vec<u16>,
    pub nodes: Vec<Node>,
    pub list: Vec<u16>,
    pub modes: Vec<u16>,
    pub pieces: Vec<[u16; 2]>,
    pub pairs: Vec<[u16; 2]>,
}

pub struct Words<'a> {
    pub bytes: &'a [u8],
}

impl Words<'_> {
    pub fn byte(&mut self) -> Option<u8> {
        let (x, rest) = self.bytes.split_first()?;
        self.bytes = rest;
        Some(*x)
    }

    pub fn word(&mut self) -> Option<u16> {
        Some(self.byte()? as u16 + 256 * self.byte()? as u16)
    }

    pub fn many<const N: usize>(&mut self) -> Option<[u16; N]> {
        let mut all = [0; N];
        for x in all.iter_mut() {
            *x = self.word()?;
        }
        Some(all)
    }
}

impl Saved {
    fn held(&self, i: usize) -> usize {
        self.used[i].min(self.room[i]) as usize
    }

    // None where the words end too early.
    pub fn read(w: &mut Words) -> Option<Saved> {
        let mut s = Saved { room: w.many()?, used: w.many()?, depth: w.word()?, foster: w.word()?, head: w.word()?, ..Default::default() };
        let there = w.word()?;
        let context = w.many()?;
        s.context = (there != 0).then_some(context);
        s.stack = (0..(s.depth as usize).min(STACK)).map(|_| w.word()).collect::<Option<_>>()?;
        s.nodes = (0..s.held(0)).map(|_| w.many()).collect::<Option<_>>()?;
        s.list = (0..s.held(1)).map(|_| w.word()).collect::<Option<_>>()?;
        s.modes = (0..s.held(2)).map(|_| w.word()).collect::<Option<_>>()?;
        s.pieces = (0..s.held(3)).map(|_| w.many()).collect::<Option<_>>()?;
        s.pairs = (0..s.held(4)).map(|_| w.many()).collect::<Option<_>>()?;
        Some(s)
    }

    pub fn words(&self) -> Vec<u16> {
        let mut w = Vec::new();
        w.extend(self.room);
        w.extend(self.used);
        w.extend([self.depth, self.foster, self.head, self.context.is_some() as u16]);
        w.extend(self.context.unwrap_or_default());
        w.extend(&self.stack);
        w.extend(self.nodes.iter().flatten());
        w.extend(&self.list);
        w.extend(&self.modes);
        w.extend(self.pieces.iter().flatten());
        w.extend(self.pairs.iter().flatten());
        w
    }

    pub fn hex(&self) -> String {
        const DIGITS: &[u8; 16] = b"0123456789abcdef";
        let mut out = Vec::new();
        for w in self.words() {
            for b in w.to_le_bytes() {
                out.push(DIGITS[(b >> 4) as usize]);
                out.push(DIGITS[(b & 15) as usize]);
            }
        }
        String::from_utf8(out).unwrap()
    }

    pub fn node(&self, n: u16) -> &Node {
        &self.nodes[n as usize - 1]
    }
}
