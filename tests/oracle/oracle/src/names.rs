// Names: document 01's numbers and the byte strings that the Rust compares.
use crate::interface::{LocalName, Namespace};
use std::collections::HashMap;
use std::sync::OnceLock;

pub const FIRST_HOST: u16 = 512;

// The Rust's special set has `isindex`, which is no name of ours. So that this is seen, host number 699 has these bytes.
pub const ISINDEX: u16 = 699;

const FORMATTING: [&str; 14] =
    ["a", "b", "big", "code", "em", "font", "i", "nobr", "s", "small", "strike", "strong", "tt", "u"];

// One copy of a formatting name for each node number that the tag of a list entry may come from.
const COPIES: usize = 4097;

pub struct Names {
    text: Vec<&'static str>,
    number: HashMap<&'static str, u16>,
    size: u16,
    copies: HashMap<&'static str, &'static str>,
}

fn leak(s: String) -> &'static str {
    Box::leak(s.into_boxed_str())
}

pub fn names() -> &'static Names {
    static NAMES: OnceLock<Names> = OnceLock::new();
    NAMES.get_or_init(|| {
        let table: Vec<&'static str> = include_str!("../../names.txt").lines().collect();
        assert!(table.windows(2).all(|w| w[0].as_bytes() < w[1].as_bytes()), "names ascend");
        let mut text = vec![""; 65536];
        for (i, name) in table.iter().enumerate() {
            text[i + 1] = name;
        }
        for i in FIRST_HOST as usize..65536 {
            text[i] = if i == ISINDEX as usize { "isindex" } else { leak(format!("?{i}")) };
        }
        let number = text.iter().enumerate().filter(|(_, s)| !s.is_empty()).map(|(i, s)| (*s, i as u16)).collect();
        let copies = FORMATTING.iter().map(|s| (*s, leak(s.repeat(COPIES)))).collect();
        Names { text, number, size: table.len() as u16, copies }
    })
}

impl Names {
    pub fn known(&self, n: u16) -> bool {
        (1 <= n && n <= self.size) || FIRST_HOST <= n
    }

    pub fn formatting(&self, n: u16) -> bool {
        FORMATTING.contains(&self.text[n as usize])
    }

    pub fn local(&self, n: u16) -> LocalName {
        LocalName(self.text[n as usize])
    }

    pub fn number(&self, name: LocalName) -> u16 {
        self.number[name.0]
    }

    pub fn number_of(&self, name: &str) -> u16 {
        self.number[name]
    }

    // The name of the tag of list entry `node`: equal to the plain name, at an address of its own. An element that the Rust
    // makes from that tag is known by it as a copy, whose attributes are the stored ones.
    pub fn tag_name(&self, name: u16, node: usize) -> LocalName {
        let plain = self.text[name as usize];
        let at = node * plain.len();
        LocalName(&self.copies[plain][at..at + plain.len()])
    }

    // The list entry whose tag has this name, or none for a tag that the driver made.
    pub fn copied_from(&self, name: LocalName) -> Option<usize> {
        let copies = self.copies.get(name.0)?;
        let (from, at) = (copies.as_ptr() as usize, name.0.as_ptr() as usize);
        (from <= at && at < from + copies.len()).then(|| (at - from) / name.0.len())
    }
}

pub const SPACES: u16 = 3;

pub fn space(n: u16) -> Namespace {
    match n {
        0 => crate::ns!(html),
        1 => crate::ns!(mathml),
        _ => crate::ns!(svg),
    }
}

pub fn space_number(ns: &Namespace) -> u16 {
    (0..SPACES).find(|n| space(*n) == *ns).expect("a namespace of document 01")
}
