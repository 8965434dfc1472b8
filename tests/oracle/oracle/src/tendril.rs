// A stand-in for tendril's StrTendril: a plain string.
use std::ops::Deref;

#[derive(Clone, Debug, PartialEq, Eq, PartialOrd, Ord)]
pub struct StrTendril(pub String);

impl StrTendril {
    pub fn new() -> StrTendril {
        StrTendril(String::new())
    }

    // Text numbers of document 01 travel through the Rust as decimal text.
    pub fn of_number(n: u16) -> StrTendril {
        StrTendril(n.to_string())
    }

    pub fn number(&self) -> u16 {
        self.0.parse().expect("a text number")
    }

    pub fn len32(&self) -> u32 {
        self.0.len() as u32
    }

    pub fn pop_front(&mut self, n: u32) {
        self.0.drain(..n as usize);
    }

    pub fn pop_front_char_run<C, R>(&mut self, classify: C) -> Option<(StrTendril, R)>
    where
        C: Fn(char) -> R,
        R: PartialEq,
    {
        let class = classify(self.0.chars().next()?);
        let end = self.0.find(|c| classify(c) != class).unwrap_or(self.0.len());
        let rest = self.0.split_off(end);
        let run = std::mem::replace(&mut self.0, rest);
        Some((StrTendril(run), class))
    }
}

impl Deref for StrTendril {
    type Target = str;
    fn deref(&self) -> &str {
        &self.0
    }
}

impl AsRef<str> for StrTendril {
    fn as_ref(&self) -> &str {
        &self.0
    }
}
