// html5ever's tree builder, unchanged, behind the calls of document 01.
//
//   oracle FILE            answers the requests of a batch file (../FORMAT.md)
//   oracle --program       runs standard input from a fresh document and prints the dump
//   --unguarded            the refusals that the driver makes for document 01 at 10, 11, 12 and 14 are left out
//   --empty-start-zero     elements without attributes have START 0, and not the pairs used
#![allow(dead_code, unused_imports, unused_variables)]

extern crate self as log;
extern crate self as markup5ever;

#[macro_use]
mod macros;
mod arena;
mod dump;
pub mod interface;
mod names;
mod records;
mod saved;
mod sound;
pub mod tendril;
pub mod tokenizer;

#[path = "../html5ever/src/tree_builder/mod.rs"]
pub mod tree_builder;

mod util;

pub use interface::{ExpandedName, LocalName, Namespace, Prefix, QualName};

// The levels of log.
pub enum Level {
    Debug,
}

use arena::Arena;
use records::Read;
use saved::{Saved, Words};
use std::fmt::Write as _;
use std::io::{Read as _, Write as _};
use std::panic::{catch_unwind, AssertUnwindSafe};
use std::sync::atomic::{AtomicBool, Ordering};
use tree_builder::TreeBuilder;

// Whether the driver's refusals at 10, 11, 12 and 14 are left out.
pub static UNGUARDED: AtomicBool = AtomicBool::new(false);

type Builder = TreeBuilder<usize, Arena>;

// An answer, its result and the state after; None where the Rust panicked.
type Outcome = Option<(u16, Option<usize>, Saved)>;

macro_rules! guarded {
    ($state:expr, $call:expr) => {
        match catch_unwind(AssertUnwindSafe(|| $call)) {
            Err(_) => None,
            Ok(answer) => Builder::outcome(answer, $state),
        }
    };
}

fn single(s: &Saved, bytes: &[u8], zero: bool) -> Outcome {
    match records::read(bytes, 0) {
        Read::Whole(call, _) => guarded!(s, Builder::call(s, &call, zero)),
        Read::Unknown => Some((2, None, s.clone())),
        Read::Bad => Some((9, None, s.clone())),
    }
}

// A run stops at the first refusal; its result is how many records were done.
fn run(s: &Saved, bytes: &[u8], zero: bool) -> Outcome {
    let (mut now, mut at, mut done) = (s.clone(), 0, 0);
    while at < bytes.len() {
        match records::read(bytes, at) {
            Read::Bad => return Some((9, Some(done), now)),
            Read::Unknown => return Some((2, Some(done), now)),
            Read::Whole(call, next) => {
                let (answer, _, after) = guarded!(&now, Builder::call(&now, &call, zero))?;
                if answer != 0 {
                    return Some((answer, Some(done), now));
                }
                now = after;
                at = next;
                done += 1;
            },
        }
    }
    Some((0, Some(done), now))
}

fn serve(bytes: &[u8], zero: bool) -> Option<Outcome> {
    let mut w = Words { bytes };
    let s = Saved::read(&mut w)?;
    let request = w.byte()?;
    if request == 1 {
        let [there, ns, name, mark] = w.many()?;
        let context = (there == 1).then_some([ns, name, mark]);
        return Some(guarded!(&s, Builder::begin(s.room, context, there, zero)));
    }
    if !sound::sound(&s) {
        return Some(Some((1, (request == 3).then_some(0), s)));
    }
    Some(match request {
        0 => Some((0, None, s)),
        2 => single(&s, w.bytes, zero),
        3 => run(&s, w.bytes, zero),
        4 => guarded!(&s, Builder::reset(&s)),
        5 => {
            let [kind, name] = w.many()?;
            guarded!(&s, Builder::foreign(&s, kind, name))
        },
        6 => guarded!(&s, Builder::body(&s)),
        7 => {
            let [flag] = w.many()?;
            guarded!(&s, Builder::tokenizer_state(&s, flag))
        },
        _ => return None,
    })
}

fn written(outcome: &Option<Outcome>) -> String {
    let mut out = String::new();
    match outcome {
        None => out.push_str("answer cut\n"),
        Some(None) => out.push_str("answer panic\n"),
        Some(Some((answer, result, state))) => {
            let _ = writeln!(out, "answer {answer}");
            if let Some(result) = result {
                let _ = writeln!(out, "result {result}");
            }
            let _ = writeln!(out, "{}", state.hex());
        },
    }
    out
}

const INPUT: usize = 16384;

fn program(zero: bool) -> std::io::Result<()> {
    let mut input = Vec::new();
    std::io::stdin().read_to_end(&mut input)?;
    let room = [2048, 256, 64, 8192, 4096];
    let (_, _, begun) = Builder::outcome(Builder::begin(room, None, 0, zero), &Saved::default()).unwrap();
    let (mut answer, done, after) = run(&begun, &input[..input.len().min(INPUT)], zero).expect("the Rust panicked");
    if answer == 0 && input.len() > INPUT {
        answer = 9;
    }
    print!("{}records {} answer {}\n", dump::dump(&after), done.unwrap(), answer);
    Ok(())
}

fn main() -> std::io::Result<()> {
    std::panic::set_hook(Box::new(|_| {}));
    let args: Vec<String> = std::env::args().skip(1).collect();
    let zero = args.iter().any(|a| a == "--empty-start-zero");
    UNGUARDED.store(args.iter().any(|a| a == "--unguarded"), Ordering::Relaxed);
    if args.iter().any(|a| a == "--program") {
        return program(zero);
    }
    let path = args.iter().find(|a| !a.starts_with("--")).expect("a batch file");
    let batch = std::fs::read(path)?;
    let mut out = std::io::BufWriter::new(std::io::stdout().lock());
    let mut at = 0;
    while at + 4 <= batch.len() {
        let length = u32::from_le_bytes(batch[at..at + 4].try_into().unwrap()) as usize;
        let item = &batch[at + 4..at + 4 + length];
        out.write_all(written(&serve(item, zero)).as_bytes())?;
        out.write_all(b"--\n")?;
        at += 4 + length;
    }
    Ok(())
}
