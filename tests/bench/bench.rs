// Times the proved run against plain Rust in one process: the same records, many runs in a row, by turns.
//
//   bench time FILE..              nanoseconds of each run of records, proved and plain, and of the proved check of the state after it
//   bench leaflets COUNT CALL..    the same over leaflets of 1,500 nodes, made here from a fixed seed, without the calls named
//   bench proved FILE, bench plain FILE     one run, for a count of instructions
//
// Both must do as many records, and leave the same nodes. The memory is lent once and not cleared between runs.
use std::process::exit;

mod names {
    include!(concat!(env!("BENCH_NAMES"), "/names.rs"));
}
mod plain;

// A slice is passed as a pointer and a length.
extern "C" {
    fn timed_run(
        nodes: *mut u8, nodes_len: usize, list: *mut u16, list_len: usize, modes: *mut u16, modes_len: usize, pieces: *mut u8, pieces_len: usize,
        pairs: *mut u8, pairs_len: usize, input: *const u8, input_len: usize,
    ) -> usize;
    fn exported_checked(
        nodes: *mut u8, nodes_len: usize, list: *mut u16, list_len: usize, modes: *mut u16, modes_len: usize, pieces: *mut u8, pieces_len: usize,
        pairs: *mut u8, pairs_len: usize, input: *const u8, input_len: usize, asked: bool,
    ) -> usize;
    fn clock_gettime(clock: i32, to: *mut [i64; 2]) -> i32;
}

// What is lent to the proved builder: the sizes are those of the program.
struct Lent {
    nodes: Vec<u8>,
    list: Vec<u16>,
    modes: Vec<u16>,
    pieces: Vec<u8>,
    pairs: Vec<u8>,
}

impl Lent {
    fn new() -> Lent {
        Lent { nodes: vec![170; 32 * 2049], list: vec![43690; 256], modes: vec![43690; 64], pieces: vec![170; 4 * 8193], pairs: vec![170; 4 * 4096] }
    }

    fn run(&mut self, input: &[u8]) -> usize {
        let m = self;
        unsafe {
            timed_run(
                m.nodes.as_mut_ptr(), m.nodes.len(), m.list.as_mut_ptr(), m.list.len(), m.modes.as_mut_ptr(), m.modes.len(), m.pieces.as_mut_ptr(),
                m.pieces.len(), m.pairs.as_mut_ptr(), m.pairs.len(), input.as_ptr(), input.len(),
            )
        }
    }

    fn checked(&mut self, input: &[u8], asked: bool) -> usize {
        let m = self;
        unsafe {
            exported_checked(
                m.nodes.as_mut_ptr(), m.nodes.len(), m.list.as_mut_ptr(), m.list.len(), m.modes.as_mut_ptr(), m.modes.len(), m.pieces.as_mut_ptr(),
                m.pieces.len(), m.pairs.as_mut_ptr(), m.pairs.len(), input.as_ptr(), input.len(), asked,
            )
        }
    }

    fn field(&self, n: usize, f: usize) -> u16 {
        u16::from_le_bytes([self.nodes[n * 32 + f * 2], self.nodes[n * 32 + f * 2 + 1]])
    }
}

// This thread's own time, in nanoseconds: what else runs on the machine is not counted.
fn now() -> f64 {
    let mut t = [0, 0];
    unsafe { clock_gettime(3, &mut t) };
    t[0] as f64 * 1e9 + t[1] as f64
}

struct Both {
    lent: Lent,
    builder: plain::Builder,
}

impl Both {
    fn proved(&mut self, input: &[u8]) -> usize {
        self.lent.run(input)
    }

    fn checked(&mut self, input: &[u8]) -> usize {
        self.lent.checked(input, true)
    }

    fn unchecked(&mut self, input: &[u8]) -> usize {
        self.lent.checked(input, false)
    }

    fn plain(&mut self, input: &[u8]) -> usize {
        plain::run(&mut self.builder, input)
    }

    // How many records are done; they must be as many on both sides, and the nodes the same.
    fn same(&mut self, label: &str, input: &[u8]) -> usize {
        let (ours, theirs) = (self.proved(input), self.plain(input));
        if ours != theirs {
            println!("{label}: {ours} records done against {theirs}");
            exit(1);
        }
        for n in 1..=self.builder.used {
            for (f, v) in self.builder.nodes[n].fields().into_iter().enumerate() {
                if self.lent.field(n, f) != v {
                    println!("{label}: field {f} of node {n} differs");
                    exit(1);
                }
            }
        }
        if self.checked(input) != 1 {
            println!("{label}: the state after it is not sound");
            exit(1);
        }
        ours
    }
}

type Way = fn(&mut Both, &[u8]) -> usize;
const WAYS: [Way; 4] = [Both::proved, Both::plain, Both::checked, Both::unchecked];
const SAMPLES: usize = 41;

// Nanoseconds for all inputs once, each of the four ways: the median of many samples that are taken by turns.
fn times(both: &mut Both, inputs: &[Vec<u8>]) -> [f64; 4] {
    let mut taken = [const { Vec::new() }; 4];
    let once = |both: &mut Both, way: Way, times: usize| {
        let start = now();
        for _ in 0..times {
            for input in inputs {
                std::hint::black_box(way(both, std::hint::black_box(input)));
            }
        }
        (now() - start) / times as f64
    };
    let repeats = WAYS.map(|way| (2e6 / once(both, way, 3)).ceil().max(1.0) as usize);
    for _ in 0..SAMPLES {
        for (k, way) in WAYS.into_iter().enumerate() {
            taken[k].push(once(both, way, repeats[k]));
        }
    }
    taken.map(|mut all| {
        all.sort_by(f64::total_cmp);
        all[SAMPLES / 2]
    })
}

// A line: label, records, nodes, and nanoseconds for all of it, proved, plain, check, and proved in a library that uses the run twice.
fn report(both: &mut Both, label: &str, inputs: &[Vec<u8>]) {
    let (mut records, mut nodes) = (0, 0);
    for input in inputs {
        records += both.same(label, input);
        nodes += both.builder.used;
    }
    let [proved, plain, checked, unchecked] = times(both, inputs);
    println!("{label}\t{records}\t{nodes}\t{proved:.0}\t{plain:.0}\t{:.0}\t{unchecked:.0}", checked - unchecked);
}

// ---- leaflets

struct Choice(u64);

impl Choice {
    fn below(&mut self, n: usize) -> usize {
        self.0 = self.0.wrapping_mul(6364136223846793005).wrapping_add(1442695040888963407);
        ((self.0 >> 33) as usize) % n
    }

    fn of(&mut self, names: &[u16]) -> u16 {
        names[self.below(names.len())]
    }
}

fn put(to: &mut Vec<u8>, mut v: u16) {
    while v > 127 {
        to.push((v & 127 | 128) as u8);
        v >>= 7;
    }
    to.push(v as u8);
}

fn record(numbers: &[u16]) -> Vec<u8> {
    let mut out = Vec::new();
    for v in numbers {
        put(&mut out, *v);
    }
    out
}

// Paragraphs with formatting that is opened and closed out of order, lists, tables, texts and comments.
fn some_record(c: &mut Choice) -> (u16, Vec<u8>) {
    use names::*;
    let few = [A, B, I, U, FONT];
    match c.below(100) {
        0..=11 => (4, record(&[4, c.of(&few), 0])),
        12..=14 => (4, record(&[4, FONT, 1, HREF, c.below(3) as u16])),
        15..=31 => (8, record(&[8, c.of(&few)])),
        32..=34 => (9, record(&[9])),
        35..=42 => (7, record(&[7])),
        43..=54 => (1, record(&[1, 0, c.of(&[P, DIV, LI, TD, TABLE, TR, B]), 1, 0])),
        55..=60 => (1, record(&[1, 0, c.of(&[B, I]), 0, 1, HREF, 7])),
        61..=78 => (2, record(&[2, c.below(65536) as u16])),
        79..=80 => (3, record(&[3, 0, c.below(300) as u16])),
        81..=85 => (10, record(&[10, c.of(&[P, DIV, LI, B, I])])),
        86..=88 => (11, record(&[11])),
        89 => (13, record(&[13, 0, 0])),
        90 => (15, record(&[15, c.below(2) as u16])),
        91 => (12, record(&[12])),
        _ => (14, record(&[14])),
    }
}

// Records that are all done, until 1,500 nodes are used or the program's input is full.
fn leaflet(c: &mut Choice, without: &[u16], b: &mut plain::Builder) -> Vec<u8> {
    let mut data = Vec::new();
    b.begin();
    let mut next = (1, record(&[1, 0, names::BODY, 1, 0]));
    while b.used < 1500 && data.len() + next.1.len() <= 16384 {
        let (call, r) = next;
        if !without.contains(&call) && plain::step(b, &r).is_ok() {
            data.extend(r);
        }
        next = some_record(c);
    }
    data
}

fn main() {
    let args: Vec<String> = std::env::args().skip(1).collect();
    let mut both = Both { lent: Lent::new(), builder: plain::Builder::new() };
    let read = |path: &str| std::fs::read(path).unwrap();
    match args[0].as_str() {
        "time" => {
            for path in &args[1..] {
                let label = std::path::Path::new(path).file_name().unwrap().to_str().unwrap().to_string();
                report(&mut both, &label, &[read(path)]);
            }
        }
        "leaflets" => {
            let without: Vec<u16> = args[2..].iter().map(|a| a.parse().unwrap()).collect();
            let mut c = Choice(1);
            let all: Vec<Vec<u8>> = (0..args[1].parse().unwrap()).map(|_| leaflet(&mut c, &without, &mut both.builder)).collect();
            report(&mut both, &format!("{} leaflets", all.len()), &all);
        }
        "proved" => println!("{}", both.proved(&read(&args[1]))),
        "plain" => println!("{}", both.plain(&read(&args[1]))),
        _ => exit(2),
    }
}
