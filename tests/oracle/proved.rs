// The proved builder on a batch of requests (FORMAT.md), in one process: what the program `probe` does, as often as there are items.
// The lent memory is not cleared between them: no answer depends on what it held.
use std::io::Write;

// A slice is passed as a pointer and a length.
extern "C" {
    fn exported_serve(
        buffer: *const u8, buffer_len: usize, n: usize, nodes: *mut u8, nodes_len: usize, list: *mut u16, list_len: usize, modes: *mut u16,
        modes_len: usize, pieces: *mut u8, pieces_len: usize, pairs: *mut u8, pairs_len: usize, out: *mut u8, out_len: usize,
    ) -> usize;
}

fn main() {
    let batch = std::fs::read(std::env::args().nth(1).expect("a batch file")).expect("a batch file");
    let mut nodes = vec![170u8; 131104];
    let mut list = vec![43690u16; 256];
    let mut modes = vec![43690u16; 64];
    let mut pieces = vec![170u8; 32772];
    let mut pairs = vec![170u8; 16384];
    let mut out = vec![0u8; 524288];
    let mut to = std::io::BufWriter::new(std::io::stdout().lock());
    let mut rest = &batch[..];
    while rest.len() >= 4 {
        let length = u32::from_le_bytes([rest[0], rest[1], rest[2], rest[3]]) as usize;
        let (item, after) = rest[4..].split_at(length);
        let k = unsafe {
            exported_serve(
                item.as_ptr(), item.len(), item.len(), nodes.as_mut_ptr(), nodes.len(), list.as_mut_ptr(), list.len(), modes.as_mut_ptr(), modes.len(),
                pieces.as_mut_ptr(), pieces.len(), pairs.as_mut_ptr(), pairs.len(), out.as_mut_ptr(), out.len(),
            )
        };
        to.write_all(&out[..k]).unwrap();
        to.write_all(b"--\n").unwrap();
        rest = after;
    }
}
