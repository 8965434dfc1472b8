// Call records: unsigned LEB128, shortest form only, at most 65,535.

pub struct Call {
    pub number: u16,
    pub args: Vec<u16>,
    pub pairs: Vec<[u16; 2]>,
}

pub enum Read {
    Whole(Call, usize),
    // A well written but unknown call number: nothing after it is read.
    Unknown,
    Bad,
}

// How many numbers a call takes, and whether pairs follow.
fn shape(call: u16) -> Option<(usize, bool)> {
    Some(match call {
        1 => (3, true),
        2 => (1, false),
        3 => (2, false),
        4 => (1, true),
        8 | 10 | 15 | 16 | 18 => (1, false),
        13 => (2, false),
        5..=7 | 9 | 11 | 12 | 14 | 17 => (0, false),
        _ => return None,
    })
}

fn number(input: &[u8], at: &mut usize) -> Option<u16> {
    let mut value: u64 = 0;
    for i in 0.. {
        let byte = *input.get(*at)?;
        *at += 1;
        if i > 2 {
            return None;
        }
        value |= ((byte & 127) as u64) << (7 * i);
        if byte < 128 {
            let long = byte == 0 && i > 0;
            return if long || value > 65535 { None } else { Some(value as u16) };
        }
    }
    None
}

pub fn read(input: &[u8], mut at: usize) -> Read {
    let Some(call) = number(input, &mut at) else { return Read::Bad };
    let Some((count, has_pairs)) = shape(call) else { return Read::Unknown };
    let mut parts = || -> Option<Call> {
        let args = (0..count).map(|_| number(input, &mut at)).collect::<Option<_>>()?;
        let mut pairs = Vec::new();
        if has_pairs {
            for _ in 0..number(input, &mut at)? {
                pairs.push([number(input, &mut at)?, number(input, &mut at)?]);
            }
        }
        Some(Call { number: call, args, pairs })
    };
    match parts() {
        Some(call) => Read::Whole(call, at),
        None => Read::Bad,
    }
}
