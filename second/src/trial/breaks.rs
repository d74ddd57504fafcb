//! Lines that are broken, and lines that never were whole.

use super::random::Random;

/// Fields that lines are broken with.
const FIELDS: [&[u8]; 48] = [
    b"controllers",
    b"set",
    b"seal",
    b"plans",
    b"board",
    b"offer",
    b"hear",
    b"-",
    b"",
    b"0",
    b"1",
    b"2",
    b"3",
    b"4",
    b"9",
    b"15",
    b"16",
    b"17",
    b"31",
    b"63",
    b"64",
    b"65",
    b"1000",
    b"1001",
    b"9999",
    b"10000",
    b"32000",
    b"32001",
    b"65536",
    b"99999",
    b"100000",
    b"00",
    b"01",
    b"0/0",
    b"1/40",
    b"0/1000",
    b"63/1000",
    b"99999/99999",
    b"/",
    b"1/",
    b"/1",
    b"1/2/3",
    b"01/1",
    b"1/01",
    b"1/100000",
    b"--",
    b"+1",
    b"-1",
];

/// A line of random fields.
pub fn soup(rng: &mut Random) -> Vec<u8> {
    let mut line = if rng.chance(850) {
        rng.pick(&FIELDS[..7]).to_vec()
    } else {
        rng.pick(&FIELDS).to_vec()
    };
    for _ in 0..rng.below(5) {
        line.push(b'\t');
        let field = rng.pick(&FIELDS);
        line.extend_from_slice(field);
    }
    line
}

/// A few bytes, any at all.
pub fn bytes(rng: &mut Random) -> Vec<u8> {
    (0..rng.below(12)).map(|_| rng.draw() as u8).collect()
}

/// A line of 255 to 300 bytes that is in form but for its length.
pub fn long(rng: &mut Random, grants: bool) -> Vec<u8> {
    let length = *rng.pick(&[255, 256, 256, 257, 257, 300]);
    let mut line: Vec<u8>;
    match rng.below(3) {
        // A row: two bytes a word, one word longer if need be.
        0 => {
            line = b"hear".to_vec();
            if length % 2 == 1 && !grants {
                line.extend_from_slice(b"\t10");
            } else if length % 2 == 1 {
                line.extend_from_slice(b"\t10/10");
            }
            while line.len() < length {
                line.extend_from_slice(b"\t-");
            }
        }
        // A set: six bytes a controller, the first ones shorter if need be.
        1 => {
            line = b"set".to_vec();
            let first: &[u8] = match (length - line.len()) % 6 {
                0 => b"",
                1 => b"\t10\t100",
                2 => b"\t9",
                3 => b"\t99",
                4 => b"\t999",
                _ => b"\t9999",
            };
            line.extend_from_slice(first);
            let mut member = 10_000;
            while line.len() < length {
                line.extend_from_slice(format!("\t{member}").as_bytes());
                member += 1;
            }
        }
        // A first field that goes on and on.
        _ => {
            line = rng.pick(&FIELDS[..7]).to_vec();
            while line.len() < length {
                line.push(*rng.pick(b"\t0-x"));
            }
        }
    }
    line
}

/// Breaks a line in one of many ways.
pub fn break_line(rng: &mut Random, line: Vec<u8>) -> Vec<u8> {
    let mut fields: Vec<Vec<u8>> = line.split(|&b| b == b'\t').map(|f| f.to_vec()).collect();
    let place = rng.below(fields.len());
    let field = &mut fields[place];
    match rng.below(20) {
        0 => {
            fields.remove(place);
        }
        1 => {
            let twice = field.clone();
            fields.insert(place, twice);
        }
        2 => fields.insert(place + 1, rng.pick(&FIELDS).to_vec()),
        3 => fields.push(rng.pick(&FIELDS).to_vec()),
        4 => field.clear(),
        5 => fields.push(Vec::new()),
        6 => *field = rng.pick(&FIELDS).to_vec(),
        7 => field.insert(0, b'0'),
        8 => {
            while field.len() < 6 {
                field.push(b'0' + rng.below(10) as u8);
            }
        }
        9 => fields.swap(0, place),
        10 => {
            let other = rng.below(fields.len());
            fields.swap(place, other);
        }
        11 => {
            fields.truncate(place + 1);
        }
        12 => field.make_ascii_uppercase(),
        13 => *field = rng.between(0, 99_999).to_string().into_bytes(),
        _ => return break_bytes(rng, line),
    }
    fields.join(&b'\t')
}

/// Breaks a line at single bytes.
fn break_bytes(rng: &mut Random, mut line: Vec<u8>) -> Vec<u8> {
    let place = rng.below(line.len() + 1);
    let byte = match rng.below(3) {
        0 => *rng.pick(b"\t\t/-09 \r\n\0:"),
        _ => rng.draw() as u8,
    };
    match rng.below(8) {
        0 => line.push(b'\r'),
        1 => line.insert(place, byte),
        2 => line.truncate(place),
        3 => {
            if let Some(tab) = line.iter().position(|&b| b == b'\t') {
                line[tab] = b' ';
            }
        }
        4 => {
            let length = *rng.pick(&[255, 256, 257, 300, 1_000, 70_000]);
            let filler = *rng.pick(b"\t0-x/");
            line.resize(length, filler);
        }
        5 if place < line.len() => {
            line.remove(place);
        }
        _ if place < line.len() => line[place] = byte,
        _ => line.clear(),
    }
    line
}
