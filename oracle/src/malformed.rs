//! Lines of a wrong shape, made from good ones: one thing spoilt at a time. Now
//! and then the line stays good, which the readers must find out as well.

use crate::random::Random;

/// Numbers one above the widths of the fields, and other ends.
const TOO_WIDE: [&str; 8] = [
    "2",
    "256",
    "65536",
    "4294967296",
    "18446744073709551616",
    "18446744073709551625",
    "99999999999999999999",
    "340282366920938463463374607431768211456",
];

const ODD_BYTES: &[u8] = b",,00019-+ .\"'\r\n\t\0\xffaA;:=x";

/// Line lengths about the limits of `trace` and `replay`.
const LENGTHS: [usize; 8] = [95, 96, 97, 98, 4_095, 4_096, 4_097, 9_000];

pub fn spoil(random: &mut Random, line: &mut Vec<u8>) {
    match random.below(16) {
        0 => line.clear(),
        1 => insert_odd_byte(random, line),
        2 => drop_byte(random, line),
        3 => replace_byte(random, line),
        4 => replace_field(random, line, |field| [b"0", field].concat()),
        5 => replace_field(random, line, |field| [b"+", field].concat()),
        6 => replace_field(random, line, |field| [b"\"", field, b"\""].concat()),
        7 => replace_field(random, line, |_| Vec::new()),
        8 | 9 => {
            let number = random.pick(&TOO_WIDE);
            replace_field(random, line, |_| number.as_bytes().to_vec());
        }
        10 => line.extend_from_slice(random.pick(&[&b",0"[..], b",", b" ", b",1,1"])),
        11 => drop_last_field(line),
        12 => line.push(random.pick(b"\r\n")),
        13 => line.make_ascii_uppercase(),
        14 => *line = of_length(random),
        _ => {}
    }
}

fn some_place(random: &mut Random, line: &[u8]) -> usize {
    random.below(line.len() as u64) as usize
}

fn insert_odd_byte(random: &mut Random, line: &mut Vec<u8>) {
    let place = some_place(random, line);
    line.insert(place, random.pick(ODD_BYTES));
}

fn drop_byte(random: &mut Random, line: &mut Vec<u8>) {
    let place = some_place(random, line);
    line.remove(place);
}

fn replace_byte(random: &mut Random, line: &mut [u8]) {
    let place = some_place(random, line);
    line[place] = random.pick(ODD_BYTES);
}

fn replace_field(random: &mut Random, line: &mut Vec<u8>, change: impl Fn(&[u8]) -> Vec<u8>) {
    let mut fields: Vec<Vec<u8>> = line
        .split(|byte| *byte == b',')
        .map(<[u8]>::to_vec)
        .collect();
    let place = random.below(fields.len() as u64) as usize;
    fields[place] = change(&fields[place]);
    *line = fields.join(&b',');
}

fn drop_last_field(line: &mut Vec<u8>) {
    let comma = line.iter().rposition(|byte| *byte == b',');
    line.truncate(comma.unwrap_or(0));
}

/// A round with more outcomes than slots: good or bad by its length alone.
fn of_length(random: &mut Random) -> Vec<u8> {
    let length = random.pick(&LENGTHS);
    let mut line = b"round,1000,0,0,0,255".to_vec();
    while line.len() + 2 <= length {
        line.extend_from_slice(b",0");
    }
    if line.len() < length {
        let last = line.len() - 1;
        line[last] = b'1';
        line.push(b'0');
    }
    line
}
