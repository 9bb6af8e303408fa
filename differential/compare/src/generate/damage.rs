//! Copies of files with bytes or lines altered, lost, doubled or out of place.

use super::Random;

pub fn damaged(random: &mut Random, file: &[u8]) -> Vec<u8> {
    let mut file = file.to_vec();
    let times = if random.chance(70) { 1 } else { 2 + random.below(2) };
    for _ in 0..times {
        match random.below(10) {
            0..=1 => one_byte(random, &mut file),
            2..=4 => a_number(random, &mut file),
            5..=8 => a_line(random, &mut file),
            _ => file.truncate(random.below(file.len() as u64 + 1) as usize),
        }
    }
    file
}

/// Bytes that mean something in a file, and some that do not.
const BYTES: &[u8] = b"RUSLHCEIPFNZ0123456789-+ \t\n\r\0\xff";

fn one_byte(random: &mut Random, file: &mut Vec<u8>) {
    let byte = BYTES[random.below(BYTES.len() as u64) as usize];
    let place = random.below(file.len() as u64 + 1) as usize;
    match random.below(3) {
        0 if place < file.len() => file[place] = byte,
        1 if place < file.len() => {
            file.remove(place);
        }
        _ => file.insert(place, byte),
    }
}

/// Puts a number in place of another: at the ends of the ranges, and out of form.
fn a_number(random: &mut Random, file: &mut Vec<u8>) {
    const NUMBERS: &[&str] = &[
        "0", "1", "50", "51", "200", "201", "9999", "10000", "1000", "1001", "-1", "-1000", "-1001",
        "-0", "+1", "007", "", "200001", "200052", "200053", "200000", "199952", "219952", "220001",
        "1000000", "1000001", "4294967295", "4294967296", "18446744073709551615",
        "18446744073709551616", "340282366920938463463374607431768211456",
    ];
    let tabs: Vec<usize> = (0..file.len()).filter(|i| file[*i] == b'\t').collect();
    if tabs.is_empty() {
        return;
    }
    let from = tabs[random.below(tabs.len() as u64) as usize] + 1;
    let length = file[from..].iter().position(|byte| matches!(byte, b'\t' | b'\n'));
    let to = length.map_or(file.len(), |length| from + length);
    let number = NUMBERS[random.below(NUMBERS.len() as u64) as usize];
    file.splice(from..to, number.bytes());
}

fn a_line(random: &mut Random, file: &mut Vec<u8>) {
    let mut lines: Vec<Vec<u8>> = file.split_inclusive(|byte| *byte == b'\n').map(<[u8]>::to_vec).collect();
    if lines.is_empty() {
        return;
    }
    let place = random.below(lines.len() as u64) as usize;
    let other = random.below(lines.len() as u64) as usize;
    match random.below(8) {
        0..=2 => drop(lines.remove(place)),
        3..=4 => lines.insert(place, lines[place].clone()),
        5 => lines.insert(place, lines[other].clone()),
        6 => lines.swap(place, other),
        _ => lines.insert(place, b"\n".to_vec()),
    }
    *file = lines.concat();
}
