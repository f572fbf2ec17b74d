//! Texts that are not of their form, nearly of it, or too long.

use crate::rng::Rng;
use crate::text::LONGEST;

/// The ways to spoil a text.
pub const WAYS: usize = 14;

/// Spoils a text once or a few times; the first way goes by `kind`, so that all are met in turn.
pub fn spoil(rng: &mut Rng, text: &mut Vec<u8>, kind: usize) {
    spoil_once(rng, text, kind % WAYS);
    for _ in 0..rng.pick(&[0, 0, 0, 1, 2]) {
        let way = rng.below(WAYS);
        spoil_once(rng, text, way);
    }
}

fn spoil_once(rng: &mut Rng, text: &mut Vec<u8>, way: usize) {
    match way {
        0 => change_byte(rng, text),
        1 => drop_byte(rng, text),
        2 => add_byte(rng, text),
        3 => drop_line(rng, text),
        4 => double_line(rng, text),
        5 => swap_lines(rng, text),
        6 => smaller_letter(rng, text),
        7 => carriage_returns(rng, text),
        8 => drop(text.pop()),
        9 => text.clear(),
        10 => text.push(b'\n'),
        11 => change_code(rng, text),
        12 => another_head(rng, text),
        _ => pad(rng, text),
    }
}

fn any_byte(rng: &mut Rng) -> u8 {
    if rng.percent(30) {
        rng.below(256) as u8
    } else {
        rng.pick(b"0123456789ABCDEFabcdefG@/: \r\n\t-+,Oo\0\xFF")
    }
}

fn change_byte(rng: &mut Rng, text: &mut [u8]) {
    if !text.is_empty() {
        text[rng.below(text.len())] = any_byte(rng);
    }
}

fn drop_byte(rng: &mut Rng, text: &mut Vec<u8>) {
    if !text.is_empty() {
        text.remove(rng.below(text.len()));
    }
}

fn add_byte(rng: &mut Rng, text: &mut Vec<u8>) {
    let byte = any_byte(rng);
    text.insert(rng.below(text.len() + 1), byte);
}

fn lines(text: &[u8]) -> Vec<Vec<u8>> {
    text.split_inclusive(|&byte| byte == b'\n').map(<[u8]>::to_vec).collect()
}

fn drop_line(rng: &mut Rng, text: &mut Vec<u8>) {
    let mut lines = lines(text);
    if !lines.is_empty() {
        lines.remove(rng.below(lines.len()));
    }
    *text = lines.concat();
}

fn double_line(rng: &mut Rng, text: &mut Vec<u8>) {
    let mut lines = lines(text);
    if !lines.is_empty() {
        let line = lines[rng.below(lines.len())].clone();
        lines.insert(rng.below(lines.len() + 1), line);
    }
    *text = lines.concat();
}

fn swap_lines(rng: &mut Rng, text: &mut Vec<u8>) {
    let mut lines = lines(text);
    if !lines.is_empty() {
        let (a, b) = (rng.below(lines.len()), rng.below(lines.len()));
        lines.swap(a, b);
    }
    *text = lines.concat();
}

/// A small letter for a capital one, where there is any.
fn smaller_letter(rng: &mut Rng, text: &mut [u8]) {
    let letters: Vec<usize> = (0..text.len()).filter(|&k| text[k].is_ascii_uppercase()).collect();
    if !letters.is_empty() {
        text[rng.pick(&letters)].make_ascii_lowercase();
    }
}

fn carriage_returns(rng: &mut Rng, text: &mut Vec<u8>) {
    let mut lines = lines(text);
    let all = rng.percent(50);
    let which = rng.below(lines.len().max(1));
    for (k, line) in lines.iter_mut().enumerate() {
        if (all || k == which) && line.ends_with(b"\n") {
            line.insert(line.len() - 1, b'\r');
        }
    }
    *text = lines.concat();
}

/// Another frame code at some line.
fn change_code(rng: &mut Rng, text: &mut Vec<u8>) {
    let mut lines = lines(text);
    let which = rng.below(lines.len().max(1));
    if let Some(line) = lines.get_mut(which).filter(|line| line.len() > 2) {
        line[0] = rng.pick(b"00001F");
        line[1] = rng.pick(b"0123456F");
    }
    *text = lines.concat();
}

/// Another n in the head line: any three digits.
fn another_head(rng: &mut Rng, text: &mut [u8]) {
    if text.len() >= 5 {
        let n = rng.pick(&[0, 1, 2, 3, 4, 1023, 1024, 1025, 4095]);
        text[2..5].copy_from_slice(format!("{n:03X}").as_bytes());
    }
}

/// More lines, to the longest text that is read or past it.
fn pad(rng: &mut Rng, text: &mut Vec<u8>) {
    let line = rng.pick(&[&b"01000001002\n"[..], b"02000001002\n", b"junk\n", b"\n"]);
    while text.len() + line.len() <= LONGEST {
        text.extend_from_slice(line);
    }
    for _ in 0..rng.below(3) {
        text.extend_from_slice(line);
    }
    if rng.percent(30) {
        text.truncate(LONGEST + rng.below(3));
    }
}
