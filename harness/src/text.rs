//! The texts (docs/SPECIFICATION.md, sections 10 and 11): house text, and the array text that `meshlines` writes and the other two
//! programs read.

use crate::reading;
use crate::slow::{used, Array, Mesh, FEWEST, MOST, UNUSED};

/// The head, and a frame for each triangle and each inner vertex of the largest mesh.
pub const LONGEST: usize = 6 + 12 * (2 * MOST - 4 + MOST - 3);
pub const TOO_LONG: u8 = 19;
pub const NOT_THE_FORM: u8 = 20;

/// A refusal's line.
pub fn refusal(number: u8) -> Vec<u8> {
    format!("0F{number:02X}\n").into_bytes()
}

/// A capital hexadecimal digit.
fn digit(byte: u8) -> Option<u16> {
    match byte {
        b'0'..=b'9' => Some((byte - b'0') as u16),
        b'A'..=b'F' => Some((byte - b'A') as u16 + 10),
        _ => None,
    }
}

fn number(digits: &[u8]) -> Option<u16> {
    digits.iter().try_fold(0, |value, &byte| Some(16 * value + digit(byte)?))
}

/// Three numbers of three digits.
fn triple(digits: &[u8]) -> Option<[u16; 3]> {
    Some([number(&digits[0..3])?, number(&digits[3..6])?, number(&digits[6..9])?])
}

/// The lines of a text, each without its line feed; None where the last one has none, and for no line at all.
fn lines(text: &[u8]) -> Option<Vec<&[u8]>> {
    let body = text.strip_suffix(b"\n")?;
    Some(body.split(|&byte| byte == b'\n').collect())
}

fn head(line: &[u8]) -> Option<usize> {
    if line.len() != 5 || &line[..2] != b"00" {
        return None;
    }
    number(&line[2..]).map(usize::from)
}

/// House text as `meshlines` reads it: 19, then 20. How many frames there are is no matter of the form: the verdict tests it.
pub fn read_mesh(text: &[u8]) -> Result<Mesh, u8> {
    if text.len() > LONGEST {
        return Err(TOO_LONG);
    }
    frames(text).ok_or(NOT_THE_FORM)
}

fn frames(text: &[u8]) -> Option<Mesh> {
    let lines = lines(text)?;
    let n = head(lines[0])?;
    let mut triangles = Vec::new();
    // No text says the anchors' part.
    let mut wood = vec![UNUSED, UNUSED, UNUSED, 0, UNUSED, UNUSED, 0, 1, UNUSED];
    for line in &lines[1..] {
        if line.len() != 11 {
            return None;
        }
        match &line[..2] {
            b"01" if wood.len() == 9 => triangles.push(triple(&line[2..])?),
            b"02" => wood.extend(triple(&line[2..])?),
            _ => return None,
        }
    }
    Some(Mesh { n, triangles, wood })
}

/// An array text: 1 where the head line has its form and n is out of range, whatever follows; 20 where the head line or what
/// follows is not of the form; else the array. Unused edges, which have no frame, hold 65,535 and 0.
pub fn read_array(text: &[u8]) -> Result<Array, u8> {
    let end = text.iter().position(|&byte| byte == b'\n').ok_or(NOT_THE_FORM)?;
    let n = head(&text[..end]).ok_or(NOT_THE_FORM)?;
    if !(FEWEST..=MOST).contains(&n) {
        return Err(1);
    }
    array_frames(n, &text[end + 1..]).ok_or(NOT_THE_FORM)
}

fn array_frames(n: usize, text: &[u8]) -> Option<Array> {
    let lines = lines(text)?;
    let edges: Vec<usize> = (0..3 * n).filter(|&e| used(e)).collect();
    if lines.len() != edges.len() {
        return None;
    }
    let mut array = Array { n, references: vec![UNUSED; 6 * n], service: vec![0; 3 * n] };
    for (line, e) in lines.iter().zip(edges) {
        if line.len() != 12 || &line[..2] != b"03" {
            return None;
        }
        let [edge, left, right] = triple(&line[2..11])?;
        if edge as usize != e {
            return None;
        }
        array.references[2 * e] = marked(left);
        array.references[2 * e + 1] = marked(right);
        array.service[e] = digit(line[11])? as u8;
    }
    Some(array)
}

/// Three digits do not reach 65,535, so `FFF` stands for it.
fn marked(value: u16) -> u16 {
    if value == 0xFFF {
        UNUSED
    } else {
        value
    }
}

pub fn write_mesh(mesh: &Mesh) -> Vec<u8> {
    let mut text = format!("00{:03X}\n", mesh.n);
    for [a, b, c] in &mesh.triangles {
        text += &format!("01{a:03X}{b:03X}{c:03X}\n");
    }
    for targets in mesh.wood[9..].chunks(3) {
        text += &format!("02{:03X}{:03X}{:03X}\n", targets[0], targets[1], targets[2]);
    }
    text.into_bytes()
}

/// The head, then a frame for each edge: its index, both references, the service byte as one digit.
pub fn write_array(array: &Array) -> Vec<u8> {
    let mut text = format!("00{:03X}\n", array.n);
    for e in (0..3 * array.n).filter(|&e| used(e)) {
        let (left, right) = (array.references[2 * e] & 0xFFF, array.references[2 * e + 1] & 0xFFF);
        text += &format!("03{e:03X}{left:03X}{right:03X}{:X}\n", array.service[e]);
    }
    text.into_bytes()
}

/// What `answers` writes: a line for each index from 0 to 3n, then one for each vertex from 0 to n.
pub fn answer_lines(n: usize, about_edge: impl Fn(usize) -> String, about_vertex: impl Fn(usize) -> String) -> Vec<u8> {
    let edges = (0..=3 * n).map(|j| format!("06{j:03X}{}\n", about_edge(j)));
    let vertices = (0..=n).map(|u| format!("07{u:03X}{}\n", about_vertex(u)));
    edges.chain(vertices).collect::<String>().into_bytes()
}

/// The lines of an array, by its readings.
pub fn write_answers(array: &Array) -> Vec<u8> {
    let about_edge = |j: usize| {
        let mut line = plain(reading::source(array, j));
        line += &with_reads(reading::target(array, j));
        line += &plain(reading::left_front(array, j));
        line += &plain(reading::right_front(array, j));
        line += &plain(reading::left_back(array, j));
        line + &plain(reading::right_back(array, j))
    };
    answer_lines(array.n, about_edge, |u| plain(reading::edge(array, u)))
}

/// An answer: 0 and the value in three digits; F0 and the refusal's number in two.
pub fn plain(answer: Result<usize, u8>) -> String {
    match answer {
        Ok(value) => format!("0{value:03X}"),
        Err(number) => format!("F0{number:02X}"),
    }
}

/// Target's answer, which carries its reads.
pub fn with_reads(answer: Result<(usize, usize), u8>) -> String {
    match answer {
        Ok((vertex, reads)) => format!("0{vertex:03X}{reads:03X}"),
        Err(number) => plain(Err(number)),
    }
}
