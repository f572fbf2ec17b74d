//! The programs as the slow engine answers for them: a text in, a text out.

use crate::reading::{UNKNOWN_EDGE, UNKNOWN_VERTEX};
use crate::rebuild::rebuild;
use crate::slow::{answers, build, edge_of, used, verdict, Mesh};
use crate::text;

#[derive(Clone, Copy, PartialEq, Eq, Debug)]
pub enum Program {
    Meshlines,
    Answers,
    Rebuildlines,
}

pub const PROGRAMS: [Program; 3] = [Program::Meshlines, Program::Answers, Program::Rebuildlines];

impl Program {
    pub fn name(self) -> &'static str {
        match self {
            Program::Meshlines => "meshlines",
            Program::Answers => "answers",
            Program::Rebuildlines => "rebuildlines",
        }
    }

    /// The numbers that the program can give; 0 where it gives more than a refusal.
    pub fn numbers(self) -> &'static [u8] {
        match self {
            Program::Meshlines => &[0, 1, 2, 3, 4, 5, 6, 7, 8, 9, 10, 11, 12, 13, 19, 20],
            Program::Answers => &[0, 1, 14, 15, 16, 20],
            Program::Rebuildlines => &[0, 1, 18, 20],
        }
    }
}

/// What the program has to write for this input.
pub fn expected(program: Program, input: &[u8]) -> Vec<u8> {
    let written = match program {
        Program::Meshlines => meshlines(input),
        Program::Answers => text::read_array(input).map(|array| text::write_answers(&array)),
        Program::Rebuildlines => rebuildlines(input),
    };
    written.unwrap_or_else(text::refusal)
}

fn meshlines(input: &[u8]) -> Result<Vec<u8>, u8> {
    let mesh = text::read_mesh(input)?;
    match verdict(&mesh) {
        0 => Ok(text::write_array(&build(&mesh))),
        number => Err(number),
    }
}

fn rebuildlines(input: &[u8]) -> Result<Vec<u8>, u8> {
    let array = text::read_array(input)?;
    let mesh = rebuild(array.n, &array.references)?;
    Ok(text::write_mesh(&mesh))
}

/// What `answers` has to write for the array of an accepted mesh, from its triangles and its wood and no array.
pub fn answers_of(mesh: &Mesh) -> Vec<u8> {
    let about_edge = |j: usize| {
        if j == 3 * mesh.n || !used(j) {
            return text::plain(Err(UNKNOWN_EDGE)).repeat(6);
        }
        let a = answers(mesh, j);
        let ends = text::plain(Ok(a.source as usize)) + &text::with_reads(Ok((a.target as usize, a.reads)));
        let beside = [a.left_front, a.right_front, a.left_back, a.right_back];
        ends + &beside.map(|edge| text::plain(Ok(edge))).concat()
    };
    let about_vertex = |u: usize| text::plain(if u < mesh.n { Ok(edge_of(mesh, u as u16)) } else { Err(UNKNOWN_VERTEX) });
    text::answer_lines(mesh.n, about_edge, about_vertex)
}
