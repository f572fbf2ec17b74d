//! What is compared: each case is a program, an input and what the slow engine says of it.

use crate::damage::{aimed, damaged, damaged_in_place, wild};
use crate::generate::{accepted, of_family, small_size};
use crate::oracle::{answers_of, expected, Program};
use crate::pieces;
use crate::rebuild::{rebuild, turned};
use crate::rng::Rng;
use crate::slow::{build, verdict, Mesh, MOST};
use crate::sphere::FAMILIES;
use crate::spoil::{spoil, WAYS};
use crate::text::{refusal, write_array, write_mesh};
use crate::torn::{torn, TORN_KINDS};

pub struct Case {
    pub program: Program,
    pub input: Vec<u8>,
    pub expected: Vec<u8>,
}

#[derive(Clone, Copy, PartialEq, Eq, Debug)]
pub enum Kind {
    Piece,
    Large,
    Accepted,
    Damaged,
    HouseText,
    Torn,
    ArrayText,
}

impl Kind {
    pub fn name(self) -> &'static str {
        match self {
            Kind::Piece => "pieces of the specification",
            Kind::Large => "meshes of 1,024 vertices",
            Kind::Accepted => "accepted meshes",
            Kind::Damaged => "damaged meshes",
            Kind::HouseText => "damaged house texts",
            Kind::Torn => "torn arrays",
            Kind::ArrayText => "damaged array texts",
        }
    }
}

/// What a kind and an index stand for.
pub fn label(kind: Kind, index: usize) -> String {
    match pieces::all().get(index) {
        Some(piece) if kind == Kind::Piece => format!("{}: {}", kind.name(), piece.name),
        _ => format!("{}: number {index}", kind.name()),
    }
}

/// Of the accepted meshes and the damaged array texts, `answers` sees one in so many and `rebuildlines` another; it also sees one
/// torn array in so many. `meshlines` sees every mesh and `answers` every torn array.
const ONE_IN: usize = 2;

/// The cases that this seed, kind and index give, always the same ones.
pub fn make(seed: u64, kind: Kind, index: usize) -> Vec<Case> {
    let mut rng = Rng::new(seed, index as u64 * 16 + kind as u64);
    match kind {
        Kind::Piece => piece(index),
        Kind::Large => large(&mut rng, index),
        Kind::Accepted => {
            let n = small_size(&mut rng);
            let mesh = accepted(&mut rng, n);
            shared(of_accepted(&mesh), index)
        }
        Kind::Damaged => {
            let mesh = match index % 5 {
                0 => wild(&mut rng),
                1 | 2 => damaged(&mut rng, index / 5),
                _ => aimed(&mut rng, (index / 5 % 13) as u8 + 1),
            };
            vec![asked(Program::Meshlines, write_mesh(&mesh))]
        }
        Kind::HouseText => house_text(&mut rng, index),
        Kind::Torn => torn_array(&mut rng, index),
        Kind::ArrayText => shared(array_text(&mut rng, index), index / WAYS),
    }
}

/// Leaves out `answers` or `rebuildlines`, by turns.
fn shared(mut cases: Vec<Case>, index: usize) -> Vec<Case> {
    let out = if index % ONE_IN == 0 { Program::Rebuildlines } else { Program::Answers };
    cases.retain(|case| case.program != out);
    cases
}

fn asked(program: Program, input: Vec<u8>) -> Case {
    let expected = expected(program, &input);
    Case { program, input, expected }
}

/// An accepted mesh, built, asked about and rebuilt. The slow engine has to agree with itself: what it reads from the array is
/// what the triangles say, and the rebuild has the wood that was given.
fn of_accepted(mesh: &Mesh) -> Vec<Case> {
    assert_eq!(verdict(mesh), 0, "the generator made a mesh that is not accepted:\n{}", shown(mesh));
    let array = build(mesh);
    let text = write_array(&array);
    let about = asked(Program::Answers, text.clone());
    assert!(about.expected == answers_of(mesh), "the readings differ from the triangles:\n{}", shown(mesh));
    let back = rebuild(mesh.n, &array.references).expect("an accepted mesh has its array");
    assert!(same_mesh(&back, mesh), "the rebuild differs from the mesh:\n{}", shown(mesh));
    vec![
        Case { program: Program::Meshlines, input: write_mesh(mesh), expected: text.clone() },
        about,
        Case { program: Program::Rebuildlines, input: text, expected: write_mesh(&back) },
    ]
}

/// The same wood and the same triangles, order and turning aside.
fn same_mesh(a: &Mesh, b: &Mesh) -> bool {
    let sorted = |mesh: &Mesh| {
        let mut all: Vec<[u16; 3]> = mesh.triangles.iter().map(|&t| turned(t)).collect();
        all.sort_unstable();
        all
    };
    a.n == b.n && a.wood == b.wood && sorted(a) == sorted(b)
}

fn shown(mesh: &Mesh) -> String {
    String::from_utf8_lossy(&write_mesh(mesh)).into_owned()
}

fn piece(index: usize) -> Vec<Case> {
    let all = pieces::all();
    if index == all.len() {
        let (input, output) = pieces::EXAMPLE;
        return vec![Case { program: Program::Meshlines, input: input.into(), expected: output.into() }];
    }
    let piece = &all[index];
    match piece.number {
        0 => of_accepted(&piece.mesh),
        number => vec![Case { program: Program::Meshlines, input: write_mesh(&piece.mesh), expected: refusal(number) }],
    }
}

/// Each family in turn; every fourth mesh damaged.
fn large(rng: &mut Rng, index: usize) -> Vec<Case> {
    let mut mesh = of_family(rng, MOST, index % FAMILIES.len());
    if index % 4 < 3 {
        return of_accepted(&mesh);
    }
    damaged_in_place(rng, &mut mesh);
    vec![asked(Program::Meshlines, write_mesh(&mesh))]
}

fn house_text(rng: &mut Rng, index: usize) -> Vec<Case> {
    let n = rng.between(3, 20);
    let mut text = write_mesh(&accepted(rng, n));
    spoil(rng, &mut text, index);
    vec![asked(Program::Meshlines, text)]
}

fn torn_array(rng: &mut Rng, index: usize) -> Vec<Case> {
    let text = write_array(&torn(rng, index));
    let mut cases = vec![asked(Program::Answers, text.clone())];
    // By rows of kinds, so that each kind is rebuilt.
    if index / TORN_KINDS % ONE_IN == 0 {
        cases.push(asked(Program::Rebuildlines, text));
    }
    cases
}

fn array_text(rng: &mut Rng, index: usize) -> Vec<Case> {
    let n = rng.between(3, 20);
    let mut text = write_array(&build(&accepted(rng, n)));
    spoil(rng, &mut text, index);
    vec![asked(Program::Answers, text.clone()), asked(Program::Rebuildlines, text)]
}
