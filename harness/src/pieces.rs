//! The specification's pieces (docs/SPECIFICATION.md, section 13), with the number that each has to meet.

use crate::slow::{Mesh, UNUSED};

const ANCHORS: [u16; 9] = [UNUSED, UNUSED, UNUSED, 0, UNUSED, UNUSED, 0, 1, UNUSED];

/// The four-vertex piece as house text, and all that `meshlines` writes for it (docs/SPECIFICATION.md, section 12).
pub const EXAMPLE: (&str, &str) = (
    "00004\n01000002001\n01000001003\n01001002003\n01002000003\n02000001002\n",
    "00004\n030030060090\n030060090032\n0300700300A1\n030090030063\n0300A0070033\n0300B0060073\n",
);

pub struct Piece {
    pub name: &'static str,
    pub mesh: Mesh,
    /// The number that it meets; 0 where it is accepted.
    pub number: u8,
}

fn mesh(n: usize, triangles: &[[u16; 3]], targets: &[[u16; 3]]) -> Mesh {
    let wood = ANCHORS.into_iter().chain(targets.iter().flatten().copied()).collect();
    Mesh { n, triangles: triangles.to_vec(), wood }
}

const FOUR: [[u16; 3]; 4] = [[0, 2, 1], [0, 1, 3], [1, 2, 3], [2, 0, 3]];
const SIX: [[u16; 3]; 8] = [[0, 2, 1], [1, 2, 3], [2, 0, 3], [0, 1, 4], [3, 0, 4], [1, 3, 5], [3, 4, 5], [4, 1, 5]];

pub fn four() -> Mesh {
    mesh(4, &FOUR, &[[0, 1, 2]])
}

pub fn three() -> Mesh {
    mesh(3, &[[0, 1, 2], [0, 2, 1]], &[])
}

pub fn six() -> Mesh {
    mesh(6, &SIX, &[[0, 1, 2], [0, 1, 3], [4, 1, 3]])
}

/// The anchors' triangle and its back; beside them, joined to neither, a torus of seven vertices, each a neighbour of all the others,
/// whose paths go round for ever.
pub fn ring_apart() -> Mesh {
    let at = |i: u16| i % 7 + 3;
    let mut triangles = vec![[0, 1, 2], [0, 2, 1]];
    triangles.extend((0..7).flat_map(|i| [[at(i), at(i + 1), at(i + 3)], [at(i), at(i + 3), at(i + 2)]]));
    let targets: Vec<[u16; 3]> = (0..7).map(|i| [at(i + 1), at(i + 2), at(i + 4)]).collect();
    mesh(10, &triangles, &targets)
}

fn ring_with_a_triangle_elsewhere() -> Mesh {
    let mut piece = ring_apart();
    let place = piece.triangles.iter().position(|t| t == &[3, 4, 6]).expect("the ring's first triangle");
    piece.triangles[place] = [0, 3, 4];
    piece
}

/// Two octahedra that hang together at two opposite corners, 0 and 3, and nowhere else.
fn two_octahedra() -> Mesh {
    let mut triangles = Vec::new();
    for ring in [[2, 1, 4, 5], [6, 7, 8, 9]] {
        for k in 0..4 {
            triangles.push([0, ring[k], ring[(k + 1) % 4]]);
            triangles.push([3, ring[(k + 1) % 4], ring[k]]);
        }
    }
    mesh(10, &triangles, &[[0, 1, 2]; 7])
}

pub fn all() -> Vec<Piece> {
    let piece = |name, mesh, number| Piece { name, mesh, number };
    vec![
        piece("four vertices", four(), 0),
        piece("P5", three(), 0),
        piece("P6, two", Mesh { n: 2, ..three() }, 1),
        piece("P6, 1,025", Mesh { n: 1_025, ..three() }, 1),
        piece("P7", mesh(4, &FOUR, &[[1, 0, 2]]), 11),
        piece("P8", mesh(4, &[[0, 1, 2], [0, 3, 1], [1, 3, 2], [2, 3, 0]], &[[0, 1, 2]]), 7),
        piece("P9", six(), 0),
        piece("P10", mesh(6, &SIX, &[[0, 1, 2], [0, 1, 3], [3, 1, 4]]), 12),
        piece("a ring apart", ring_apart(), 13),
        piece("a ring apart, a triangle elsewhere", ring_with_a_triangle_elsewhere(), 6),
        piece("two octahedra", two_octahedra(), 8),
    ]
}
