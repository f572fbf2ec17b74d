//! Rebuilding by another way than the engine's: targets by the RightFronts alone, triangles gathered from both hands of every
//! edge and counted, and 18 wherever the mesh so found is not accepted or has another reference array.

use crate::slow::{build, joining, source, used, verdict, Mesh, FEWEST, MOST, UNUSED};

pub const NO_MESH: u8 = 18;

/// The mesh whose references these are, its triangles in rebuilding's order; else 1, 2 or 18.
pub fn rebuild(n: usize, references: &[u16]) -> Result<Mesh, u8> {
    if !(FEWEST..=MOST).contains(&n) {
        return Err(1);
    }
    if references.len() != 6 * n {
        return Err(2);
    }
    let found = decode(n, references).ok_or(NO_MESH)?;
    if verdict(&found) == 0 && build(&found).references == references {
        Ok(in_order(&found))
    } else {
        Err(NO_MESH)
    }
}

fn decode(n: usize, references: &[u16]) -> Option<Mesh> {
    let mut wood = vec![UNUSED; 3 * n];
    for j in (0..3 * n).filter(|&j| used(j)) {
        wood[j] = head(n, references, j)?;
    }
    let mut beside = Vec::new();
    for j in (0..3 * n).filter(|&j| used(j)) {
        let (u, v) = (source(j), wood[j]);
        beside.push(turned([u, v, far_end(&wood, references[2 * j], v)?]));
        beside.push(turned([v, u, far_end(&wood, references[2 * j + 1], v)?]));
    }
    beside.sort_unstable();
    // A triangle is beside each of its three edges.
    let thrice = beside.chunks(3).all(|three| three.len() == 3 && three.iter().all(|t| t == &three[0]));
    let triangles: Vec<[u16; 3]> = beside.chunks(3).map(|three| three[0]).collect();
    thrice.then_some(Mesh { n, triangles, wood })
}

/// The target of j. RightFront goes counterclockwise round it, over edges that come in with colour c, to the edge of colour
/// c+2 that leaves it; at anchor 0, which no edge leaves, to edge 6.
fn head(n: usize, references: &[u16], j: usize) -> Option<u16> {
    let c = j % 3;
    let mut e = j;
    for _ in 0..n {
        if e == 6 {
            return Some(0);
        }
        if e % 3 == (c + 2) % 3 {
            return Some(source(e));
        }
        let next = references[2 * e + 1] as usize;
        if e % 3 != c || !used(next) || next >= 3 * n {
            return None;
        }
        e = next;
    }
    None
}

/// The end of `edge` that is not v; None where it is no edge or does not end at v.
fn far_end(wood: &[u16], edge: u16, v: u16) -> Option<u16> {
    let edge = edge as usize;
    if !used(edge) || edge >= wood.len() {
        return None;
    }
    match (source(edge), wood[edge]) {
        (a, b) if a == v => Some(b),
        (a, b) if b == v => Some(a),
        _ => None,
    }
}

/// The same triangle, its lowest corner first.
pub fn turned([a, b, c]: [u16; 3]) -> [u16; 3] {
    let low = a.min(b).min(c);
    if a == low {
        [a, b, c]
    } else if b == low {
        [b, c, a]
    } else {
        [c, a, b]
    }
}

/// The order that a rebuild writes in (docs/SPECIFICATION.md, section 9): a triangle's place is its lowest edge and the hand on which
/// it lies there, left first; it begins with the side along that edge.
fn in_order(mesh: &Mesh) -> Mesh {
    let mut places: Vec<(usize, bool, [u16; 3])> = mesh.triangles.iter().map(|&t| placed(mesh, t)).collect();
    places.sort_unstable();
    Mesh { triangles: places.into_iter().map(|(_, _, t)| t).collect(), ..mesh.clone() }
}

/// A triangle's smallest edge, whether it lies to the right of it, and the triangle begun at that side.
fn placed(mesh: &Mesh, [a, b, c]: [u16; 3]) -> (usize, bool, [u16; 3]) {
    let begun = [[a, b, c], [b, c, a], [c, a, b]];
    let edges = begun.map(|[x, y, _]| joining(mesh, x, y).expect("each side of an accepted mesh has its edge"));
    let lowest = *edges.iter().min().unwrap();
    let place = edges.iter().position(|&e| e == lowest).unwrap();
    (lowest, begun[place][0] != source(lowest), begun[place])
}
