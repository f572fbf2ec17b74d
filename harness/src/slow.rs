//! The slow engine, after docs/SPECIFICATION.md, sections 2 to 5. Every step searches the whole triangle list or the whole wood;
//! nothing is kept between two questions, so that nothing is shared with an engine that keeps tables.

pub const UNUSED: u16 = 65_535;
pub const FEWEST: usize = 3;
pub const MOST: usize = 1_024;

/// What is handed to the builder: n, the triangle table, the wood.
#[derive(Clone, Debug, PartialEq, Eq)]
pub struct Mesh {
    pub n: usize,
    pub triangles: Vec<[u16; 3]>,
    pub wood: Vec<u16>,
}

/// What the builder writes: references and service bytes.
#[derive(Clone, Debug, PartialEq, Eq)]
pub struct Array {
    pub n: usize,
    pub references: Vec<u16>,
    pub service: Vec<u8>,
}

/// Between the anchors run three edges, 1 to 0, 2 to 0 and 2 to 1; the other indices below 9 stand for none.
pub fn used(edge: usize) -> bool {
    edge == 3 || edge == 6 || edge == 7 || edge >= 9
}

pub fn source(edge: usize) -> u16 {
    (edge / 3) as u16
}

/// The sides of all triangles in turn, each from a corner to the one after it.
fn sides(mesh: &Mesh) -> Vec<(u16, u16)> {
    mesh.triangles.iter().flat_map(|&[a, b, c]| [(a, b), (b, c), (c, a)]).collect()
}

/// The third corner of the triangle with side a to b.
pub fn third(mesh: &Mesh, a: u16, b: u16) -> Option<u16> {
    for &[x, y, z] in &mesh.triangles {
        if (x, y) == (a, b) {
            return Some(z);
        }
        if (y, z) == (a, b) {
            return Some(x);
        }
        if (z, x) == (a, b) {
            return Some(y);
        }
    }
    None
}

/// The edge that joins a and b, whichever way it runs.
pub fn joining(mesh: &Mesh, a: u16, b: u16) -> Option<usize> {
    (0..mesh.wood.len()).find(|&e| {
        let ends = (source(e), mesh.wood[e]);
        used(e) && (ends == (a, b) || ends == (b, a))
    })
}

fn is_neighbour(mesh: &Mesh, a: u16, b: u16) -> bool {
    third(mesh, a, b).is_some() || third(mesh, b, a).is_some()
}

/// The neighbours of v once round, from `start` on: each triangle at v leads from one to the next. None where the way does not
/// come back.
fn round(mesh: &Mesh, v: u16, start: u16) -> Option<Vec<u16>> {
    let mut met = vec![start];
    let mut x = start;
    while met.len() <= mesh.triangles.len() {
        x = third(mesh, v, x)?;
        if x == start {
            return Some(met);
        }
        met.push(x);
    }
    None
}

/// The number of the first test that applies, 0 where the mesh is accepted. A test has seen all of the input before the next one
/// begins (docs/SPECIFICATION.md, section 4).
pub fn verdict(mesh: &Mesh) -> u8 {
    let tests: [fn(&Mesh) -> bool; 13] = [
        size_out_of_range,
        wrong_length,
        high_corner,
        equal_corners,
        side_twice,
        no_reverse,
        no_outer_triangle,
        turn_misses,
        wrong_index,
        wrong_pair,
        anchor_rule_broken,
        turn_rule_broken,
        path_rule_broken,
    ];
    tests.iter().position(|applies| applies(mesh)).map_or(0, |k| k as u8 + 1)
}

/// 1: too few vertices or too many.
fn size_out_of_range(mesh: &Mesh) -> bool {
    mesh.n < FEWEST || mesh.n > MOST
}

/// 2: a table that is shorter or longer than n vertices need.
fn wrong_length(mesh: &Mesh) -> bool {
    mesh.triangles.len() != 2 * mesh.n - 4 || mesh.wood.len() != 3 * mesh.n
}

/// 3: a corner that is no vertex.
fn high_corner(mesh: &Mesh) -> bool {
    mesh.triangles.iter().flatten().any(|&corner| corner as usize >= mesh.n)
}

/// 4: a triangle with a corner twice.
fn equal_corners(mesh: &Mesh) -> bool {
    mesh.triangles.iter().any(|&[a, b, c]| a == b || b == c || c == a)
}

/// 5: two sides with the same start and end.
fn side_twice(mesh: &Mesh) -> bool {
    let all = sides(mesh);
    (0..all.len()).any(|k| all[..k].contains(&all[k]))
}

/// 6: a side that no triangle has the other way round.
fn no_reverse(mesh: &Mesh) -> bool {
    let all = sides(mesh);
    all.iter().any(|&(a, b)| !all.contains(&(b, a)))
}

/// 7: the outer triangle is missing, whichever of its corners it might begin with.
fn no_outer_triangle(mesh: &Mesh) -> bool {
    !mesh.triangles.iter().any(|t| [[0, 2, 1], [2, 1, 0], [1, 0, 2]].contains(t))
}

/// 8: a vertex without a triangle, or one whose triangles are not all passed on the way round it.
fn turn_misses(mesh: &Mesh) -> bool {
    (0..mesh.n as u16).any(|v| {
        let own: Vec<&[u16; 3]> = mesh.triangles.iter().filter(|t| t.contains(&v)).collect();
        let Some(first) = own.first() else { return true };
        let place = first.iter().position(|&corner| corner == v).unwrap();
        round(mesh, v, first[(place + 1) % 3]).map_or(0, |met| met.len()) != own.len()
    })
}

/// 9: the anchors' nine places are not as they must be, or a target is no vertex.
fn wrong_index(mesh: &Mesh) -> bool {
    let anchors = [UNUSED, UNUSED, UNUSED, 0, UNUSED, UNUSED, 0, 1, UNUSED];
    mesh.wood[..9] != anchors || mesh.wood[9..].iter().any(|&target| target as usize >= mesh.n)
}

/// 10: an edge along no side, or along another edge.
fn wrong_pair(mesh: &Mesh) -> bool {
    let pair = |e: usize| (source(e).min(mesh.wood[e]), source(e).max(mesh.wood[e]));
    let edges: Vec<usize> = (0..mesh.wood.len()).filter(|&e| used(e)).collect();
    edges.iter().any(|&e| !is_neighbour(mesh, source(e), mesh.wood[e]))
        || edges.iter().any(|&e| edges.iter().any(|&d| d < e && pair(d) == pair(e)))
}

/// 11: an inner vertex sends an anchor an edge of another colour than the anchor's number.
fn anchor_rule_broken(mesh: &Mesh) -> bool {
    (9..mesh.wood.len()).any(|e| mesh.wood[e] < 3 && e % 3 != mesh.wood[e] as usize)
}

/// An edge as its end v sees it: it leaves v or comes in, with its colour.
#[derive(Clone, Copy, PartialEq, Eq)]
enum Seen {
    Out(usize),
    In(usize),
}

/// 12, at each inner vertex.
fn turn_rule_broken(mesh: &Mesh) -> bool {
    (3..mesh.n as u16).any(|v| {
        let Some(met) = round(mesh, v, mesh.wood[3 * v as usize]) else { return true };
        let seen: Option<Vec<Seen>> = met.iter().map(|&x| see(mesh, v, x)).collect();
        seen.is_none_or(|seen| !follows_turn_rule(&seen))
    })
}

fn see(mesh: &Mesh, v: u16, x: u16) -> Option<Seen> {
    let edge = joining(mesh, v, x)?;
    Some(if source(edge) == v { Seen::Out(edge % 3) } else { Seen::In(edge % 3) })
}

/// From the edge out of colour c to the one of colour c+1 there are only edges in, all of colour c+2.
fn follows_turn_rule(seen: &[Seen]) -> bool {
    let mut rest = seen;
    for (out, coming) in [(0, 2), (1, 0), (2, 1)] {
        if rest.first() != Some(&Seen::Out(out)) {
            return false;
        }
        rest = &rest[1..];
        while rest.first() == Some(&Seen::In(coming)) {
            rest = &rest[1..];
        }
    }
    rest.is_empty()
}

/// 13: a path of one colour that does not lead to its anchor.
fn path_rule_broken(mesh: &Mesh) -> bool {
    (3..mesh.n).any(|v| (0..3).any(|c| path_end(mesh, v, c) != Some(c)))
}

/// The first anchor on the way from v along colour c; None where n steps meet none.
fn path_end(mesh: &Mesh, v: usize, c: usize) -> Option<usize> {
    let mut at = v;
    for _ in 0..mesh.n {
        at = mesh.wood[3 * at + c] as usize;
        if at < 3 {
            return Some(at);
        }
    }
    None
}

/// The two ends of edge j and the third corners beside it.
struct Beside {
    u: u16,
    v: u16,
    w: u16,
    z: u16,
}

/// w is across the triangle on the left of the edge, z across the one on its right.
fn beside(mesh: &Mesh, j: usize) -> Beside {
    let (u, v) = (source(j), mesh.wood[j]);
    let corner = |a, b| third(mesh, a, b).expect("each side of an accepted mesh has its triangle");
    Beside { u, v, w: corner(u, v), z: corner(v, u) }
}

fn joins(mesh: &Mesh, a: u16, b: u16) -> usize {
    joining(mesh, a, b).expect("each side of an accepted mesh has its edge")
}

/// All that may be asked about one edge, as the triangles give it.
#[derive(Clone, Debug, PartialEq, Eq)]
pub struct Answers {
    pub source: u16,
    pub target: u16,
    pub reads: usize,
    pub left_front: usize,
    pub right_front: usize,
    pub left_back: usize,
    pub right_back: usize,
}

/// A neighbouring edge is found by the two corners that it joins: w on the left and z on the right, with the target v in front and
/// the source u at the back.
pub fn answers(mesh: &Mesh, j: usize) -> Answers {
    let Beside { u, v, w, z } = beside(mesh, j);
    Answers {
        source: u,
        target: v,
        reads: reads(mesh, j),
        left_front: joins(mesh, v, w),
        right_front: joins(mesh, v, z),
        left_back: joins(mesh, u, w),
        right_back: joins(mesh, u, z),
    }
}

/// The edge that stands for u: of the edges between u and the other corners of its triangles the lowest that leaves u; at 0, which
/// none leaves, the lowest of all.
pub fn edge_of(mesh: &Mesh, u: u16) -> usize {
    let corners = mesh.triangles.iter().filter(|t| t.contains(&u)).flatten();
    let edges: Vec<usize> = corners.filter(|&&x| x != u).map(|&x| joins(mesh, u, x)).collect();
    let leaving = edges.iter().filter(|&&e| source(e) == u).min();
    *leaving.or(edges.iter().min()).expect("each vertex of an accepted mesh is in a triangle")
}

/// Steps clockwise round the target v of j, to the other end of the edge that tells v: edge 3 at anchor 0, edge 7 at anchor 1,
/// elsewhere the edge of colour c+1 that leaves v.
fn reads(mesh: &Mesh, j: usize) -> usize {
    let v = mesh.wood[j];
    let end = match v {
        0 => source(3),
        1 => source(7),
        _ => mesh.wood[3 * v as usize + (j + 1) % 3],
    };
    let (mut x, mut steps) = (source(j), 0);
    while x != end {
        x = third(mesh, x, v).expect("each side of an accepted mesh has its triangle");
        steps += 1;
    }
    steps
}

/// The array of a mesh whose sides all have their edges (docs/SPECIFICATION.md, section 5).
pub fn build(mesh: &Mesh) -> Array {
    let mut references = vec![UNUSED; 6 * mesh.n];
    let mut service = vec![0; 3 * mesh.n];
    for j in (0..3 * mesh.n).filter(|&j| used(j)) {
        let Beside { u, v, w, z } = beside(mesh, j);
        references[2 * j] = joins(mesh, v, w) as u16;
        references[2 * j + 1] = joins(mesh, v, z) as u16;
        let left = source(joins(mesh, u, w)) == u;
        let right = source(joins(mesh, u, z)) == u;
        service[j] = left as u8 + 2 * right as u8;
    }
    Array { n: mesh.n, references, service }
}
