//! The benchmark's baseline: the engine's own algorithm in plain Rust, with nothing proved. It is not the second implementation
//! (that is slow.rs); harness/plain/plain.c is the same in C.

use crate::slow::{Array, Mesh, FEWEST, MOST, UNUSED};

/// Positions of sides are 3t+k; the reverse of each, and the position of each edge's side.
struct Tables {
    twins: Vec<u16>,
    places: Vec<u16>,
}

/// Checks and builds; an error is the number met.
pub fn build(mesh: &Mesh) -> Result<Array, u8> {
    let (n, ws) = (mesh.n, &mesh.wood[..]);
    if !(FEWEST..=MOST).contains(&n) {
        return Err(1);
    }
    let ts = mesh.triangles.concat();
    if ts.len() != 6 * n - 12 || ws.len() != 3 * n {
        return Err(2);
    }
    let twins = check_triangles(n, &ts)?;
    let places = check_wood(n, &ts, ws, &twins)?;
    Ok(fill(n, &ts, ws, &Tables { twins, places }))
}

fn next(p: usize) -> usize {
    3 * (p / 3) + (p + 1) % 3
}

fn find_side(ts: &[u16], a: u16, b: u16) -> usize {
    for (t, tri) in ts.chunks_exact(3).enumerate() {
        let (x, y, z) = (tri[0], tri[1], tri[2]);
        if x == a && y == b {
            return 3 * t;
        }
        if y == a && z == b {
            return 3 * t + 1;
        }
        if z == a && x == b {
            return 3 * t + 2;
        }
    }
    ts.len()
}

/// 3 to 8.
fn check_triangles(n: usize, ts: &[u16]) -> Result<Vec<u16>, u8> {
    if ts.iter().any(|&corner| corner as usize >= n) {
        return Err(3);
    }
    if (0..ts.len()).any(|p| ts[p] == ts[next(p)]) {
        return Err(4);
    }
    if (0..ts.len()).any(|p| find_side(ts, ts[p], ts[next(p)]) < p) {
        return Err(5);
    }
    let mut twins = vec![UNUSED; ts.len()];
    for p in 0..ts.len() {
        let q = find_side(ts, ts[next(p)], ts[p]);
        if q == ts.len() {
            return Err(6);
        }
        twins[p] = q as u16;
    }
    let outer = find_side(ts, 0, 2);
    if outer == ts.len() || ts[next(next(outer))] != 1 {
        return Err(7);
    }
    if turn_misses(n, ts, &twins) {
        return Err(8);
    }
    Ok(twins)
}

/// The position of the side to the next neighbour round the source of the side at p.
fn turn(twins: &[u16], p: usize) -> usize {
    twins[next(next(p))] as usize
}

fn turn_misses(n: usize, ts: &[u16], twins: &[u16]) -> bool {
    let (mut first, mut count) = (vec![ts.len(); n], vec![0; n]);
    for p in (0..ts.len()).rev() {
        first[ts[p] as usize] = p;
        count[ts[p] as usize] += 1;
    }
    (0..n).any(|v| {
        if count[v] == 0 {
            return true;
        }
        let (mut p, mut met) = (turn(twins, first[v]), 1);
        while p != first[v] {
            p = turn(twins, p);
            met += 1;
        }
        met != count[v]
    })
}

fn used(e: usize) -> bool {
    e >= 9 || e == 3 || e == 6 || e == 7
}

/// 9 to 13.
fn check_wood(n: usize, ts: &[u16], ws: &[u16], twins: &[u16]) -> Result<Vec<u16>, u8> {
    if ws[..9] != [UNUSED, UNUSED, UNUSED, 0, UNUSED, UNUSED, 0, 1, UNUSED] || ws[9..].iter().any(|&v| v as usize >= n) {
        return Err(9);
    }
    let mut places = vec![UNUSED; 3 * n];
    for p in 0..ts.len() {
        let (out, b) = (3 * ts[p] as usize, ts[next(p)]);
        for e in out..out + 3 {
            if ws[e] == b {
                places[e] = p as u16;
            }
        }
    }
    if (0..3 * n).any(|e| used(e) && (places[e] == UNUSED || pair_taken(ws, e))) {
        return Err(10);
    }
    if (9..3 * n).any(|e| ws[e] < 3 && e % 3 != ws[e] as usize) {
        return Err(11);
    }
    if (3..n).any(|v| (0..3).any(|c| !turn_holds(ts, ws, twins, places[3 * v] as usize, c))) {
        return Err(12);
    }
    if (0..3).any(|c| path_broken(n, ws, c)) {
        return Err(13);
    }
    Ok(places)
}

fn pair_taken(ws: &[u16], e: usize) -> bool {
    let (u, v) = ((e / 3) as u16, ws[e]);
    let out = 3 * u as usize;
    let back = 3 * v as usize;
    (out..e).any(|d| ws[d] == v) || (back..back + 3).any(|d| d < e && used(d) && ws[d] == u)
}

fn edge_between(ws: &[u16], a: u16, b: u16) -> usize {
    let (out, back) = (3 * a as usize, 3 * b as usize);
    (out..out + 3).find(|&e| ws[e] == b).unwrap_or_else(|| (back..back + 3).find(|&e| ws[e] == a).unwrap_or(UNUSED as usize))
}

/// The colour of the edge that leaves a for b.
fn colour_to(ws: &[u16], a: u16, b: u16) -> Option<usize> {
    (0..3).find(|c| ws[3 * a as usize + c] == b)
}

/// The neighbours `here` and then `there` of v keep the turn rule as far as it is sector c's: from the edge out of colour c, over
/// edges into v of colour c+2, to the edge out of colour c+1.
fn neighbours_keep(ws: &[u16], v: u16, c: usize, here: u16, there: u16) -> bool {
    let sector = colour_to(ws, v, here).or_else(|| colour_to(ws, here, v).map(|into| (into + 1) % 3));
    if sector != Some(c) {
        return sector.is_some();
    }
    match colour_to(ws, v, there) {
        Some(out) => out == (c + 1) % 3,
        None => colour_to(ws, there, v) == Some((c + 2) % 3),
    }
}

/// One whole turn round v for each sector.
fn turn_holds(ts: &[u16], ws: &[u16], twins: &[u16], start: usize, c: usize) -> bool {
    let mut p = start;
    loop {
        let q = turn(twins, p);
        if !neighbours_keep(ws, ts[start], c, ts[next(p)], ts[next(q)]) {
            return false;
        }
        if q == start {
            return true;
        }
        p = q;
    }
}

fn path_broken(n: usize, ws: &[u16], c: usize) -> bool {
    let mut ends = vec![false; n];
    for v in 3..n {
        let (mut u, mut steps) = (v, 0);
        while u >= 3 && !ends[u] && steps < n {
            u = ws[3 * u + c] as usize;
            steps += 1;
        }
        if u < 3 && u != c || u >= 3 && !ends[u] {
            return true;
        }
        u = v;
        while u >= 3 && !ends[u] {
            ends[u] = true;
            u = ws[3 * u + c] as usize;
        }
    }
    false
}

fn fill(n: usize, ts: &[u16], ws: &[u16], tables: &Tables) -> Array {
    let mut array = Array { n, references: vec![UNUSED; 6 * n], service: vec![0; 3 * n] };
    for j in (0..3 * n).filter(|&j| used(j)) {
        let (u, v, p) = ((j / 3) as u16, ws[j], tables.places[j] as usize);
        for (hand, side) in [p, tables.twins[p] as usize].into_iter().enumerate() {
            let corner = ts[next(next(side))];
            array.references[2 * j + hand] = edge_between(ws, v, corner) as u16;
            array.service[j] |= ((edge_between(ws, u, corner) / 3 == u as usize) as u8) << hand;
        }
    }
    array
}
