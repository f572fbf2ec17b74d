//! Damaged meshes: each kind aims at one number of the table, and several may meet in one mesh. What a damaged mesh really meets
//! is the slow engine's to say.

use crate::generate::{accepted, shuffle_table, small_size};
use crate::rng::Rng;
use crate::slow::{verdict, Mesh, MOST};

type Damage = fn(&mut Rng, &mut Mesh);

/// The first damage of the wood among these; those before it are the triangles'.
const FIRST_OF_WOOD: usize = 15;

const DAMAGES: [Damage; 22] = [
    size,
    other_size,
    triangle_count,
    vertex_count,
    high_corner,
    equal_corners,
    triangle_twice,
    turned_over,
    other_corner,
    strange_triangle,
    mirrored,
    anchor_elsewhere,
    pinched,
    made_one,
    handle,
    high_target,
    strange_target,
    pair_twice,
    own_target,
    colours_exchanged,
    ring_reversed,
    torus_apart,
];

/// A mesh with one damage, often more; the first damage goes by `kind`, so that all are met in turn.
pub fn damaged(rng: &mut Rng, kind: usize) -> Mesh {
    let n = small_size(rng);
    let mut mesh = accepted(rng, n);
    DAMAGES[kind % DAMAGES.len()](rng, &mut mesh);
    let more = rng.pick(&[0, 0, 0, 1, 1, 2, 3]);
    for _ in 0..more {
        rng.pick(&DAMAGES)(rng, &mut mesh);
    }
    shuffle_table(rng, &mut mesh);
    mesh
}

/// A damaged mesh that meets this number, from 1 to 13; any damaged mesh where many tries give none.
pub fn aimed(rng: &mut Rng, number: u8) -> Mesh {
    for _ in 0..200 {
        let kind = if number < 9 { rng.below(FIRST_OF_WOOD) } else { rng.between(FIRST_OF_WOOD, DAMAGES.len() - 1) };
        let mesh = damaged(rng, kind);
        if verdict(&mesh) == number {
            return mesh;
        }
    }
    damaged(rng, 0)
}

/// One damage of a given mesh whose size must stay: only kinds that change neither n nor the counts.
pub fn damaged_in_place(rng: &mut Rng, mesh: &mut Mesh) {
    let kinds = [
        high_corner as Damage,
        equal_corners,
        triangle_twice,
        other_corner,
        mirrored,
        made_one,
        high_target,
        pair_twice,
        colours_exchanged,
        ring_reversed,
    ];
    rng.pick(&kinds)(rng, mesh);
}

/// Few vertices, every number by chance.
pub fn wild(rng: &mut Rng) -> Mesh {
    let n = rng.between(3, 6);
    let mut mesh = accepted(rng, n);
    let top = n + rng.below(2);
    for triangle in &mut mesh.triangles {
        if rng.percent(30) {
            *triangle = [rng.below(top) as u16, rng.below(top) as u16, rng.below(top) as u16];
        }
    }
    for target in &mut mesh.wood[9..] {
        if rng.percent(30) {
            *target = rng.below(top) as u16;
        }
    }
    mesh
}

fn vertex(rng: &mut Rng, mesh: &Mesh) -> u16 {
    rng.below(mesh.n.max(1)) as u16
}

fn size(rng: &mut Rng, mesh: &mut Mesh) {
    mesh.n = rng.pick(&[0, 1, 2, MOST + 1, MOST + 2, 2048, 4095]);
}

fn other_size(rng: &mut Rng, mesh: &mut Mesh) {
    mesh.n = match rng.below(4) {
        0 => mesh.n + 1,
        1 => mesh.n.saturating_sub(1),
        2 => MOST,
        _ => rng.between(3, 70),
    };
}

fn triangle_count(rng: &mut Rng, mesh: &mut Mesh) {
    if rng.percent(50) {
        mesh.triangles.pop();
    } else {
        let corners = [vertex(rng, mesh), vertex(rng, mesh), vertex(rng, mesh)];
        mesh.triangles.push(corners);
    }
}

fn vertex_count(rng: &mut Rng, mesh: &mut Mesh) {
    if rng.percent(50) && mesh.wood.len() > 9 {
        mesh.wood.truncate(mesh.wood.len() - 3);
    } else {
        let targets = [vertex(rng, mesh), vertex(rng, mesh), vertex(rng, mesh)];
        mesh.wood.extend(targets);
    }
}

/// The place of some triangle; None where there is none.
fn some_triangle(rng: &mut Rng, mesh: &Mesh) -> Option<usize> {
    (!mesh.triangles.is_empty()).then(|| rng.below(mesh.triangles.len()))
}

/// Some edge of an inner vertex; None where there is none.
fn some_edge(rng: &mut Rng, mesh: &Mesh) -> Option<usize> {
    (mesh.wood.len() > 9).then(|| rng.between(9, mesh.wood.len() - 1))
}

fn high_number(rng: &mut Rng, mesh: &Mesh) -> u16 {
    let n = mesh.n.min(4095) as u16;
    rng.pick(&[n, n, (n + 1).min(4095), 4095, 1024.max(n)])
}

fn high_corner(rng: &mut Rng, mesh: &mut Mesh) {
    if let Some(t) = some_triangle(rng, mesh) {
        mesh.triangles[t][rng.below(3)] = high_number(rng, mesh);
    }
}

fn equal_corners(rng: &mut Rng, mesh: &mut Mesh) {
    if let Some(t) = some_triangle(rng, mesh) {
        let k = rng.below(3);
        mesh.triangles[t][k] = mesh.triangles[t][(k + 1 + rng.below(2)) % 3];
    }
}

fn triangle_twice(rng: &mut Rng, mesh: &mut Mesh) {
    if let (Some(t), Some(s)) = (some_triangle(rng, mesh), some_triangle(rng, mesh)) {
        mesh.triangles[t] = mesh.triangles[s];
    }
}

fn turned_over(rng: &mut Rng, mesh: &mut Mesh) {
    if let Some(t) = some_triangle(rng, mesh) {
        mesh.triangles[t].swap(1, 2);
    }
}

fn other_corner(rng: &mut Rng, mesh: &mut Mesh) {
    if let Some(t) = some_triangle(rng, mesh) {
        mesh.triangles[t][rng.below(3)] = vertex(rng, mesh);
    }
}

fn strange_triangle(rng: &mut Rng, mesh: &mut Mesh) {
    if let Some(t) = some_triangle(rng, mesh) {
        mesh.triangles[t] = [vertex(rng, mesh), vertex(rng, mesh), vertex(rng, mesh)];
    }
}

fn mirrored(_: &mut Rng, mesh: &mut Mesh) {
    for triangle in &mut mesh.triangles {
        triangle.swap(1, 2);
    }
}

/// Exchanges an anchor with another vertex, in the triangles alone.
fn anchor_elsewhere(rng: &mut Rng, mesh: &mut Mesh) {
    let (x, y) = (rng.below(3) as u16, vertex(rng, mesh));
    let other = |v: u16| {
        if v == x {
            y
        } else if v == y {
            x
        } else {
            v
        }
    };
    for triangle in &mut mesh.triangles {
        *triangle = triangle.map(other);
    }
}

/// Adds the vertices of a second mesh, all but two, which are two of the first.
fn pinched(rng: &mut Rng, mesh: &mut Mesh) {
    let size = rng.between(4, 12);
    let second = accepted(rng, size);
    let (x, y) = (vertex(rng, mesh), vertex(rng, mesh));
    let (p, q) = (vertex(rng, &second), vertex(rng, &second));
    if p == q || mesh.n < 3 || mesh.n > 80 {
        return;
    }
    let mut next = mesh.n as u16;
    let mut names = vec![0; size];
    for (v, name) in names.iter_mut().enumerate() {
        if v as u16 == p {
            *name = x;
        } else if v as u16 == q {
            *name = y;
        } else {
            *name = next;
            next += 1;
        }
    }
    mesh.n += size - 2;
    mesh.triangles.extend(second.triangles.iter().map(|t| t.map(|v| names[v as usize])));
    lone_targets(rng, mesh);
}

/// Targets for the vertices that have none yet.
fn lone_targets(rng: &mut Rng, mesh: &mut Mesh) {
    while mesh.wood.len() < 3 * mesh.n {
        let target = vertex(rng, mesh);
        mesh.wood.push(target);
    }
}

/// A vertex takes the place of another, as far from it as may be: the other is then in no triangle.
fn made_one(rng: &mut Rng, mesh: &mut Mesh) {
    let (x, mut y) = (vertex(rng, mesh), vertex(rng, mesh));
    for _ in 0..20 {
        if distant(mesh, x, y) {
            break;
        }
        y = vertex(rng, mesh);
    }
    for triangle in &mut mesh.triangles {
        *triangle = triangle.map(|v| if v == y { x } else { v });
    }
}

fn neighbours(mesh: &Mesh, x: u16) -> Vec<u16> {
    mesh.triangles.iter().filter(|t| t.contains(&x)).flatten().copied().collect()
}

/// No neighbour of x is y or a neighbour of y.
fn distant(mesh: &Mesh, x: u16, y: u16) -> bool {
    let near = neighbours(mesh, y);
    x != y && !neighbours(mesh, x).iter().any(|v| near.contains(v))
}

/// A tube from one triangle to another far from it, and two vertices in no triangle, so that the counts hold.
fn handle(rng: &mut Rng, mesh: &mut Mesh) {
    let (Some(t), Some(s)) = (some_triangle(rng, mesh), some_triangle(rng, mesh)) else { return };
    let ([a, b, c], [p, r, q]) = (mesh.triangles[t], mesh.triangles[s]);
    let near = [neighbours(mesh, a), neighbours(mesh, b), neighbours(mesh, c)].concat();
    if s == t || mesh.n > 80 || [p, q, r].iter().any(|v| near.contains(v)) {
        return made_one(rng, mesh);
    }
    mesh.triangles[t] = [a, b, q];
    mesh.triangles[s] = [a, q, p];
    mesh.triangles.extend([[b, c, r], [b, r, q], [c, a, p], [c, p, r]]);
    mesh.n += 2;
    lone_targets(rng, mesh);
}

fn high_target(rng: &mut Rng, mesh: &mut Mesh) {
    if let Some(e) = some_edge(rng, mesh) {
        mesh.wood[e] = high_number(rng, mesh);
    }
}

fn strange_target(rng: &mut Rng, mesh: &mut Mesh) {
    if let Some(e) = some_edge(rng, mesh) {
        mesh.wood[e] = vertex(rng, mesh);
    }
}

/// An edge that runs back along another.
fn pair_twice(rng: &mut Rng, mesh: &mut Mesh) {
    let Some(e) = some_edge(rng, mesh) else { return };
    let v = mesh.wood[e] as usize;
    if v >= 3 && 3 * v + 2 < mesh.wood.len() {
        mesh.wood[3 * v + rng.below(3)] = (e / 3) as u16;
    } else {
        mesh.wood[3 * (e / 3) + (e + 1) % 3] = v as u16;
    }
}

fn own_target(rng: &mut Rng, mesh: &mut Mesh) {
    if let Some(e) = some_edge(rng, mesh) {
        mesh.wood[e] = (e / 3) as u16;
    }
}

/// The targets of one inner vertex in another order; by choice one that sends an edge to an anchor.
fn colours_exchanged(rng: &mut Rng, mesh: &mut Mesh) {
    let Some(mut e) = some_edge(rng, mesh) else { return };
    let to_anchor = rng.percent(50);
    for _ in 0..20 {
        let row = &mesh.wood[3 * (e / 3)..3 * (e / 3) + 3];
        if row.iter().any(|&v| v < 3) == to_anchor {
            break;
        }
        e = some_edge(rng, mesh).unwrap_or(e);
    }
    let row = &mut mesh.wood[3 * (e / 3)..3 * (e / 3) + 3];
    if rng.percent(50) {
        row.rotate_left(1 + rng.below(2));
    } else {
        let k = rng.below(3);
        row.swap(k, (k + 1) % 3);
    }
}

/// Reverses a ring of edges of any colours, where one is found: every pair keeps its one edge.
fn ring_reversed(rng: &mut Rng, mesh: &mut Mesh) {
    let Some(ring) = (0..20).find_map(|_| some_ring(rng, mesh)) else { return };
    for k in 0..ring.len() {
        let before = ring[(k + ring.len() - 1) % ring.len()];
        mesh.wood[ring[k]] = (before / 3) as u16;
    }
}

/// Follows edges to a vertex met before; None where an anchor comes first.
fn some_ring(rng: &mut Rng, mesh: &Mesh) -> Option<Vec<usize>> {
    let mut path = vec![some_edge(rng, mesh)?];
    loop {
        let v = mesh.wood[*path.last()?] as usize;
        if v < 3 || 3 * v + 2 >= mesh.wood.len() {
            return None;
        }
        if let Some(from) = path.iter().position(|e| e / 3 == v) {
            return Some(path.split_off(from));
        }
        path.push(3 * v + rng.below(3));
    }
}

/// A torus beside the mesh, its paths without an end: nothing but the path rule notices it.
fn torus_apart(rng: &mut Rng, mesh: &mut Mesh) {
    let k = rng.between(7, 14);
    if mesh.n > 80 || mesh.wood.len() != 3 * mesh.n {
        return;
    }
    let first = mesh.n;
    let at = |i: usize| (first + i % k) as u16;
    let colour = rng.below(3);
    mesh.n += k;
    for i in 0..k {
        mesh.triangles.extend([[at(i), at(i + 1), at(i + 3)], [at(i), at(i + 3), at(i + 2)]]);
        let mut targets = [at(i + 1), at(i + 2), at(i + k - 3)];
        targets.rotate_left(colour);
        mesh.wood.extend(targets);
    }
    renumber(rng, mesh);
}

/// New random numbers for the inner vertices, in both tables.
fn renumber(rng: &mut Rng, mesh: &mut Mesh) {
    let mut names: Vec<u16> = (0..mesh.n as u16).collect();
    rng.shuffle(&mut names[3..]);
    let name = |v: u16| names.get(v as usize).copied().unwrap_or(v);
    for triangle in &mut mesh.triangles {
        *triangle = triangle.map(name);
    }
    let old = mesh.wood.clone();
    for e in 9..old.len() {
        mesh.wood[3 * name((e / 3) as u16) as usize + e % 3] = name(old[e]);
    }
}
