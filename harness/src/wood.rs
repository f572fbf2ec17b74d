//! Woods for a sphere: by peeling in a random order, and by turning rings round.

use crate::rng::Rng;
use crate::slow::UNUSED;
use crate::sphere::Sphere;

/// In which order boundary vertices are tried.
#[derive(Clone, Copy)]
pub enum Order {
    Any,
    SideOf0,
    SideOf1,
}

/// A wood by peeling: a boundary vertex goes when its only remaining neighbours on the boundary are the two beside it. The one on
/// the side of 0 receives its colour 0 edge, the one on the side of 1 its colour 1 edge, and each vertex between sends it colour 2.
pub fn peel(rng: &mut Rng, sphere: &Sphere, order: Order) -> Vec<u16> {
    let mut wood = vec![UNUSED; 3 * sphere.n];
    wood[3] = 0;
    let mut boundary = vec![0, 2, 1];
    let mut outer = vec![false; sphere.n];
    outer[..3].fill(true);
    let mut tried = 0;
    while boundary.len() > 2 {
        let inner = boundary.len() - 2;
        let at = match order {
            Order::Any => rng.between(1, inner),
            Order::SideOf0 => 1 + tried % inner,
            Order::SideOf1 => inner - tried % inner,
        };
        tried += 1;
        let (before, x, after) = (boundary[at - 1], boundary[at], boundary[at + 1]);
        let exposed = between(sphere, x, before, after);
        if exposed.iter().any(|&y| outer[y]) {
            continue;
        }
        tried = 0;
        wood[3 * x] = before as u16;
        wood[3 * x + 1] = after as u16;
        for &y in &exposed {
            wood[3 * y + 2] = x as u16;
            outer[y] = true;
        }
        boundary.splice(at..=at, exposed);
    }
    wood
}

/// The neighbours of x after `first` and before `last`.
fn between(sphere: &Sphere, x: usize, first: usize, last: usize) -> Vec<usize> {
    let mut met = Vec::new();
    let mut y = sphere.third(x, first);
    while y != last {
        met.push(y);
        y = sphere.third(x, y);
    }
    met
}

/// Tries so often to turn a ring round: three edges that run round as a ring come to run the other way, each vertex keeping the
/// colour of the edge that it sends; where vertices lie inside, their colours go on by one. What breaks the turn rule is undone.
pub fn turn_rings(rng: &mut Rng, sphere: &Sphere, wood: &mut [u16], tries: usize) -> usize {
    let mut turned = 0;
    for _ in 0..tries {
        if let Some(ring) = find_ring(rng, sphere.n, wood) {
            turned += turn(rng, sphere, wood, ring) as usize;
        }
    }
    turned
}

type Ring = [usize; 3];

/// Three inner vertices, each with an edge to the next.
fn find_ring(rng: &mut Rng, n: usize, wood: &[u16]) -> Option<Ring> {
    if n < 6 {
        return None;
    }
    let u = rng.between(3, n - 1);
    let targets = |x: usize| [wood[3 * x] as usize, wood[3 * x + 1] as usize, wood[3 * x + 2] as usize];
    let mut rings = Vec::new();
    for v in targets(u).into_iter().filter(|&v| v > 2) {
        for w in targets(v).into_iter().filter(|&w| w > 2) {
            if targets(w).contains(&u) {
                rings.push([u, v, w]);
            }
        }
    }
    (!rings.is_empty()).then(|| rng.pick(&rings))
}

fn turn(rng: &mut Rng, sphere: &Sphere, wood: &mut [u16], ring: Ring) -> bool {
    let inside = inside(sphere, ring);
    let steps = if inside.is_empty() { vec![0] } else { vec![1, 2] };
    let before = wood.to_vec();
    let step = rng.pick(&steps);
    for k in 0..3 {
        let (x, next, last) = (ring[k], ring[(k + 1) % 3], ring[(k + 2) % 3]);
        let place = (3 * x..3 * x + 3).find(|&e| before[e] as usize == next).expect("a ring's edge");
        wood[place] = last as u16;
    }
    for &x in &inside {
        for c in 0..3 {
            wood[3 * x + (c + step) % 3] = before[3 * x + c];
        }
    }
    let good = ring.iter().chain(&inside).all(|&x| follows(sphere, wood, x));
    if !good {
        wood.copy_from_slice(&before);
    }
    good
}

/// The vertices that the ring parts from the anchors.
fn inside(sphere: &Sphere, ring: Ring) -> Vec<usize> {
    let mut outside = vec![false; sphere.n];
    let mut todo = vec![0, 1, 2];
    outside[..3].fill(true);
    while let Some(x) = todo.pop() {
        for y in sphere.round(x) {
            if !outside[y] && !ring.contains(&y) {
                outside[y] = true;
                todo.push(y);
            }
        }
    }
    (0..sphere.n).filter(|x| !outside[*x] && !ring.contains(x)).collect()
}

/// The turn rule at v: from one neighbour to the next, out c is followed by in c+2 or out c+1, in c by in c or out c+2.
fn follows(sphere: &Sphere, wood: &[u16], v: usize) -> bool {
    let label = |x: usize| -> Option<(bool, usize)> {
        let out = (0..3).find(|c| wood[3 * v + c] as usize == x).map(|c| (true, c));
        out.or_else(|| (0..3).find(|c| wood[3 * x + c] as usize == v).map(|c| (false, c)))
    };
    let labels: Option<Vec<(bool, usize)>> = sphere.round(v).into_iter().map(label).collect();
    let Some(labels) = labels else { return false };
    (0..labels.len()).all(|k| match (labels[k], labels[(k + 1) % labels.len()]) {
        ((true, c), (true, d)) => d == (c + 1) % 3,
        ((true, c), (false, d)) => d == (c + 2) % 3,
        ((false, c), (true, d)) => d == (c + 2) % 3,
        ((false, c), (false, d)) => d == c,
    })
}
