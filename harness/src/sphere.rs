//! Random triangulated spheres: the generator's own structure, with a table of third corners (the slow engine has none).

use crate::rng::Rng;

const NONE: u16 = u16::MAX;

/// A sphere that grows to `room` vertices: the third corner of each directed side, and each pair of neighbours once.
#[derive(Clone)]
pub struct Sphere {
    pub n: usize,
    room: usize,
    third: Vec<u16>,
    edges: Vec<(usize, usize)>,
}

impl Sphere {
    /// Three vertices, two triangles.
    pub fn new(room: usize) -> Sphere {
        let mut sphere = Sphere { n: 3, room, third: vec![NONE; room * room], edges: vec![(0, 1), (1, 2), (2, 0)] };
        sphere.set([0, 1, 2]);
        sphere.set([0, 2, 1]);
        sphere
    }

    fn set(&mut self, [a, b, c]: [usize; 3]) {
        self.third[a * self.room + b] = c as u16;
        self.third[b * self.room + c] = a as u16;
        self.third[c * self.room + a] = b as u16;
    }

    fn unset(&mut self, a: usize, b: usize) {
        self.third[a * self.room + b] = NONE;
        self.third[b * self.room + a] = NONE;
    }

    pub fn joined(&self, a: usize, b: usize) -> bool {
        self.third[a * self.room + b] != NONE
    }

    /// The third corner of the triangle with side a to b, which is there.
    pub fn third(&self, a: usize, b: usize) -> usize {
        debug_assert!(self.joined(a, b));
        self.third[a * self.room + b] as usize
    }

    /// Some side, every directed side alike.
    pub fn any_side(&self, rng: &mut Rng) -> (usize, usize) {
        let (a, b) = rng.pick(&self.edges);
        if rng.percent(50) {
            (a, b)
        } else {
            (b, a)
        }
    }

    /// A new vertex of degree 3 in the triangle with side a to b.
    pub fn insert(&mut self, (a, b): (usize, usize)) -> usize {
        let (c, v) = (self.third(a, b), self.n);
        self.n += 1;
        for (x, y) in [(a, b), (b, c), (c, a)] {
            self.set([x, y, v]);
            self.edges.push((x, v));
        }
        v
    }

    /// Three new vertices of degree 4 in the triangle with side a to b, and a side of their own triangle.
    pub fn nest(&mut self, (a, b): (usize, usize)) -> (usize, usize) {
        let (c, x, y, z) = (self.third(a, b), self.n, self.n + 1, self.n + 2);
        self.n += 3;
        for triangle in [[a, b, x], [b, c, y], [c, a, z], [b, y, x], [c, z, y], [a, x, z], [x, y, z]] {
            self.set(triangle);
        }
        self.edges.extend([(a, x), (b, x), (b, y), (c, y), (c, z), (a, z), (x, y), (y, z), (z, x)]);
        (x, y)
    }

    /// A new vertex of degree 4 on the edge at that place of the list; of degree 3 where both its triangles have one corner.
    pub fn split(&mut self, place: usize) -> usize {
        let (a, b) = self.edges[place];
        let (c, d) = (self.third(a, b), self.third(b, a));
        if c == d {
            return self.insert((a, b));
        }
        let v = self.n;
        self.n += 1;
        self.unset(a, b);
        for (x, y) in [(a, d), (d, b), (b, c), (c, a)] {
            self.set([x, y, v]);
        }
        self.edges[place] = (a, v);
        self.edges.extend([(b, v), (c, v), (d, v)]);
        v
    }

    /// Exchanges the edge at that place for the other diagonal of its two triangles, where the two corners are not yet joined.
    pub fn flip(&mut self, place: usize) -> bool {
        let (a, b) = self.edges[place];
        let (c, d) = (self.third(a, b), self.third(b, a));
        if c == d || self.joined(c, d) {
            return false;
        }
        self.unset(a, b);
        self.set([a, d, c]);
        self.set([d, b, c]);
        self.edges[place] = (c, d);
        true
    }

    /// Once round v, counterclockwise.
    pub fn round(&self, v: usize) -> Vec<usize> {
        let start = (0..self.n).find(|&x| self.joined(v, x)).expect("each vertex has a neighbour");
        let mut met = vec![start];
        let mut x = self.third(v, start);
        while x != start {
            met.push(x);
            x = self.third(v, x);
        }
        met
    }

    pub fn triangles(&self) -> Vec<[u16; 3]> {
        let mut all = Vec::new();
        for a in 0..self.n {
            for b in a + 1..self.n {
                if self.joined(a, b) {
                    let (left, right) = (self.third(a, b), self.third(b, a));
                    all.extend((left > b).then_some([a as u16, b as u16, left as u16]));
                    all.extend((right > b).then_some([b as u16, a as u16, right as u16]));
                }
            }
        }
        all
    }

    /// The same sphere with vertex v called `names[v]`.
    fn named(&self, names: &[usize]) -> Sphere {
        let mut other = Sphere { n: self.n, room: self.n, third: vec![NONE; self.n * self.n], edges: Vec::new() };
        for &(a, b) in &self.edges {
            other.edges.push((names[a], names[b]));
            other.set([names[a], names[b], names[self.third(a, b)]]);
            other.set([names[b], names[a], names[self.third(b, a)]]);
        }
        other
    }

    /// Random numbers for the vertices, and some triangle as the outer one: it comes to read (0,2,1).
    pub fn numbered(&self, rng: &mut Rng) -> Sphere {
        let (x, y) = self.any_side(rng);
        let z = self.third(x, y);
        let mut rest: Vec<usize> = (3..self.n).collect();
        rng.shuffle(&mut rest);
        let names: Vec<usize> = (0..self.n)
            .map(|v| match v {
                _ if v == x => 0,
                _ if v == y => 2,
                _ if v == z => 1,
                _ => rest.pop().expect("one number for each inner vertex"),
            })
            .collect();
        self.named(&names)
    }
}

type Family = fn(&mut Rng, usize) -> Sphere;

pub const FAMILIES: [Family; 9] = [stacked, flipped, split, hub, hubs, bipyramid, thin, long, tower];

/// Each new vertex in some triangle.
fn stacked(rng: &mut Rng, n: usize) -> Sphere {
    let mut sphere = Sphere::new(n);
    while sphere.n < n {
        let side = sphere.any_side(rng);
        sphere.insert(side);
    }
    sphere
}

fn flip_some(rng: &mut Rng, sphere: &mut Sphere, tries: usize) {
    for _ in 0..tries {
        let place = rng.below(sphere.edges.len());
        sphere.flip(place);
    }
}

/// Stacked, then so many edges flipped that little is left of the stack.
fn flipped(rng: &mut Rng, n: usize) -> Sphere {
    let mut sphere = stacked(rng, n);
    flip_some(rng, &mut sphere, 20 * n);
    sphere
}

/// Vertices of degree 4 upon random edges, and a few flips.
fn split(rng: &mut Rng, n: usize) -> Sphere {
    let mut sphere = Sphere::new(n);
    while sphere.n < n {
        let place = rng.below(sphere.edges.len());
        sphere.split(place);
    }
    let tries = rng.below(2 * n);
    flip_some(rng, &mut sphere, tries);
    sphere
}

/// Nearly all vertices beside one.
fn hub(rng: &mut Rng, n: usize) -> Sphere {
    let mut sphere = Sphere::new(n);
    while sphere.n < n {
        let round = sphere.round(0);
        let side = if rng.percent(95) { (0, rng.pick(&round)) } else { sphere.any_side(rng) };
        sphere.insert(side);
    }
    let tries = rng.below(4);
    flip_some(rng, &mut sphere, tries);
    sphere
}

/// Two neighbours that all others are beside: a fan of n-1.
fn hubs(rng: &mut Rng, n: usize) -> Sphere {
    let mut sphere = Sphere::new(n);
    while sphere.n < n {
        let side = if rng.percent(50) { (0, 1) } else { (1, 0) };
        sphere.insert(side);
    }
    sphere
}

/// Two poles and a ring between them.
fn bipyramid(rng: &mut Rng, n: usize) -> Sphere {
    let mut sphere = Sphere::new(n);
    if n > 3 {
        sphere.insert((0, 1));
    }
    while sphere.n < n {
        // An edge of the ring has 0 and 1 beside it; with four vertices the poles are still joined, and part at the first split.
        let rings: Vec<usize> = (0..sphere.edges.len()).filter(|&p| is_ring(&sphere, sphere.edges[p])).collect();
        let place = if rings.is_empty() { rng.below(sphere.edges.len()) } else { rng.pick(&rings) };
        sphere.split(place);
    }
    sphere
}

fn is_ring(sphere: &Sphere, (a, b): (usize, usize)) -> bool {
    a > 1 && b > 1 && sphere.third(a, b).min(sphere.third(b, a)) == 0 && sphere.third(a, b).max(sphere.third(b, a)) == 1
}

/// Each new vertex beside the last two: a long strip.
fn thin(rng: &mut Rng, n: usize) -> Sphere {
    let mut sphere = Sphere::new(n);
    let mut side = (0, 1);
    while sphere.n < n {
        let v = sphere.insert(side);
        let (a, b) = side;
        side = if rng.percent(50) { (a, v) } else { (v, b) };
        if rng.percent(50) {
            side = (side.1, side.0);
        }
    }
    sphere
}

/// Each new vertex upon one of the last few edges.
fn long(rng: &mut Rng, n: usize) -> Sphere {
    let mut sphere = Sphere::new(n);
    while sphere.n < n {
        let last = sphere.edges.len();
        sphere.split(last - 1 - rng.below(last.min(4)));
    }
    sphere
}

/// Triangle within triangle, each turned against the one around it.
fn tower(rng: &mut Rng, n: usize) -> Sphere {
    let mut sphere = Sphere::new(n);
    let mut side = (0, 1);
    while sphere.n + 3 <= n {
        side = sphere.nest(side);
    }
    while sphere.n < n {
        let side = sphere.any_side(rng);
        sphere.insert(side);
    }
    sphere
}
