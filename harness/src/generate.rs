//! Accepted meshes: a sphere of some family, random numbers, a wood, a random order and turning of the table.

use crate::rng::Rng;
use crate::slow::Mesh;
use crate::sphere::FAMILIES;
use crate::wood::{peel, turn_rings, Order};

/// An accepted mesh of n vertices.
pub fn accepted(rng: &mut Rng, n: usize) -> Mesh {
    let family = rng.below(FAMILIES.len());
    of_family(rng, n, family)
}

pub fn of_family(rng: &mut Rng, n: usize, family: usize) -> Mesh {
    let sphere = FAMILIES[family](rng, n).numbered(rng);
    let order = rng.pick(&[Order::Any, Order::Any, Order::SideOf0, Order::SideOf1]);
    let mut wood = peel(rng, &sphere, order);
    let tries = rng.pick(&[0, n, 4 * n]);
    turn_rings(rng, &sphere, &mut wood, tries);
    let mut mesh = Mesh { n, triangles: sphere.triangles(), wood };
    shuffle_table(rng, &mut mesh);
    mesh
}

/// Another order of the table, another first corner of each triangle.
pub fn shuffle_table(rng: &mut Rng, mesh: &mut Mesh) {
    rng.shuffle(&mut mesh.triangles);
    for triangle in &mut mesh.triangles {
        triangle.rotate_left(rng.below(3));
    }
}

/// A size up to 60, small ones as often as large ones.
pub fn small_size(rng: &mut Rng) -> usize {
    match rng.below(4) {
        0 => rng.between(3, 8),
        1 => rng.between(9, 20),
        2 => rng.between(13, 40),
        _ => rng.between(30, 60),
    }
}
