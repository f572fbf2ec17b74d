//! Arrays that nobody built: damaged ones, random ones, and the arrays of meshes that are not accepted.

use crate::damage::aimed;
use crate::generate::{accepted, small_size};
use crate::rng::Rng;
use crate::slow::{build, used, verdict, Array, UNUSED};

pub const TORN_KINDS: usize = 8;

/// An array of the kind that `kind` names in turn.
pub fn torn(rng: &mut Rng, kind: usize) -> Array {
    match kind % TORN_KINDS {
        0 => scribbled(rng, 1),
        1 => scribbled(rng, 4),
        2 => scribbled(rng, 40),
        3 => of_another_mesh(rng),
        4 => by_chance(rng),
        5 => long_walks(rng),
        6 => exchanged(rng),
        _ => service_only(rng),
    }
}

fn built(rng: &mut Rng) -> Array {
    let n = small_size(rng);
    build(&accepted(rng, n))
}

fn edges(array: &Array) -> Vec<usize> {
    (0..3 * array.n).filter(|&e| used(e)).collect()
}

/// Any number that the text can say: an edge mostly, else an unused index, 3n or a little more, or the mark.
fn any_reference(rng: &mut Rng, n: usize) -> u16 {
    match rng.below(10) {
        0 => rng.pick(&[0, 1, 2, 4, 5, 8]),
        1 => rng.pick(&[3, 6, 7]),
        2 => (3 * n + rng.below(4)) as u16,
        3 => rng.pick(&[UNUSED, 4094, 3072, 3071]),
        _ => rng.below(3 * n) as u16,
    }
}

/// A few places of a built array written over.
fn scribbled(rng: &mut Rng, most: usize) -> Array {
    let mut array = built(rng);
    let edges = edges(&array);
    for _ in 0..rng.between(1, most) {
        let e = rng.pick(&edges);
        if rng.percent(20) {
            array.service[e] = rng.below(16) as u8;
        } else {
            array.references[2 * e + rng.below(2)] = any_reference(rng, array.n);
        }
    }
    array
}

/// The array of a mesh that breaks a rule of the wood and none before: only the whole check can tell.
fn of_another_mesh(rng: &mut Rng) -> Array {
    let number = rng.between(11, 13) as u8;
    let mesh = aimed(rng, number);
    if verdict(&mesh) > 10 {
        build(&mesh)
    } else {
        scribbled(rng, 2)
    }
}

fn by_chance(rng: &mut Rng) -> Array {
    let n = rng.between(3, 12);
    let mut array = Array { n, references: vec![UNUSED; 6 * n], service: vec![0; 3 * n] };
    let sound = rng.percent(60);
    for e in edges(&array) {
        for place in [2 * e, 2 * e + 1] {
            array.references[place] = any_reference(rng, n);
            while sound && !(used(array.references[place] as usize) && (array.references[place] as usize) < 3 * n) {
                array.references[place] = any_reference(rng, n);
            }
        }
        array.service[e] = rng.below(4) as u8;
    }
    array
}

/// LeftFronts within one colour, so that Target goes far: to the last read allowed, or round and round.
fn long_walks(rng: &mut Rng) -> Array {
    let mut array = built(rng);
    let c = rng.below(3);
    let mut chain: Vec<usize> = edges(&array).into_iter().filter(|&e| e % 3 == c && e != 3 && e != 7).collect();
    rng.shuffle(&mut chain);
    for pair in chain.windows(2) {
        array.references[2 * pair[0]] = pair[1] as u16;
    }
    if let (Some(&first), Some(&last)) = (chain.first(), chain.last()) {
        array.references[2 * last] = match rng.below(4) {
            0 => first as u16,
            1 => 3,
            2 => 7,
            _ => any_reference(rng, array.n),
        };
    }
    array
}

/// A built array with two places exchanged, or left and right exchanged at an edge, or everywhere.
fn exchanged(rng: &mut Rng) -> Array {
    let mut array = built(rng);
    let edges = edges(&array);
    let (d, e) = (rng.pick(&edges), rng.pick(&edges));
    match rng.below(3) {
        0 => array.references.swap(2 * d + rng.below(2), 2 * e + rng.below(2)),
        1 => array.references.swap(2 * d, 2 * d + 1),
        _ => array.references.chunks_mut(2).for_each(|pair| pair.swap(0, 1)),
    }
    array
}

/// References of an accepted mesh under any service digits: the rebuild takes no notice of them.
fn service_only(rng: &mut Rng) -> Array {
    let mut array = built(rng);
    let top = rng.pick(&[4, 5, 16]);
    for e in edges(&array) {
        if rng.percent(50) {
            array.service[e] = rng.below(top) as u8;
        }
    }
    array
}
