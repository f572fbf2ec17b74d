//! Cuts an input down as far as it still differs. Every candidate is a whole input for which the slow engine has an answer of its
//! own, so a candidate need not be like the input it comes from: it only has to be smaller and to differ.

use crate::oracle::Program;
use crate::rebuild::rebuild;
use crate::slow::{build, used, Array, Mesh};
use crate::text::{read_array, read_mesh, write_array, write_mesh};

type Differs<'a> = &'a mut dyn FnMut(&[u8]) -> bool;

/// The smallest input found that differs.
pub fn shrink(program: Program, input: &[u8], differs: Differs) -> Vec<u8> {
    let mut best = input.to_vec();
    loop {
        let before = best.clone();
        match program {
            Program::Meshlines => fewer_vertices(&mut best, &|text| read_mesh(text).ok(), &write_mesh, differs),
            _ => fewer_vertices(&mut best, &mesh_of_array, &|mesh| write_array(&build(mesh)), differs),
        }
        if program != Program::Meshlines {
            smaller_array(&mut best, differs);
        }
        fewer_lines(&mut best, differs);
        lower_digits(&mut best, differs);
        if best == before {
            return best;
        }
    }
}

/// Takes the candidate where it is smaller and differs.
fn take(best: &mut Vec<u8>, candidate: Vec<u8>, differs: Differs) -> bool {
    let smaller = (candidate.len(), &candidate) < (best.len(), &*best);
    if smaller && differs(&candidate) {
        *best = candidate;
        true
    } else {
        false
    }
}

fn mesh_of_array(text: &[u8]) -> Option<Mesh> {
    let array = read_array(text).ok()?;
    rebuild(array.n, &array.references).ok()
}

/// Contracts inner vertices, half of them at once, then fewer, then one by one.
fn fewer_vertices(
    best: &mut Vec<u8>,
    read: &dyn Fn(&[u8]) -> Option<Mesh>,
    write: &dyn Fn(&Mesh) -> Vec<u8>,
    differs: Differs,
) {
    let Some(mesh) = read(best) else { return };
    let mut many = mesh.n / 2;
    while many > 0 {
        let mut from = 0;
        while let Some(mesh) = read(best).filter(|mesh| from < mesh.n && regular(mesh)) {
            let smaller = contract_many(&mesh, many, from);
            let taken = smaller.is_some_and(|smaller| take(best, write(&smaller), differs));
            from += if taken { 0 } else { many };
        }
        many /= 2;
    }
}

/// The tables have the lengths that n asks, so that vertices can be told apart.
fn regular(mesh: &Mesh) -> bool {
    mesh.n > 3 && mesh.wood.len() == 3 * mesh.n && mesh.triangles.len() == 2 * mesh.n - 4
}

/// Contracts so many vertices, taken upwards from `from`; None where none can be.
fn contract_many(mesh: &Mesh, many: usize, from: usize) -> Option<Mesh> {
    let mut smaller = mesh.clone();
    for _ in 0..many {
        let n = smaller.n;
        let next = (0..n.saturating_sub(3)).map(|k| 3 + (k + from) % (n - 3)).find_map(|v| contract(&smaller, v));
        let Some(next) = next else { break };
        smaller = next;
    }
    (smaller.n < mesh.n).then_some(smaller)
}

/// Moves v to the end of its edge of some colour c, where every edge that comes in at v has that colour: the two triangles beside
/// the edge vanish, and an accepted mesh stays one. Every accepted mesh with an inner vertex has such a v.
fn contract(mesh: &Mesh, v: usize) -> Option<Mesh> {
    let coming: Vec<usize> = (9..mesh.wood.len()).filter(|&e| mesh.wood[e] as usize == v).collect();
    let c = (0..3).find(|&c| coming.iter().all(|e| e % 3 == c))?;
    let to = mesh.wood[3 * v + c];
    let name = |x: u16| {
        let x = if x as usize == v { to } else { x };
        x - (x as usize > v) as u16
    };
    let gone = |t: &[u16; 3]| t.contains(&(v as u16)) && t.contains(&to);
    let triangles: Vec<[u16; 3]> = mesh.triangles.iter().filter(|t| !gone(t)).map(|t| t.map(name)).collect();
    let mut wood = mesh.wood[..9].to_vec();
    wood.extend((9..mesh.wood.len()).filter(|e| e / 3 != v).map(|e| name(mesh.wood[e])));
    let smaller = Mesh { n: mesh.n - 1, triangles, wood };
    (smaller.n == 3 || regular(&smaller)).then_some(smaller)
}

/// Drops the last vertices of an array that is no mesh's, and puts plain values where they do not matter.
fn smaller_array(best: &mut Vec<u8>, differs: Differs) {
    while let Some(array) = read_array(best).ok().filter(|array| array.n > 3) {
        let n = array.n - 1;
        let cut = Array { n, references: array.references[..6 * n].to_vec(), service: array.service[..3 * n].to_vec() };
        if !take(best, write_array(&cut), differs) {
            break;
        }
    }
    let Ok(array) = read_array(best) else { return };
    for e in (0..3 * array.n).filter(|&e| used(e)) {
        let Ok(now) = read_array(best) else { return };
        let mut plain = now.clone();
        plain.references[2 * e..2 * e + 2].fill(3);
        plain.service[e] = 0;
        if !take(best, write_array(&plain), differs) {
            let mut plain = now;
            plain.service[e] = 0;
            take(best, write_array(&plain), differs);
        }
    }
}

/// Drops runs of lines, long runs first.
fn fewer_lines(best: &mut Vec<u8>, differs: Differs) {
    let count = |text: &[u8]| text.split_inclusive(|&byte| byte == b'\n').count();
    let mut run = count(best);
    while run > 0 {
        let mut from = 0;
        while from < count(best) {
            let kept = best.split_inclusive(|&byte| byte == b'\n').enumerate().filter(|(k, _)| *k < from || *k >= from + run);
            let candidate: Vec<u8> = kept.flat_map(|(_, line)| line.iter().copied()).collect();
            if !take(best, candidate, differs) {
                from += run;
            }
        }
        run /= 2;
    }
}

/// Drops single bytes, then writes 0 for digits, in texts short enough for it.
fn lower_digits(best: &mut Vec<u8>, differs: Differs) {
    const SHORT: usize = 400;
    let mut k = 0;
    while k < best.len() && best.len() <= SHORT {
        let mut candidate = best.clone();
        candidate.remove(k);
        if take(best, candidate, differs) {
            continue;
        }
        if best[k] != b'\n' && best[k] != b'0' {
            let mut candidate = best.clone();
            candidate[k] = b'0';
            take(best, candidate, differs);
        }
        k += 1;
    }
}
