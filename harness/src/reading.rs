//! The questions put to an array, built or torn, after docs/SPECIFICATION.md, sections 6 and 7: no triangle and no wood is at hand.
//! An error is the refusal's number.

use crate::slow::{used, Array, FEWEST, MOST};

pub const UNKNOWN_EDGE: u8 = 14;
pub const UNKNOWN_VERTEX: u8 = 15;
pub const TORN: u8 = 16;

fn in_range(array: &Array) -> Result<(), u8> {
    if array.n < FEWEST || array.n > MOST {
        Err(1)
    } else {
        Ok(())
    }
}

fn known(array: &Array, j: usize) -> Result<(), u8> {
    if is_edge(array, j) {
        Ok(())
    } else {
        Err(UNKNOWN_EDGE)
    }
}

/// What is tested before any table is read: 1, 2, 14.
fn asked(array: &Array, j: usize) -> Result<(), u8> {
    in_range(array)?;
    if array.references.len() != 6 * array.n || array.service.len() != 3 * array.n {
        return Err(2);
    }
    known(array, j)
}

fn is_edge(array: &Array, e: usize) -> bool {
    used(e) && e < 3 * array.n
}

/// Whatever is read or answered has to be an edge, or the array is torn.
fn sound(array: &Array, e: usize) -> Result<usize, u8> {
    if is_edge(array, e) {
        Ok(e)
    } else {
        Err(TORN)
    }
}

fn read(array: &Array, place: usize) -> Result<usize, u8> {
    sound(array, array.references[place] as usize)
}

/// A byte has its two bits and no other, or the array is torn.
fn consult(array: &Array, j: usize) -> Result<u8, u8> {
    if array.service[j] > 3 {
        Err(TORN)
    } else {
        Ok(array.service[j])
    }
}

/// Every vertex has three indices. No table is read, so 2 is not met.
pub fn source(array: &Array, j: usize) -> Result<usize, u8> {
    in_range(array)?;
    known(array, j)?;
    Ok(j / 3)
}

/// Edge of vertex u: the first of its three indices; 0 has none of its own and gives the first that ends there. No table is read.
pub fn edge(array: &Array, u: usize) -> Result<usize, u8> {
    in_range(array)?;
    match u {
        _ if u >= array.n => Err(UNKNOWN_VERTEX),
        0 => Ok(3),
        _ => Ok(3 * u),
    }
}

pub fn left_front(array: &Array, j: usize) -> Result<usize, u8> {
    asked(array, j)?;
    read(array, 2 * j)
}

pub fn right_front(array: &Array, j: usize) -> Result<usize, u8> {
    asked(array, j)?;
    read(array, 2 * j + 1)
}

pub fn left_back(array: &Array, j: usize) -> Result<usize, u8> {
    asked(array, j)?;
    match j {
        3 => return Ok(7),
        7 => return Ok(6),
        _ => {}
    }
    let c = j % 3;
    if consult(array, j)? & 1 != 0 {
        return sound(array, 3 * (j / 3) + (c + 1) % 3);
    }
    let f = read(array, 2 * j)?;
    if f % 3 == c {
        sound(array, 3 * (f / 3) + (c + 2) % 3)
    } else if f % 3 == (c + 1) % 3 {
        read(array, 2 * f)
    } else {
        Err(TORN)
    }
}

pub fn right_back(array: &Array, j: usize) -> Result<usize, u8> {
    asked(array, j)?;
    if j == 6 {
        return Ok(7);
    }
    let c = j % 3;
    if consult(array, j)? & 2 != 0 {
        return sound(array, 3 * (j / 3) + (c + 2) % 3);
    }
    let f = read(array, 2 * j + 1)?;
    if f % 3 == c {
        sound(array, 3 * (f / 3) + (c + 1) % 3)
    } else if f % 3 == (c + 2) % 3 {
        read(array, 2 * f + 1)
    } else {
        Err(TORN)
    }
}

/// The vertex and the number of reads.
pub fn target(array: &Array, j: usize) -> Result<(usize, usize), u8> {
    asked(array, j)?;
    let c = j % 3;
    let (mut e, mut reads) = (j, 0);
    loop {
        if e == 3 {
            return Ok((0, reads));
        }
        if e == 7 {
            return Ok((1, reads));
        }
        if e % 3 == (c + 1) % 3 {
            return Ok((e / 3, reads));
        }
        if e % 3 == (c + 2) % 3 || reads == array.n - 2 {
            return Err(TORN);
        }
        e = read(array, 2 * e)?;
        reads += 1;
    }
}
