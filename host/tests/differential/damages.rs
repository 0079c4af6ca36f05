//! Damages to bytes: each byte set to every other value, or fields set to values at their edges and
//! other changes at random places.

use crate::common::random::Random;

/// Gives a check the bytes with each of them off in turn, by every change.
pub fn with_every_byte_off(bytes: &[u8], mut check: impl FnMut(&[u8])) {
    let mut bytes = bytes.to_vec();
    for at in 0..bytes.len() {
        let right = bytes[at];
        for change in 1..=255 {
            bytes[at] = right ^ change;
            check(&bytes);
        }
        bytes[at] = right;
    }
}

fn edge_value(edges: &[u32], random: &mut Random) -> u32 {
    let small = random.up_to(300) as u32;
    let near = random.pick(edges);
    let any = random.word();
    random.pick(&[0, 1, 4, 8, small, near, near + 4, near - 4, near - 1, any])
}

/// Sets a field or a byte, cuts the bytes, or adds some. The numbers in `edges` are those around
/// which a step changes its answer.
pub fn damage(bytes: &mut Vec<u8>, fields: &[usize], edges: &[u32], random: &mut Random) {
    let field = random.pick(fields);
    let any = random.up_to(bytes.len());
    let at = random.pick(&[field, field, any]);
    match random.up_to(7) {
        0 => bytes.truncate(at),
        1 => {
            let longer = bytes.len() + random.up_to(40);
            bytes.resize(longer, random.pick(&[0, 255, 1]));
        }
        2 | 3 => put(bytes, at, &edge_value(edges, random).to_le_bytes()),
        4 => put(bytes, at, &[random.byte()]),
        _ => {
            let bit = 1 << random.up_to(7);
            let changed = bytes.get(at).map_or(0, |byte| byte ^ bit);
            put(bytes, at, &[changed]);
        }
    }
}

/// Writes what of the value stands within the bytes.
fn put(bytes: &mut [u8], at: usize, value: &[u8]) {
    for (byte, new) in bytes.iter_mut().skip(at).zip(value) {
        *byte = *new;
    }
}
