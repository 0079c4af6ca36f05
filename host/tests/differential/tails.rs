//! Tails: the bytes that are lent behind an image.

use crate::common::random::Random;

/// Every short one, and some longer ones.
pub fn lengths() -> impl Iterator<Item = usize> {
    (0..80).chain([255, 256, 1_000, 4_096])
}

/// Gives a check the image with a tail of so many bytes, at any alignment: all as they must be, then
/// each of them off in turn, then all off. It is told whether the tail is right.
pub fn with_tails(
    image: &[u8],
    right: u8,
    length: usize,
    random: &mut Random,
    mut check: impl FnMut(&[u8], bool),
) {
    let shift = random.up_to(8);
    let mut memory = [&[0x5a; 8][..shift], image, &vec![right; length]].concat();
    let start = memory.len() - length;
    check(&memory[shift..], true);
    for at in start..memory.len() {
        for wrong in [!right, right ^ 1, right ^ 0x80] {
            memory[at] = wrong;
            check(&memory[shift..], false);
        }
        memory[at] = right;
    }
    memory[start..].fill(!right);
    check(&memory[shift..], length == 0);
}
