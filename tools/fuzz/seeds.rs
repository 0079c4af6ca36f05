//! Writes the first inputs of a target into a folder: `seeds TARGET FOLDER`. They are random bytes
//! from a fixed seed, with short lists, and for `calls` each with a whole install before its list.

#[path = "../../host/tests/common/random.rs"]
#[allow(dead_code)]
mod random;

use random::Random;
use std::path::Path;
use std::{env, fs, io};

const COUNT: usize = 32;

/// As in lib.rs.
const HEAD: usize = 96;

/// Erase all, fill all, ask, close and confirm: as `Install::step` in calls.rs reads them, for a
/// slot in memory, and for one that a driver writes.
const INSTALLS: [[u8; 5]; 2] = [[0, 2, 7, 8, 11], [17, 19, 24, 25, 28]];

fn seed(target: &str, random: &mut Random) -> Vec<u8> {
    let mut bytes = random.bytes(HEAD);
    if target == "calls" {
        bytes.extend(random.pick(&INSTALLS));
    }
    let list = random.up_to(12);
    bytes.extend(random.bytes(list));
    bytes
}

fn main() -> io::Result<()> {
    let arguments: Vec<String> = env::args().skip(1).collect();
    let [target, folder] = &arguments[..] else {
        return Err(io::Error::other("a target and a folder are needed"));
    };
    fs::create_dir_all(folder)?;
    let mut random = Random::new(1);
    for i in 0..COUNT {
        let path = Path::new(folder).join(i.to_string());
        fs::write(path, seed(target, &mut random))?;
    }
    Ok(())
}
