//! The header from C and C++: the programs of `tests/c` and the examples, over the header and the
//! archive as a user has them.

use crate::common::c;

#[test]
fn from_c_and_cpp() {
    let programs = ["host/tests/c", "examples"].map(c::programs).concat();
    assert!(!programs.is_empty());
    for program in programs {
        c::run_as_c_and_cpp(&program);
    }
}
