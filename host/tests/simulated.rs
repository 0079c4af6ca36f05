//! The simulated flash keeps the rules of a flash, and errors read as sentences.

use thimmorel::simulated::{SimulatedError, SimulatedFlash};
use thimmorel::{Flash, InstallError, Reason, Refusal};

const SLOT: usize = 8_192;

#[test]
fn the_rules_of_the_simulated_flash() {
    let mut slot = [7; SLOT];
    let mut flash = SimulatedFlash::new(&mut slot);
    let no_place = |offset| Err(SimulatedError::NoSuchPlace { offset });
    for offset in [4, 4_095, SLOT, usize::MAX - 4_095] {
        assert_eq!(flash.erase_page(offset), no_place(offset));
    }
    for offset in [1, 4_098, SLOT, usize::MAX - 3] {
        assert_eq!(flash.store_word(offset, [1; 4]), no_place(offset));
    }
    let not_erased = Err(SimulatedError::NotErased { offset: 4_096 });
    assert_eq!(flash.store_word(4_096, [7; 4]), not_erased);
    assert_eq!(flash.erase_page(4_096), Ok(()));
    assert_eq!(flash.store_word(4_096, [1, 2, 3, 4]), Ok(()));
    assert_eq!(flash.store_word(4_096, [1, 2, 3, 4]), not_erased);
    let zero = flash.store_word(4_088, [0; 4]);
    assert_eq!(zero, Ok(()), "over any word");
    assert_eq!(flash.operations(), 13);
    assert_eq!(slot[..4_088], [7; 4_088]);
    assert_eq!(slot[4_088..4_096], [0, 0, 0, 0, 7, 7, 7, 7]);
    assert_eq!(slot[4_096..4_100], [1, 2, 3, 4]);
    assert_eq!(slot[4_100..], [255; 4_092]);
}

#[test]
fn faults_happen_once() {
    let mut slot = [255; SLOT];
    let mut flash = SimulatedFlash::new(&mut slot).fail_at(2);
    assert_eq!(flash.store_word(0, [0; 4]), Ok(()));
    assert_eq!(flash.store_word(4, [0; 4]), Err(SimulatedError::Failed));
    assert_eq!(flash.store_word(4, [0; 4]), Ok(()));

    let mut flash = SimulatedFlash::new(&mut slot).skip_at(1);
    assert_eq!(flash.store_word(8, [0; 4]), Ok(()));
    assert_eq!(flash.bytes().map(|bytes| bytes[8]), Ok(255));
    assert_eq!(flash.store_word(8, [0; 4]), Ok(()));
    assert_eq!(flash.bytes().map(|bytes| bytes[8]), Ok(0));
}

#[test]
fn nothing_works_without_power() {
    let lost = SimulatedError::PowerLost;
    let mut slot = [0; SLOT];
    let mut flash = SimulatedFlash::new(&mut slot).cut_before(1);
    assert_eq!(flash.erase_page(0), Err(lost));
    assert_eq!(flash.erase_page(0), Err(lost));
    assert_eq!(flash.store_word(0, [0; 4]), Err(lost));
    assert_eq!(flash.bytes(), Err(lost));
    assert_eq!(flash.operations(), 1);
    assert_eq!(slot, [0; SLOT]);

    let mut flash = SimulatedFlash::new(&mut slot).cut_after(1);
    assert_eq!(flash.erase_page(0), Ok(()));
    assert_eq!(flash.erase_page(4_096), Err(lost));
    assert_eq!(flash.bytes(), Err(lost));
    assert_eq!(flash.operations(), 1);
    assert_eq!(slot[..4_096], [255; 4_096]);
    assert_eq!(slot[4_096..], [0; 4_096]);
}

#[test]
fn a_cut_inside_an_operation() {
    let lost = Err(SimulatedError::PowerLost);
    let mut slot = [7; SLOT];
    let mut flash = SimulatedFlash::new(&mut slot).cut_inside(2, &|word| word % 2 == 1);
    assert_eq!(flash.store_word(4, [0; 4]), Ok(()));
    assert_eq!(flash.erase_page(4_096), lost);
    assert_eq!(flash.erase_page(0), lost);
    assert_eq!(flash.operations(), 2);
    assert_eq!(slot[..8], [7, 7, 7, 7, 0, 0, 0, 0]);
    assert_eq!(slot[8..4_096], [7; 4_088]);
    for words in slot[4_096..].chunks(8) {
        assert_eq!(words, [7, 7, 7, 7, 255, 255, 255, 255]);
    }

    for is_made in [false, true] {
        let mut slot = [7; SLOT];
        let choice = |_| is_made;
        let mut flash = SimulatedFlash::new(&mut slot).cut_inside(1, &choice);
        assert_eq!(flash.store_word(0, [0; 4]), lost);
        assert_eq!(slot[..4] == [0; 4], is_made);
        assert_eq!(slot[4..], [7; SLOT - 4]);
    }
}

fn refusal() -> Refusal {
    Refusal {
        reason: Reason::OutputLength,
        part: None,
        chunk: None,
    }
}

#[test]
fn how_an_error_reads() {
    let failed = InstallError::Flash(SimulatedError::PowerLost);
    assert_eq!(failed.to_string(), "the flash failed: there is no power");
    let failed = InstallError::<SimulatedError>::NotLanded { offset: 4_096 };
    assert_eq!(
        failed.to_string(),
        "the flash does not hold what was written at 4096"
    );
    let failed = InstallError::<SimulatedError>::Refused(refusal());
    assert_eq!(failed.to_string(), refusal().to_string());
}
