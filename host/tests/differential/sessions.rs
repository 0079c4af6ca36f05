//! Sessions of the wrapper, in both forms: each call in its turn and out of it, and the session
//! stored and brought back.

use crate::common::random::Random;
use crate::draft::{slot_length, Draft};
use crate::faults::faulty_draft;
use crate::model::image::{self as model, Form};
use crate::tally::{cases, step, Tally, ACCEPTED};
use crate::wrapper::{alone, assert_signature, inputs, refusal};
use thimmorel::{Operation, Progress, Session};

#[test]
fn sessions_in_memory() {
    let mut random = Random::new(804);
    for _ in 0..cases(300) {
        let draft = Draft::small(Form::File, &mut random);
        let (file, inputs) = (draft.file(), inputs(&draft.inputs));
        let length = slot_length(file.len(), &mut random);
        let mut slot = random.bytes(length);
        assert_eq!(Session::begin(&slot, 2), Err(alone(18)));
        assert_eq!(Session::begin(&slot[1..], 2), Err(alone(22)));
        let mut session = Session::begin(&slot, file.len()).expect("good lengths");
        assert_eq!(session.fill(&file, &mut slot), Err(alone(19)));
        for _ in 0..=slot.len() / 4_096 {
            assert_eq!(session.erase(&mut slot), Ok(()));
        }
        assert_eq!(session.erase(&mut slot), Err(alone(19)));
        assert_eq!(session.ask(&slot), Err(alone(19)));
        assert_eq!(session.signatures(&slot).vendor, None);

        let mut given = 0;
        while given < file.len() {
            session = Session::from_words(session.words());
            given += session.fill(&file[given..], &mut slot).expect("its turn");
        }
        let digests = session.ask(&slot).expect("its turn");
        assert_eq!(digests.vendor, thimmorel::vendor_digest(&file));
        assert_eq!(digests.firmware, thimmorel::firmware_digest(&file));
        let found = session.signatures(&slot);
        assert_eq!(found.vendor, thimmorel::vendor_signature(&file));
        assert_eq!(found.firmware, thimmorel::firmware_signature(&file));

        assert_eq!(session.close(&mut slot, inputs), Ok(()));
        assert!(session.is_over());
        let operations = slot.len() / 4_096 + file.len() / 4 + 1;
        assert_eq!(session.operations() as usize, operations);
        assert_eq!(slot[..file.len()], file);
        assert_eq!(session.close(&mut slot, inputs), Err(alone(19)));
        assert_eq!(session.confirm(&slot), Err(alone(19)));
    }
}

/// Makes an operation as a driver would.
fn make(operation: Operation, slot: &mut [u8]) {
    match operation {
        Operation::Nothing => (),
        Operation::ErasePage { offset } => slot[offset..offset + 4_096].fill(255),
        Operation::StoreWord { offset, word } => {
            slot[offset..offset + 4].copy_from_slice(&word);
        }
    }
}

/// What a fill of four bytes at this place of the file hands back.
fn store(file: &[u8], offset: usize) -> Operation {
    let word = file[offset..offset + 4].try_into().expect("four bytes");
    Operation::StoreWord { offset, word }
}

#[test]
fn sessions_by_plans() {
    let mut random = Random::new(806);
    for _ in 0..cases(300) {
        let draft = Draft::small(Form::File, &mut random);
        let (file, inputs) = (draft.file(), inputs(&draft.inputs));
        let length = slot_length(file.len(), &mut random);
        let mut slot = random.bytes(length);
        let mut session = Session::begin(&slot, file.len()).expect("good lengths");
        assert_eq!(session.plan_fill(&file, &slot), Err(alone(19)));
        assert_eq!(session.plan_close(&slot, inputs), Err(alone(19)));
        let zero = store(&[0; 4], 0);
        assert_eq!(session.plan_erase(&slot), Ok(zero), "the first erase");
        make(zero, &mut slot);
        for offset in (0..slot.len()).step_by(4_096) {
            let operation = Operation::ErasePage { offset };
            assert_eq!(session.plan_erase(&slot), Ok(operation));
            make(operation, &mut slot);
        }
        assert_eq!(session.plan_erase(&slot), Err(alone(19)));

        let taken = session.plan_fill(&file[..3], &slot);
        assert_eq!(taken, Ok((3, Operation::Nothing)));
        let taken = session.plan_fill(&file[3..], &slot);
        assert_eq!(taken, Ok((1, Operation::Nothing)), "the first word");
        for offset in (4..file.len()).step_by(4) {
            let operation = store(&file, offset);
            let taken = session.plan_fill(&file[offset..], &slot);
            assert_eq!(taken, Ok((4, operation)));
            make(operation, &mut slot);
        }
        assert_eq!(
            session.progress(),
            Progress {
                pages_erased: length / 4_096,
                pages: length / 4_096,
                bytes_taken: file.len(),
                bytes: file.len(),
            }
        );

        assert_eq!(session.confirm(&slot), Err(alone(19)));
        assert_eq!(session.plan_close(&slot, inputs), Ok(store(&file, 0)));
        assert!(!session.is_over());
        assert_eq!(session.confirm(&slot), Err(alone(27)));
        make(store(&file, 0), &mut slot);
        session = Session::from_words(session.words());
        assert_eq!(session.confirm(&slot), Ok(()));
        assert!(session.is_over());
        assert_eq!(session.confirm(&slot), Err(alone(19)));
        assert_eq!(slot[..file.len()], file);
    }
}

/// A question that is refused is told as it is, and a close that is refused has part and chunk.
#[test]
fn sessions_with_faulty_files() {
    let mut random = Random::new(805);
    let mut tally = Tally::new("faulty files by the wrapper");
    for _ in 0..cases(1_000) {
        let draft = faulty_draft(1, Form::File, &mut random);
        let file = draft.file();
        let length = slot_length(file.len(), &mut random);
        let mut slot = random.bytes(length);
        let mut session = Session::begin(&slot, file.len()).expect("good lengths");
        while session.erase(&mut slot).is_ok() {}
        let mut given = 0;
        while given < file.len() {
            given += session.fill(&file[given..], &mut slot).expect("its turn");
        }
        let digests = session.ask(&slot).expect("its turn");
        assert_eq!(digests.vendor, model::vendor_digest(&file).map_err(refusal));
        assert_eq!(
            digests.firmware,
            model::firmware_digest(&file).map_err(refusal)
        );
        let found = session.signatures(&slot);
        assert_signature(found.vendor, &slot, &model::vendor_signature(&file));
        assert_signature(found.firmware, &slot, &model::firmware_signature(&file));

        let by_model = model::check(Form::File, &file, &draft.inputs);
        tally.count(step(&by_model, file.len()));
        let by_model = by_model.map(|_| ()).map_err(refusal);
        let planned = session.clone().plan_close(&slot, inputs(&draft.inputs));
        assert_eq!(planned.map(|_| ()), by_model);
        assert_eq!(session.close(&mut slot, inputs(&draft.inputs)), by_model);
    }
    tally.assert_seen(
        10,
        &["S1", "S2", "S4", "S13", "S20", "S22", "S23/14", ACCEPTED],
    );
}

/// The words are those of the record, in its order.
#[test]
fn stored_words() {
    let mut slot = [0; 8_192];
    let mut session = Session::begin(&slot, 1_540).expect("good lengths");
    for words in [[0, 0, 1], [1, 0, 2], [2, 0, 3]] {
        assert_eq!(session.erase(&mut slot), Ok(()));
        assert_eq!(session.words()[3..6], words);
    }
    for piece in [b"abcd", b"efgh"] {
        assert_eq!(session.fill(piece, &mut slot), Ok(4));
    }
    assert_eq!(session.fill(b"i", &mut slot), Ok(1));
    let words = session.words();
    assert_eq!(words[..6], [1, 8_192, 1_540, 2, 9, 4]);
    assert_eq!(words[6], u32::from_le_bytes(*b"abcd"));
    assert_eq!(words[7] & 0xff, b'i'.into());
    assert_eq!(words[8..], [0; 8]);

    let mut random = Random::new(807);
    for _ in 0..1_000 {
        let words = std::array::from_fn(|_| random.word());
        assert_eq!(Session::from_words(words).words(), words);
    }
}

#[test]
fn how_a_session_is_shown() {
    let session = Session::begin(&[0; 8_192], 1_540).expect("good lengths");
    assert_eq!(
        format!("{session:?}"),
        "Session { phase: 1, progress: Progress { pages_erased: 0, pages: 2, bytes_taken: 0, \
         bytes: 1540 }, operations: 0, .. }"
    );
}
