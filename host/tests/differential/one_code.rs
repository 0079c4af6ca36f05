//! One header, one code. Two images with the same headers are not both accepted unless their code is
//! the same: where a byte of it is changed, the check names the chunk that holds the byte. That it is
//! the header that refuses the other code is seen too: with the hash that fits it is accepted.

use crate::archive;
use crate::area::{filler, loader_inputs, AreaDraft, AREAS};
use crate::checks::FORMS;
use crate::common::random::Random;
use crate::draft::{inputs, Draft};
use crate::faults::change;
use crate::model::blake2s::blake2s;
use crate::model::image::{self, Form, Image, Refusal};
use crate::model::layout::Hash;
use crate::model::loader;
use crate::model::older::{self, Headers};
use crate::model::sha256::sha256;
use crate::older_draft::OlderDraft;
use std::ops::Range;

type Answer = Result<Image, Refusal>;

/// An image that its two checks accept.
struct Accepted {
    /// Headers and code.
    bytes: Vec<u8>,
    /// Where the code of each used chunk stands.
    chunks: Vec<Range<usize>>,
    hash: Hash,
    /// The answer of both checks, which is the same. What may follow the code follows it.
    check: Box<dyn Fn(&[u8]) -> Answer>,
}

/// Bytes of the code, how many chunks it uses, and bytes in the last of these.
type Row = (usize, usize, usize);

const OF_V_512: [Row; 5] = [
    (4, 1, 4),
    (129_536, 1, 129_536),
    (129_540, 2, 4),
    (392_680, 4, 1_000),
    (2_095_616, 16, 131_072),
];
const OF_V_1_024: [Row; 2] = [(260_092, 2, 131_068), (260_096, 2, 131_072)];
const OF_V_65_536: [Row; 4] = [
    (4, 1, 4),
    (64_512, 1, 64_512),
    (64_516, 2, 4),
    (326_664, 4, 8),
];
const OF_LOADER: [Row; 4] = [(4, 1, 4), (64, 1, 64), (68, 1, 68), (130_048, 1, 130_048)];
const OF_OLDER: [Row; 4] = [
    (4, 1, 4),
    (129_792, 1, 129_792),
    (129_796, 2, 4),
    (262_864, 3, 2_000),
];

/// Where the used chunks of code stand that starts here: chunk 1 ends at `end`, and each other 131,072
/// bytes after the one before it, unless the code does.
fn chunks(start: usize, end: usize, (code, used, last): Row) -> Vec<Range<usize>> {
    let ends = (0..used).map(|more| (end + 131_072 * more).min(start + code));
    let starts = [start].into_iter().chain(ends.clone());
    let chunks: Vec<_> = starts.zip(ends).map(|(from, to)| from..to).collect();
    let whole = start + code;
    assert_eq!(chunks.last(), Some(&(whole - last..whole)));
    chunks
}

fn alike(answers: [Answer; 2]) -> Answer {
    let [first, second] = answers;
    assert_eq!(first, second);
    first
}

/// The image as a file, or in a slot with erased bytes behind it.
fn lent(form: Form, image: &[u8]) -> Vec<u8> {
    let erased = match form {
        Form::File => 0,
        Form::Slot => 77,
    };
    [image, &vec![255; erased]].concat()
}

fn firmware(v: usize, row: Row, random: &mut Random) -> Accepted {
    let draft = Draft::with_v(v, row.0, inputs(random), random);
    let inputs = draft.inputs;
    let check = move |bytes: &[u8]| {
        alike(FORMS.map(|form| {
            let lent = lent(form, bytes);
            let answer = archive::image::check(form, &lent, &inputs);
            assert_eq!(answer, image::check(form, &lent, &inputs));
            answer
        }))
    };
    Accepted {
        bytes: draft.bytes(),
        chunks: chunks(v + 1_024, 131_072, row),
        hash: blake2s,
        check: Box::new(check),
    }
}

/// On a card, and in the internal area.
fn loader(row: Row, random: &mut Random) -> Accepted {
    let inputs = loader_inputs(random);
    let draft = AreaDraft::with_code(row.0, inputs, AREAS[0], random);
    let check = move |bytes: &[u8]| {
        alike(AREAS.map(|area| {
            let lent = [bytes, &[filler(area); 77]].concat();
            let answer = archive::loader::check(area, &lent, &inputs);
            assert_eq!(answer, loader::check(area, &lent, &inputs));
            answer
        }))
    };
    Accepted {
        bytes: [draft.header, draft.code].concat(),
        chunks: chunks(1_024, 131_072, row),
        hash: blake2s,
        check: Box::new(check),
    }
}

fn older(headers: Headers, row: Row, random: &mut Random) -> Accepted {
    let draft = OlderDraft::with_code(row.0, (headers, Form::File), random);
    let inputs = draft.inputs;
    let check = move |bytes: &[u8]| {
        alike(FORMS.map(|form| {
            let lent = lent(form, bytes);
            let answer = archive::older::check(headers, form, &lent, &inputs);
            assert_eq!(answer, older::check(headers, form, &lent, &inputs));
            answer
        }))
    };
    let start = headers.v2() + 1_024;
    Accepted {
        bytes: draft.bytes(),
        chunks: chunks(start, start + 129_792, row),
        hash: sha256,
        check: Box::new(check),
    }
}

/// One of each row.
fn images(random: &mut Random) -> Vec<Accepted> {
    let mut images = Vec::new();
    images.extend(OF_V_512.map(|row| firmware(512, row, random)));
    images.extend(OF_V_1_024.map(|row| firmware(1_024, row, random)));
    images.extend(OF_V_65_536.map(|row| firmware(65_536, row, random)));
    images.extend(OF_LOADER.map(|row| loader(row, random)));
    for headers in [Headers::V2, Headers::Pair] {
        images.extend(OF_OLDER.map(|row| older(headers, row, random)));
    }
    images
}

impl Accepted {
    /// Each used chunk, and where it is to be changed: at its first byte, in the middle, and at its
    /// last byte.
    fn places(&self) -> Vec<(usize, usize)> {
        let of_chunk = |(i, chunk): (usize, &Range<usize>)| {
            let middle = (chunk.start + chunk.end) / 2;
            [chunk.start, middle, chunk.end - 1].map(|at| (i + 1, at))
        };
        self.chunks.iter().enumerate().flat_map(of_chunk).collect()
    }

    /// Puts the digest of chunk k, as it is now, into the header in front of the code. Then that
    /// header is another.
    fn mend(&self, k: usize, bytes: &mut [u8]) {
        let digest = (self.hash)(&bytes[self.chunks[k - 1].clone()]);
        let at = self.chunks[0].start - 1_024 + 32 * k;
        let hash = &mut bytes[at..at + 32];
        assert_ne!(hash, digest);
        hash.copy_from_slice(&digest);
    }

    fn check(&self, bytes: &[u8]) -> Answer {
        (self.check)(bytes)
    }
}

fn wrong_chunk(k: usize) -> Answer {
    Err(Refusal {
        number: 14,
        part: 3,
        chunk: k as u32,
    })
}

#[test]
fn a_changed_chunk_is_named() {
    let mut random = Random::new(2101);
    for image in images(&mut random) {
        assert!(image.check(&image.bytes).is_ok());
        for (k, at) in image.places() {
            let mut bytes = image.bytes.clone();
            change(&mut bytes[at], &mut random);
            assert_eq!(image.check(&bytes), wrong_chunk(k), "{at}");
        }
    }
}

/// The same changes, with the hash of the chunk changed too. What is told is the same.
#[test]
fn with_the_hash_that_fits_it_is_accepted() {
    let mut random = Random::new(2102);
    for image in images(&mut random) {
        let accepted = image.check(&image.bytes);
        assert!(accepted.is_ok());
        for (k, at) in image.places() {
            let mut bytes = image.bytes.clone();
            change(&mut bytes[at], &mut random);
            image.mend(k, &mut bytes);
            assert_eq!(image.check(&bytes), accepted, "{at}");
        }
    }
}

/// Of two changed chunks the lower is named; with the hash that fits the lower, the higher is.
#[test]
fn the_lower_of_two_is_named() {
    let mut random = Random::new(2103);
    for image in images(&mut random) {
        for higher in 2..=image.chunks.len() {
            let lower = 1 + random.up_to(higher - 2);
            let mut bytes = image.bytes.clone();
            for k in [lower, higher] {
                let chunk = image.chunks[k - 1].clone();
                let at = chunk.start + random.up_to(chunk.len() - 1);
                change(&mut bytes[at], &mut random);
            }
            assert_eq!(image.check(&bytes), wrong_chunk(lower), "and {higher}");
            image.mend(lower, &mut bytes);
            assert_eq!(image.check(&bytes), wrong_chunk(higher), "not {lower}");
        }
    }
}
