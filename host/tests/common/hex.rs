//! Digests in hexadecimal, as documents print them. A test that cites a document keeps the
//! document's text, so that a reader can compare the two.

pub fn digest(text: &str) -> [u8; 32] {
    assert_eq!(text.len(), 64, "a digest has 64 digits");
    std::array::from_fn(|i| u8::from_str_radix(&text[2 * i..2 * i + 2], 16).expect("two digits"))
}
