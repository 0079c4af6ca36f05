//! The fuzzer's bytes, read as choices. It has the calls of the host tests' `Random`, so that their
//! drafts, faults and moments are drawn from an input: a change of one byte changes one choice.

#[path = "../../host/tests/common/random.rs"]
pub mod splitmix;

pub struct Input {
    bytes: Vec<u8>,
    at: usize,
    /// What is drawn once the bytes have ended. It is the same for all inputs.
    rest: splitmix::Random,
}

impl Input {
    pub fn over(bytes: &[u8]) -> Input {
        let mut input = Input::new(0);
        input.bytes.extend(bytes);
        input
    }

    /// Choices from a seed, as `Random` makes them.
    pub fn new(seed: u64) -> Input {
        let (bytes, rest) = (Vec::new(), splitmix::Random::new(seed));
        Input { bytes, at: 0, rest }
    }

    pub fn has_ended(&self) -> bool {
        self.at >= self.bytes.len()
    }

    pub fn byte(&mut self) -> u8 {
        let byte = self.bytes.get(self.at).copied();
        self.at += 1;
        byte.unwrap_or_else(|| self.rest.byte())
    }

    /// So many bytes as a number, least byte first.
    fn number(&mut self, bytes: usize) -> usize {
        (0..bytes).fold(0, |number, i| number | usize::from(self.byte()) << (8 * i))
    }

    pub fn word(&mut self) -> u32 {
        self.number(4) as u32
    }

    /// A number of at most `limit`, from as few bytes as it needs.
    pub fn up_to(&mut self, limit: usize) -> usize {
        let width = match limit {
            0 => 0,
            1..=0xff => 1,
            0x100..=0xffff => 2,
            _ => 4,
        };
        self.number(width) % (limit + 1)
    }

    /// True for a value from the middle, since a fuzzer tries the ends most.
    pub fn one_in(&mut self, count: usize) -> bool {
        self.up_to(count - 1) == count / 2
    }

    pub fn pick<T: Copy>(&mut self, choices: &[T]) -> T {
        choices[self.up_to(choices.len() - 1)]
    }

    /// Bytes from a seed of one byte: all 0, all 255, or random ones.
    pub fn bytes(&mut self, length: usize) -> Vec<u8> {
        match self.byte() {
            0 => vec![0; length],
            255 => vec![255; length],
            seed => splitmix::Random::new(seed.into()).bytes(length),
        }
    }
}
