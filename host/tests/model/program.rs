//! The inspecting program (specification, 12): what it writes for what is on its standard input.

use super::image::{check, Form, Inputs, YES};

const LIMIT: usize = 65_536;

/// Time 0, policy 2 of 3, both verdicts yes.
const INPUTS: Inputs = Inputs {
    time: 0,
    m: 2,
    n: 3,
    vendor: YES,
    firmware: YES,
};

/// The one line, with its line end.
pub fn inspect(input: &[u8]) -> String {
    if input.len() > LIMIT {
        return "too large\n".to_string();
    }
    match check(Form::File, input, &INPUTS) {
        Ok(_) => "accepted\n".to_string(),
        Err(refusal) => format!(
            "refused {} part {} chunk {}\n",
            refusal.number, refusal.part, refusal.chunk
        ),
    }
}
