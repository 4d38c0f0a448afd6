//! A file that arrives in pieces.

use crate::line::{bytes, Line};
use crate::shown::given;
use nzd::ffi;

/// `ROOM CALL..`: the length of the buffer, then calls of a new receiver over it, each a piece or `reset`. For each call how many
/// bytes are then held and the place of the first unfinished field; a comma stands between two.
pub fn calls(line: &Line) -> String {
    let mut buffer = vec![0; line.number(0)];
    let mut receiver = ffi::Receiver::default();
    let call = |word: &str| {
        let mut result = 0;
        if word == "reset" {
            ffi::receiver_reset(&mut receiver);
        } else {
            result = ffi::receiver_add(&mut receiver, &mut buffer, &bytes(word));
        }
        given(result, format!("{} {}", receiver.held, receiver.place))
    };
    line.words_from(1).map(call).collect::<Vec<_>>().join(", ")
}
