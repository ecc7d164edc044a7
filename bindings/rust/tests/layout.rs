//! The records of this crate against those of the library that it is linked with.

use kettlefrost::raw::{self, Answer, Part, Reading, RegisterAnswer, Slot, Written};

#[test]
fn records_have_the_sizes_of_the_library() {
    let sizes = [
        size_of::<RegisterAnswer>(),
        size_of::<Answer>(),
        size_of::<Slot>(),
        size_of::<Reading>(),
        size_of::<Part>(),
        size_of::<Written>(),
    ];
    assert_eq!(sizes.iter().fold(0, |n, &size| n * 1_000 + size as u64), raw::layout());
}
