//! Stored vectors: what programs of the gate are run on and held to, so that it needs no Rust. Each file is made here, by the
//! reference where it has the thing.

mod bytes;
mod pulses;
mod replies;
mod shapes;
mod sines;
mod tapes;

use crate::stored;
use crate::tally::{Tally, first_difference};
use std::path::Path;

/// A stored file by its path in the repository, and what makes it.
const FILES: [(&str, fn() -> Vec<u8>); 10] = [
    ("crates/test_le/stdin", bytes::input),
    ("crates/test_le/stdout", bytes::lines),
    ("crates/test_sin_cos/src/tables.rt", sines::tables),
    ("crates/test_pulses/stdout", pulses::lines),
    ("crates/test_replies/stdin", replies::records),
    ("crates/test_replies/stdout", replies::lines),
    ("crates/test_shapes/stdout", shapes::lines),
    ("crates/test_floats/stdin", stored::file),
    ("tapes/cases", tapes::cases),
    ("tapes/small.tape", tapes::small),
];

/// `harness vectors ROOT`: writes every file below ROOT. Tables in Rattle are then laid out by `rt fmt`.
pub fn write(root: &Path) -> i32 {
    for (name, make) in FILES {
        if let Err(e) = std::fs::write(root.join(name), make()) {
            eprintln!("{name}: {e}");
            return 1;
        }
    }
    0
}

/// Each stored file is what is made now; of tables in Rattle, but for the layout.
pub fn compare(tally: &mut Tally, root: &Path) {
    for (name, make) in FILES {
        let stored = std::fs::read(root.join(name)).unwrap_or_default();
        let wrong = match name.ends_with(".rt") {
            true => first_difference(name, &without_layout(&make()), &without_layout(&stored)),
            false => first_difference(name, &make(), &stored),
        };
        tally.compare("stored vectors", name, &stored, wrong);
    }
}

fn without_layout(text: &[u8]) -> Vec<u8> {
    text.iter().copied().filter(|b| !b.is_ascii_whitespace()).collect()
}
