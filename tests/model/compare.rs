//! What the library left in memory against what the model has.

use std::fmt::Debug;

use crate::lent::Lent;

/// The error says what differs.
pub type Compared<T> = Result<T, String>;

pub fn same(what: &str, library: &Lent, model: &[u8]) -> Compared<()> {
    if !library.guard_holds() {
        return Err(format!("{what}: bytes before it are written"));
    }
    let theirs = library.bytes();
    if theirs == model {
        return Ok(());
    }
    let at = theirs.iter().zip(model).take_while(|(a, b)| a == b).count();
    Err(format!(
        "{what} at byte {at}: library {:02x?}, model {:02x?}",
        theirs[at..].iter().take(8).collect::<Vec<_>>(),
        model[at..].iter().take(8).collect::<Vec<_>>()
    ))
}

pub fn same_count<T: PartialEq + Debug>(library: T, model: T) -> Compared<()> {
    if library == model {
        return Ok(());
    }
    Err(format!(
        "compressions: library {library:?}, model {model:?}"
    ))
}

pub fn same_answer(library: u32, model: u32) -> Compared<()> {
    if library == model {
        return Ok(());
    }
    Err(format!("answer: library {library}, model {model}"))
}
