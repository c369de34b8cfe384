//! What the library reads off a state against the model: the status, and length and cost of the
//! block message that is due.

use crate::capi::{self, Compressions};
use crate::compare::{Compared, same_answer, same_count};
use crate::coverage::{COST, Coverage, DUE, STATUS};
use crate::device::Device;
use crate::layout;
use crate::manifest::Outcome;

/// What stands in the memory that is lent, before a call and where it writes nothing.
pub const BEFORE: u32 = 0xa5a5_a5a5;

/// All readers, on one state.
pub fn compare(state: &[u8], coverage: &mut Coverage) -> Compared<()> {
    let answer = status(state).map_err(|what| format!("status: {what}"))?;
    coverage.count(STATUS, answer);
    let answer = due(state).map_err(|what| format!("length due: {what}"))?;
    coverage.count(DUE, answer);
    let answer = cost(state).map_err(|what| format!("cost: {what}"))?;
    coverage.count(COST, answer);
    Ok(())
}

fn model<T>(state: &[u8], read: impl Fn(&Device) -> Outcome<T>) -> Outcome<T> {
    layout::read(state).and_then(|device| read(&device))
}

pub fn status(state: &[u8]) -> Compared<u32> {
    let (mut out, mut library_out) = ([BEFORE; 9], [BEFORE; 9]);
    let answer = match model(state, Device::status) {
        Ok(numbers) => {
            out[1..8].copy_from_slice(&numbers);
            0
        }
        Err(refusal) => refusal,
    };
    same_answer(capi::status(state, &mut library_out), answer)?;
    if library_out != out {
        return Err(format!("library {library_out:?}, model {out:?}"));
    }
    Ok(answer)
}

pub fn due(state: &[u8]) -> Compared<u32> {
    let (mut length, mut library_length) = (BEFORE as usize, BEFORE as usize);
    let answer = match model(state, Device::due_length) {
        Ok(due) => {
            length = due;
            0
        }
        Err(refusal) => refusal,
    };
    same_answer(
        capi::block_message_length(state, &mut library_length),
        answer,
    )?;
    if library_length != length {
        return Err(format!("library {library_length}, model {length}"));
    }
    Ok(answer)
}

pub fn cost(state: &[u8]) -> Compared<u32> {
    let mut library_compressions = [BEFORE; 3];
    let answer = capi::block_cost(state, &mut library_compressions);
    compare_compressions(
        answer,
        library_compressions,
        model(state, Device::block_cost),
    )
}

/// An answer, and the compressions where there is no refusal; else what stood there stays.
pub fn compare_compressions(
    library: u32,
    library_compressions: Compressions,
    model: Outcome<u32>,
) -> Compared<u32> {
    let answer = model.err().unwrap_or(0);
    same_answer(library, answer)?;
    let compressions = [BEFORE, model.unwrap_or(BEFORE), BEFORE];
    same_count(library_compressions, compressions)?;
    Ok(answer)
}
