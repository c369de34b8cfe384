//! Faults: the library touched memory that was not lent to it, or wrote where it was lent to be
//! read. What is compared and which call is under way is noted by each thread, so that it can be
//! told where the fault came.

use std::cell::{Cell, RefCell};
use std::fmt;

/// A comparison, by all that is needed to see it again.
#[derive(Clone, Copy)]
pub struct Place {
    pub group: &'static str,
    pub list: u64,
    pub index: usize,
    pub seed: u64,
}

impl fmt::Display for Place {
    fn fmt(&self, f: &mut fmt::Formatter) -> fmt::Result {
        let Place {
            group,
            list,
            index,
            seed,
        } = self;
        write!(f, "{group}, list {list}, message {index}, seed {seed}")
    }
}

/// An array that a call is lent: its name, where it begins, and its length.
pub type Array = (&'static str, *const u8, usize);

struct Call {
    name: String,
    arrays: Vec<Array>,
}

thread_local! {
    static PLACE: Cell<Option<Place>> = const { Cell::new(None) };
    static CALL: RefCell<Option<Call>> = const { RefCell::new(None) };
}

/// This is what is compared next.
pub fn at(place: Place) {
    PLACE.set(Some(place));
}

pub fn place() -> Place {
    PLACE.get().expect("noted before it is compared")
}

/// Makes a call of the library.
pub fn during<T>(name: impl Into<String>, arrays: &[Array], call: impl FnOnce() -> T) -> T {
    CALL.set(Some(Call {
        name: name.into(),
        arrays: arrays.to_vec(),
    }));
    let result = call();
    CALL.set(None);
    result
}

/// Of x86-64 Linux, as are the numbers below.
const FAULT: i32 = 11;
const WITH_INFORMATION: i32 = 4;
const BY_DEFAULT: usize = 0;
/// Where a signal's information has the address, and its context the error's number.
const ADDRESS_AT: usize = 2;
const ERROR_AT: usize = 24;
const WROTE: usize = 2;
/// An address that is not as far as this from an array is counted by its bytes.
const NEAR: usize = 4096;

#[repr(C)]
struct Action {
    handler: extern "C" fn(i32, *const usize, *const usize),
    mask: [u64; 16],
    flags: i32,
    restorer: usize,
}

unsafe extern "C" {
    fn sigaction(number: i32, new: *const Action, old: *mut Action) -> i32;
    fn signal(number: i32, handler: usize) -> usize;
}

/// Has a fault told that comes during a call of the library; the run then ends, and fails.
pub fn tell_of_faults() {
    let action = Action {
        handler: fault,
        mask: [0; 16],
        flags: WITH_INFORMATION,
        restorer: 0,
    };
    // SAFETY: the handler does not return to a call that has touched what it must not.
    let result = unsafe { sigaction(FAULT, &action, std::ptr::null_mut()) };
    assert!(result == 0, "no handler");
}

extern "C" fn fault(_: i32, information: *const usize, context: *const usize) {
    // SAFETY: the system hands over both, in this form.
    let (address, error) = unsafe { (*information.add(ADDRESS_AT), *context.add(ERROR_AT)) };
    match CALL.take() {
        Some(call) => {
            let (place, what) = (place(), told(&call, address, error & WROTE != 0));
            println!("DIFFERENCE in {place}: {what}");
            std::process::exit(1);
        }
        // Not the library's: it comes again, and ends the run as any other would.
        None => unsafe { signal(FAULT, BY_DEFAULT) },
    };
}

fn distance((_, start, length): &Array, address: usize) -> usize {
    let start = *start as usize;
    let behind = address.saturating_sub(start + length.saturating_sub(1));
    start.saturating_sub(address).max(behind)
}

fn told(call: &Call, address: usize, wrote: bool) -> String {
    let does = if wrote { "writes to" } else { "reads" };
    let near = call.arrays.iter();
    let near = near.min_by_key(|array| distance(array, address));
    let what = match near.filter(|array| distance(array, address) < NEAR) {
        Some((name, start, length)) => {
            let offset = address.wrapping_sub(*start as usize) as isize;
            format!("byte {offset} of its {name} of {length} bytes")
        }
        None => format!("address {address:#x}"),
    };
    format!("{} {does} {what}, which is not lent for that", call.name)
}
