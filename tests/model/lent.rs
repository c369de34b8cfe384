//! Memory for the library. It ends right before a page that nobody may touch, so that a read or a
//! write of even one byte too many is a fault; what stands around it on its own pages is looked at
//! after the call. Every page is mapped twice, for reading alone and for writing too: which of the
//! two a call gets says whether it may write.

use std::cell::{Cell, RefCell};
use std::collections::HashMap;
use std::ops::Range;
use std::ptr;
use std::slice;

/// Of x86-64 Linux, as are the numbers below.
const PAGE: usize = 4096;
const CLOSED: i32 = 0;
const SHARED: i32 = 1;

unsafe extern "C" {
    fn memfd_create(name: *const i8, flags: u32) -> i32;
    fn ftruncate(file: i32, length: i64) -> i32;
    fn close(file: i32) -> i32;
    fn mmap(at: *mut u8, length: usize, access: i32, flags: i32, file: i32, offset: i64)
    -> *mut u8;
    fn mprotect(at: *mut u8, length: usize, access: i32) -> i32;
}

/// What stands before the lent bytes, at least so often.
const GUARD: u8 = 0xa5;
const GUARDS: usize = 64;

/// More guards than stand before any lent bytes, or behind them.
static AROUND: [u8; GUARDS + PAGE] = [GUARD; GUARDS + PAGE];

/// What a call may do with memory that it is lent.
#[derive(Clone, Copy, PartialEq)]
pub enum Access {
    Read = 1,
    Write = 3,
}

/// The same open bytes, as they are lent for reading and for writing; a closed page is behind each.
#[derive(Clone, Copy)]
struct Views {
    read: *mut u8,
    write: *mut u8,
}

thread_local! {
    /// Pages that are lent no more, by their open bytes: mapping new ones for each call is slow,
    /// above all in two threads at once.
    static FREE: RefCell<HashMap<usize, Vec<Views>>> = RefCell::default();
    /// Whether the next empty array is lent by a null pointer: every other one is.
    static NULL: Cell<bool> = const { Cell::new(false) };
}

fn protect(view: *mut u8, bytes: Range<usize>, access: i32) {
    if !bytes.is_empty() {
        // SAFETY: these are whole pages of a view, and nobody has a reference to them.
        let result = unsafe { mprotect(view.add(bytes.start), bytes.len(), access) };
        assert!(result == 0, "pages whose access cannot be changed");
    }
}

/// New pages with so many open bytes.
fn map(open: usize) -> Views {
    let length = open + PAGE;
    // SAFETY: new memory, which nothing else refers to.
    unsafe {
        let file = memfd_create(c"lent".as_ptr(), 0);
        assert!(ftruncate(file, length as i64) == 0, "no memory");
        let [read, write] = [Access::Read, Access::Write].map(|access| {
            let view = mmap(ptr::null_mut(), length, access as i32, SHARED, file, 0);
            assert!(view as isize != -1, "no memory");
            protect(view, open..length, CLOSED);
            view
        });
        close(file);
        Views { read, write }
    }
}

pub struct Lent {
    views: Views,
    open: usize,
    /// Where the lent bytes stand among the open ones.
    place: Range<usize>,
    /// With this one of them, or behind the last, a page begins.
    page_at: usize,
    null: bool,
}

impl Lent {
    pub fn new(bytes: &[u8]) -> Lent {
        Lent::with_page_at(bytes, bytes.len())
    }

    /// A page begins with this one of the bytes.
    pub fn with_page_at(bytes: &[u8], page_at: usize) -> Lent {
        let before = (GUARDS + page_at).next_multiple_of(PAGE);
        let open = before + (bytes.len() - page_at).next_multiple_of(PAGE);
        let free = FREE.with_borrow_mut(|free| free.get_mut(&open).and_then(Vec::pop));
        let start = before - page_at;
        let place = start..start + bytes.len();
        let lent = Lent {
            views: free.unwrap_or_else(|| map(open)),
            open,
            place: place.clone(),
            page_at,
            null: bytes.is_empty() && NULL.replace(!NULL.get()),
        };
        // SAFETY (here and below): the open pages are this value's own, for as long as it lives,
        // and are open but during a call.
        let all = unsafe { slice::from_raw_parts_mut(lent.views.write, open) };
        all[..place.start].fill(GUARD);
        all[place.end..].fill(GUARD);
        all[place].copy_from_slice(bytes);
        lent
    }

    fn all(&self) -> &[u8] {
        unsafe { slice::from_raw_parts(self.views.write, self.open) }
    }

    pub fn bytes(&self) -> &[u8] {
        &self.all()[self.place.clone()]
    }

    /// The same bytes, on pages that begin with this one of them.
    pub fn put_page_at(&mut self, page_at: usize) {
        if self.page_at != page_at {
            *self = Lent::with_page_at(self.bytes(), page_at);
        }
    }

    pub fn guard_holds(&self) -> bool {
        let (before, rest) = self.all().split_at(self.place.start);
        let behind = &rest[self.place.len()..];
        [before, behind]
            .iter()
            .all(|guard| **guard == AROUND[..guard.len()])
    }

    fn pointer(&self, view: *mut u8) -> *mut u8 {
        if self.null {
            return ptr::null_mut();
        }
        unsafe { view.add(self.place.start) }
    }

    /// For reading: where the bytes begin, and how many they are.
    pub fn parts(&self) -> (*const u8, usize) {
        (self.pointer(self.views.read), self.place.len())
    }

    /// The same for writing.
    pub fn parts_mut(&mut self) -> (*mut u8, usize) {
        (self.pointer(self.views.write), self.place.len())
    }

    /// The pages that hold one of these bytes, by the open bytes that they have.
    fn pages(&self, part: &Range<usize>) -> Range<usize> {
        if part.is_empty() {
            return 0..0;
        }
        let (start, end) = (self.place.start + part.start, self.place.start + part.end);
        start / PAGE * PAGE..end.next_multiple_of(PAGE)
    }

    /// Whether no page that holds one of these bytes holds one of those.
    pub fn apart(&self, these: &Range<usize>, those: &Range<usize>) -> bool {
        let (these, those) = (self.pages(these), self.pages(those));
        these.is_empty() || those.is_empty() || these.end <= those.start || those.end <= these.start
    }

    /// Calls with the bytes' pointer and number; meanwhile all pages are closed that hold none of
    /// this part of the bytes.
    pub fn lend<T>(
        &self,
        access: Access,
        part: &Range<usize>,
        call: impl FnOnce(*mut u8, usize) -> T,
    ) -> T {
        let view = match access {
            Access::Read => self.views.read,
            Access::Write => self.views.write,
        };
        let pages = self.pages(part);
        let closed = [0..pages.start, pages.end..self.open];
        for bytes in closed.clone() {
            protect(view, bytes, CLOSED);
        }
        let result = call(self.pointer(view), self.place.len());
        for bytes in closed {
            protect(view, bytes, access as i32);
        }
        result
    }
}

impl Clone for Lent {
    fn clone(&self) -> Lent {
        Lent::with_page_at(self.bytes(), self.page_at)
    }
}

impl Drop for Lent {
    fn drop(&mut self) {
        FREE.with_borrow_mut(|free| free.entry(self.open).or_default().push(self.views));
    }
}
