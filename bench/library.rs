//! The proved simulator: the static library of `crates/speed`, wrapped in safe functions. All unsafe code of the benchmark is
//! here. The declarations are written by hand to fit `crates/speed/src/exports.rt`, where a slice is a pointer and a length, and
//! the allocator takes no bytes.
use std::ffi::c_long;

/// A call in plain numbers: 0 read, 1 write, 2 fetch, 3 resume, 4 flush, 5 commit.
#[repr(C)]
#[derive(Clone, Copy)]
pub struct Request {
    pub kind: u16,
    pub core: u16,
    pub block: u16,
}

/// What a schedule came to.
#[repr(C)]
#[derive(Clone, Copy, Default, PartialEq, Eq, Debug)]
pub struct Tally {
    pub accesses: u32,
    pub total: u64,
}

unsafe extern "C" {
    fn speed_play(
        deep: bool,
        blocks: u16,
        requests: *const Request,
        count: usize,
        tally: *mut Tally,
    ) -> bool;
    fn speed_report(text: *const u8, length: usize, buffer: *mut u8, room: usize) -> usize;
    // The C library's: the processor time of this process, in microseconds.
    safe fn clock() -> c_long;
}

fn play(deep: bool, blocks: u16, requests: &[Request]) -> Option<Tally> {
    let mut tally = Tally::default();
    // SAFETY: the pointer and the length are of one slice, and both borrows last for the call.
    let played = unsafe {
        speed_play(
            deep,
            blocks,
            requests.as_ptr(),
            requests.len(),
            &raw mut tally,
        )
    };
    played.then_some(tally)
}

/// Plays the requests on two cores of two levels; none where the memory has no block or more than 4,096.
pub fn two_cores(blocks: u16, requests: &[Request]) -> Option<Tally> {
    play(false, blocks, requests)
}

/// The same on eight cores of four levels.
pub fn eight_cores(blocks: u16, requests: &[Request]) -> Option<Tally> {
    play(true, blocks, requests)
}

/// Writes the report of a scenario to the front of the buffer, and gives it back; none where it does not fit.
pub fn report<'b>(text: &[u8], buffer: &'b mut [u8]) -> Option<&'b [u8]> {
    // SAFETY: each pointer and the length after it are of one slice, and both are borrowed for the call.
    let written =
        unsafe { speed_report(text.as_ptr(), text.len(), buffer.as_mut_ptr(), buffer.len()) };
    (written > 0).then(|| &buffer[..written])
}

/// The processor time of this process in seconds, which other work on the computer disturbs less than the clock.
pub fn seconds() -> f64 {
    clock() as f64 / 1e6
}
