//! Each allocation of the library refused in turn: a caller who does what `Shortage` says gets all,
//! or is told that something is missing. Rust's own allocations don't go through `malloc` here.
#![cfg(all(target_os = "linux", target_env = "gnu"))]

mod common;

use common::{frame, rows, segment, FLOW, SID};
use segrx::{
    Counts, Decision, Error, Flow, Frame, LossRule, Receiver, Request, SetupError, Shortage,
};
use std::alloc::{GlobalAlloc, Layout};
use std::cell::Cell;
use std::ffi::c_void;
use std::ptr;

extern "C" {
    fn __libc_malloc(bytes: usize) -> *mut c_void;
    fn __libc_realloc(memory: *mut c_void, bytes: usize) -> *mut c_void;
    fn __libc_memalign(alignment: usize, bytes: usize) -> *mut c_void;
    fn __libc_free(memory: *mut c_void);
}

thread_local! {
    /// How many allocations are granted before one is refused.
    static GRANTED: Cell<Option<usize>> = const { Cell::new(None) };
}

fn is_refused() -> bool {
    GRANTED.with(|granted| {
        let left = granted.get();
        granted.set(left.and_then(|left| left.checked_sub(1)));
        left == Some(0)
    })
}

/// The library's `malloc`, which comes before that of the C library.
#[no_mangle]
extern "C" fn malloc(bytes: usize) -> *mut c_void {
    if is_refused() {
        return ptr::null_mut();
    }
    // SAFETY: it is the C library's `malloc`, which asks nothing of its caller.
    unsafe { __libc_malloc(bytes) }
}

/// The library's `realloc`.
///
/// # Safety
///
/// That of the C library's.
#[no_mangle]
unsafe extern "C" fn realloc(memory: *mut c_void, bytes: usize) -> *mut c_void {
    if is_refused() {
        return ptr::null_mut();
    }
    // SAFETY: the caller's.
    unsafe { __libc_realloc(memory, bytes) }
}

struct PastMalloc;

// SAFETY: the C library gives memory that nobody has, aligned as asked, and takes back what it
// gave.
unsafe impl GlobalAlloc for PastMalloc {
    unsafe fn alloc(&self, layout: Layout) -> *mut u8 {
        // SAFETY: alignments are powers of two.
        unsafe { __libc_memalign(layout.align().max(16), layout.size()).cast() }
    }

    unsafe fn dealloc(&self, memory: *mut u8, _: Layout) {
        // SAFETY: it is memory of `alloc`.
        unsafe { __libc_free(memory.cast()) }
    }
}

#[global_allocator]
static RUST: PastMalloc = PastMalloc;

/// What came of a receiver, and how often each shortage was met.
#[derive(Debug, Default, PartialEq)]
struct Played {
    frames: Vec<Frame>,
    requests: Vec<Request>,
    counts: Vec<Counts>,
    is_whole: bool,
}

#[derive(Debug, Default)]
struct Met {
    not_taken: usize,
    unfinished: usize,
    not_kept: usize,
}

/// Makes a call until it is done, as `Shortage` says.
fn persist(
    receiver: &mut Receiver,
    met: &mut Met,
    mut call: impl FnMut(&mut Receiver) -> Result<(), Error>,
) -> Result<(), Shortage> {
    loop {
        match call(receiver) {
            Ok(()) => return Ok(()),
            Err(Error::Memory(Shortage::NotTaken)) => met.not_taken += 1,
            Err(Error::Memory(Shortage::Unfinished)) => {
                met.unfinished += 1;
                assert_eq!(receiver.go_on(0), Ok(()));
                return Ok(());
            }
            Err(Error::Memory(Shortage::NotKept)) => {
                met.not_kept += 1;
                return Err(Shortage::NotKept);
            }
            Err(error) => panic!("{}", error),
        }
    }
}

fn made(met: &mut Met) -> Receiver {
    let flows = [Flow { window: 64, ..FLOW }];
    loop {
        match Receiver::new(2, &flows, &rows(), LossRule::Passed) {
            Ok(receiver) => return receiver,
            Err(error) => assert_eq!(error, SetupError::OutOfMemory),
        }
        met.not_taken += 1;
    }
}

/// Segments out of order with several frames each, a decision, a restart and the close.
fn hand_in(receiver: &mut Receiver, met: &mut Met) -> Result<Vec<Counts>, Shortage> {
    let mut counts = Vec::new();
    let frames: Vec<u8> = (0..9).flat_map(|k| frame(40 + k)).collect();
    for number in (1..20).chain(0..1).chain(22..40) {
        let bytes = segment(number, number, &frames);
        let (size, grant) = (bytes.len() as u32, u32::from(number));
        persist(receiver, met, |it| it.grant(0, grant, SID, size))?;
        persist(receiver, met, |it| {
            it.burst(0, grant, true, &bytes).map(|_| ())
        })?;
    }
    persist(receiver, met, |it| it.decide(0, Decision::GapTo(21)))?;
    persist(receiver, met, |it| {
        it.restart(0, 7).map(|told| counts.push(told))
    })?;
    persist(receiver, met, |it| it.close().map_err(Error::from))?;
    counts.push(receiver.counts(0).expect("it is closed"));
    Ok(counts)
}

fn play(met: &mut Met) -> Played {
    let mut receiver = made(met);
    let handed = hand_in(&mut receiver, met);
    Played {
        frames: receiver.frames().collect(),
        requests: receiver.requests().collect(),
        is_whole: handed.is_ok(),
        counts: handed.unwrap_or_default(),
    }
}

#[test]
fn each_allocation_refused_in_turn() {
    let mut met = Met::default();
    let wanted = play(&mut met);
    assert_eq!((wanted.frames.len(), wanted.requests.len()), (38 * 9, 37));
    for allocation in 0.. {
        GRANTED.with(|granted| granted.set(Some(allocation)));
        let played = play(&mut met);
        let was_refused = GRANTED.with(|granted| granted.replace(None)).is_none();
        if played.is_whole {
            assert_eq!(played, wanted, "with allocation {} refused", allocation);
        }
        if !was_refused {
            break;
        }
    }
    assert!(
        met.not_taken > 0 && met.unfinished > 0 && met.not_kept > 0,
        "{:?}",
        met
    );
}
