//! The functions of `segrx.h`, each in a safe call that does what the header asks of its callers.
//! All `unsafe` code of the crate is here. The calls answer the header's statuses.
//!
//! What holds for every call, by the header's paragraphs:
//!
//! - *Handles.* A [`Handle`] is made by `segrx_receiver_new` alone, where it answered `SEGRX_OK`.
//!   It can't be copied, and [`Drop`] is the one place that passes it to `segrx_receiver_free`.
//! - *Threads.* A [`NonNull`] is neither [`Send`] nor [`Sync`], so a handle is used by the thread
//!   that made it and by no other.
//! - *Pointers.* They come from references, slices and vectors, so none is NULL, also where the
//!   length is 0. Those that are lent for a write, or for a read where the header asks for memory
//!   that is writable and that nothing else uses, come from `&mut` borrows, which also can't
//!   overlap. They last until the call has returned, and the library keeps none.
//! - *What is lent.* The bytes of a frame that is lent are good until the next call with the
//!   handle: they are handed out for as long as the `&mut` borrow of the [`Handle`], without which
//!   there is no other call, and no drop.
//! - *Memory.* The library takes its own from `malloc`; Rust's doesn't cross the border.
#![allow(unsafe_code)]

use crate::status::Status;
use crate::values::{Counts, Flow, LossRule, Request, Row, Waiting};
use std::ptr::{self, NonNull};
use std::slice;

/// The most bytes of room for a frame.
const MOST_ROOM: usize = (1 << 31) - 1;

/// What a handle points to, which is the library's.
#[repr(C)]
struct Opaque {
    _opaque: [u8; 0],
}

/// `struct segrx_frame`.
#[derive(Clone, Copy, Default)]
#[repr(C)]
pub(crate) struct FrameHead {
    /// The index of its flow.
    pub(crate) flow: usize,
    /// How many bytes it has.
    pub(crate) length: usize,
}

extern "C" {
    fn segrx_receiver_new(
        channels: u32,
        flows: *const Flow,
        flow_count: usize,
        rows: *const Row,
        row_count: usize,
        rule: u32,
        receiver: *mut *mut Opaque,
    ) -> Status;
    fn segrx_receiver_grant(
        receiver: *mut Opaque,
        channel: usize,
        number: u32,
        sid: u16,
        bytes: u32,
    ) -> Status;
    fn segrx_receiver_burst_waiting(
        receiver: *mut Opaque,
        channel: usize,
        grant: u32,
        check_is_right: bool,
        bytes: *const u8,
        count: usize,
        waiting: *mut Waiting,
    ) -> Status;
    fn segrx_receiver_decide(
        receiver: *mut Opaque,
        flow: usize,
        decision: u32,
        number: u16,
    ) -> Status;
    fn segrx_receiver_go_on(receiver: *mut Opaque, flow: usize) -> Status;
    fn segrx_receiver_next_frame(
        receiver: *mut Opaque,
        room: *mut u8,
        capacity: usize,
        frame: *mut FrameHead,
    ) -> Status;
    fn segrx_receiver_lend_frame(
        receiver: *mut Opaque,
        bytes: *mut *const u8,
        frame: *mut FrameHead,
    ) -> Status;
    fn segrx_receiver_next_request(receiver: *mut Opaque, request: *mut Request) -> Status;
    fn segrx_receiver_counts(receiver: *mut Opaque, flow: usize, counts: *mut Counts) -> Status;
    fn segrx_receiver_restart(
        receiver: *mut Opaque,
        flow: usize,
        first: u16,
        counts: *mut Counts,
    ) -> Status;
    fn segrx_receiver_close(receiver: *mut Opaque) -> Status;
    fn segrx_receiver_free(receiver: *mut Opaque) -> Status;
}

/// A handle of a receiver, which frees it.
pub(crate) struct Handle(NonNull<Opaque>);

impl Handle {
    pub(crate) fn new(
        channels: u32,
        flows: &mut [Flow],
        rows: &mut [Row],
        rule: LossRule,
    ) -> Result<Handle, Status> {
        let mut made = ptr::null_mut();
        // SAFETY: the pointers are as in the head of this module, with the lengths of their slices.
        // `Flow` and `Row` are laid out as the header's structs, and are initialized.
        let status = unsafe {
            segrx_receiver_new(
                channels,
                flows.as_mut_ptr(),
                flows.len(),
                rows.as_mut_ptr(),
                rows.len(),
                rule as u32,
                &mut made,
            )
        };
        match NonNull::new(made) {
            Some(made) if status == Status::OK => Ok(Handle(made)),
            _ => Err(status),
        }
    }

    pub(crate) fn grant(&mut self, channel: usize, number: u32, sid: u16, bytes: u32) -> Status {
        // SAFETY: the handle is as in the head of this module.
        unsafe { segrx_receiver_grant(self.0.as_ptr(), channel, number, sid, bytes) }
    }

    /// Takes a burst, and tells how much waits then. The bytes are no more than the library takes.
    pub(crate) fn burst(
        &mut self,
        channel: usize,
        grant: u32,
        check_is_right: bool,
        bytes: &mut [u8],
    ) -> (Status, Waiting) {
        let mut waiting = Waiting::default();
        // SAFETY: handle and pointers are as in the head of this module, with the slice's length.
        // `Waiting` is laid out as the header's struct, and is initialized.
        let status = unsafe {
            segrx_receiver_burst_waiting(
                self.0.as_ptr(),
                channel,
                grant,
                check_is_right,
                bytes.as_mut_ptr(),
                bytes.len(),
                &mut waiting,
            )
        };
        (status, waiting)
    }

    pub(crate) fn decide(&mut self, flow: usize, decision: u32, number: u16) -> Status {
        // SAFETY: the handle is as in the head of this module.
        unsafe { segrx_receiver_decide(self.0.as_ptr(), flow, decision, number) }
    }

    pub(crate) fn go_on(&mut self, flow: usize) -> Status {
        // SAFETY: the handle is as in the head of this module.
        unsafe { segrx_receiver_go_on(self.0.as_ptr(), flow) }
    }

    /// Tells the first frame that waits. Where all its bytes fit into the capacity of the room,
    /// they take the place of what was there.
    pub(crate) fn next_frame(&mut self, room: &mut Vec<u8>) -> (Status, FrameHead) {
        let mut frame = FrameHead::default();
        room.clear();
        let spare = room.spare_capacity_mut();
        let capacity = spare.len().min(MOST_ROOM);
        // SAFETY: handle and pointers are as in the head of this module. The vector has room for so
        // many bytes, which the header doesn't ask to be initialized, as they are no structs.
        let status = unsafe {
            segrx_receiver_next_frame(
                self.0.as_ptr(),
                spare.as_mut_ptr().cast(),
                capacity,
                &mut frame,
            )
        };
        if status == Status::OK {
            // SAFETY: at SEGRX_OK so many bytes were copied to the front of the room, no more than
            // its capacity.
            unsafe { room.set_len(frame.length) };
        }
        (status, frame)
    }

    /// Lends the first frame that waits: the index of its flow, and its bytes. Where there is none
    /// it says so by its status.
    pub(crate) fn lend_frame(&mut self) -> Result<(usize, &[u8]), Status> {
        let mut bytes = ptr::null();
        let mut frame = FrameHead::default();
        // SAFETY: handle and pointers are as in the head of this module. `FrameHead` is laid out as
        // the header's struct, and is initialized.
        let status = unsafe { segrx_receiver_lend_frame(self.0.as_ptr(), &mut bytes, &mut frame) };
        if status != Status::OK {
            return Err(status);
        }
        // SAFETY: at SEGRX_OK so many bytes are there, until the next call with the handle, and the
        // library changes none of them until then.
        let lent = unsafe { slice::from_raw_parts(bytes, frame.length) };
        Ok((frame.flow, lent))
    }

    pub(crate) fn next_request(&mut self) -> (Status, Request) {
        let mut request = Request::default();
        // SAFETY: handle and pointer are as in the head of this module. `Request` is laid out as
        // the header's struct, and is initialized.
        let status = unsafe { segrx_receiver_next_request(self.0.as_ptr(), &mut request) };
        (status, request)
    }

    pub(crate) fn counts(&self, flow: usize) -> (Status, Counts) {
        let mut counts = Counts::default();
        // SAFETY: handle and pointer are as in the head of this module. `Counts` is laid out as the
        // header's struct, and is initialized. The call changes nothing of the receiver, and no
        // other one is under way, since `&Handle` doesn't leave its thread.
        let status = unsafe { segrx_receiver_counts(self.0.as_ptr(), flow, &mut counts) };
        (status, counts)
    }

    pub(crate) fn restart(&mut self, flow: usize, first: u16) -> (Status, Counts) {
        let mut counts = Counts::default();
        // SAFETY: as in `counts`.
        let status = unsafe { segrx_receiver_restart(self.0.as_ptr(), flow, first, &mut counts) };
        (status, counts)
    }

    pub(crate) fn close(&mut self) -> Status {
        // SAFETY: the handle is as in the head of this module.
        unsafe { segrx_receiver_close(self.0.as_ptr()) }
    }
}

impl Drop for Handle {
    fn drop(&mut self) {
        // SAFETY: the handle is as in the head of this module: it wasn't freed before, and after
        // this nobody has it.
        unsafe { segrx_receiver_free(self.0.as_ptr()) };
    }
}
