//! The receiver.

use crate::errors::{Error, SetupError, Shortage};
use crate::handle::Handle;
use crate::status::Status;
use crate::values::{
    Counts, Decision, Flow, Frame, LentFrame, LossRule, Request, Row, Verdict, Waiting,
};
use std::fmt::{self, Debug, Formatter};
use std::iter;

/// The most bytes that a burst may have. The library looks at this before all else.
const LONGEST_BURST: usize = 65_535;

/// A receiver of up to 16 upstream channels and up to 16,384 service flows.
///
/// What it gives, frames and requests, waits in it until it is taken, each in the order in which it
/// was given, and can be taken at any time, also after [`close`](Receiver::close). It stays in
/// memory until then. Dropping a receiver frees it, with all that waits.
///
/// # Threads
///
/// A receiver stays on the thread that made it: it is neither [`Send`] nor [`Sync`], since the C
/// library asks that a handle be used by the thread that made it alone. Different receivers may be
/// used by different threads at once. To take bursts of several threads, send their bytes to the
/// one that has the receiver.
///
/// ```compile_fail,E0277
/// fn on_another_thread(mut receiver: segrx::Receiver) {
///     std::thread::spawn(move || receiver.close());
/// }
/// ```
///
/// # Memory
///
/// The library asks `malloc` for memory, and a call in which that fails answers
/// [`Error::Memory`]; [`Shortage`] says of each kind what is left to do.
pub struct Receiver {
    handle: Handle,
    /// The bytes of a burst. The library asks for memory that is writable and used by nothing else
    /// during the call, which those behind a `&[u8]` may not be.
    burst: Vec<u8>,
    /// How much waited behind the last burst.
    waiting: Waiting,
}

impl Receiver {
    /// A receiver of this many channels, 1 to 16, for these flows, 1 to 16,384, and these service
    /// identifiers of channels, at most 262,144.
    ///
    /// # Errors
    ///
    /// What is wrong with the setup, or that memory ran out.
    pub fn new(
        channels: u32,
        flows: &[Flow],
        rows: &[Row],
        rule: LossRule,
    ) -> Result<Receiver, SetupError> {
        // Copies, since the library asks for memory that is writable and used by nothing else.
        let handle = Handle::new(channels, &mut flows.to_vec(), &mut rows.to_vec(), rule)
            .map_err(|status| status.setup_error(flows.len()))?;
        Ok(Receiver {
            handle,
            burst: Vec::new(),
            waiting: Waiting::default(),
        })
    }

    /// Takes a grant of so many bytes, 8 to 65,535 with the segment header, that was made on a
    /// channel to a service identifier. The number tells outstanding grants of the channel apart.
    ///
    /// # Errors
    ///
    /// [`Error::Refused`], [`NoChannel`](Error::NoChannel), [`Closed`](Error::Closed) or
    /// [`Memory`](Error::Memory).
    pub fn grant(
        &mut self,
        channel: usize,
        number: u32,
        sid: u16,
        bytes: u32,
    ) -> Result<(), Error> {
        self.handle.grant(channel, number, sid, bytes).done()
    }

    /// Takes what was received in a grant of the channel: the bytes of one segment, at most 65,535,
    /// header and payload, and whether the check sequence of its header is right. Says what became
    /// of the segment.
    ///
    /// A grant in which nothing was received is ended by no bytes whose check is wrong, which is
    /// refused as [`BadCheck`](crate::Refusal::BadCheck).
    ///
    /// # Errors
    ///
    /// [`Error::Refused`], [`NoChannel`](Error::NoChannel), [`LengthRange`](Error::LengthRange),
    /// [`Closed`](Error::Closed), [`FlowClosing`](Error::FlowClosing) or [`Memory`](Error::Memory).
    /// At [`Shortage::Unfinished`] the burst is taken.
    pub fn burst(
        &mut self,
        channel: usize,
        grant: u32,
        check_is_right: bool,
        bytes: &[u8],
    ) -> Result<Verdict, Error> {
        if bytes.len() > LONGEST_BURST {
            return Err(Error::LengthRange);
        }
        self.burst.clear();
        self.burst.extend_from_slice(bytes);
        let (status, waiting) = self
            .handle
            .burst(channel, grant, check_is_right, &mut self.burst);
        self.waiting = waiting;
        status.verdict()
    }

    /// How many frames and requests waited behind the last [`burst`](Receiver::burst) that was no
    /// longer than may be. So a caller that takes all of them behind each burst needn't ask in
    /// vain.
    pub fn waiting_behind_burst(&self) -> Waiting {
        self.waiting
    }

    /// Takes the decision that segments of a flow are lost.
    ///
    /// # Errors
    ///
    /// [`NumberRange`](Error::NumberRange), [`NoFlow`](Error::NoFlow), [`Closed`](Error::Closed),
    /// [`FlowClosing`](Error::FlowClosing) or [`Memory`](Error::Memory). At
    /// [`Shortage::Unfinished`] the decision is taken.
    pub fn decide(&mut self, flow: usize, decision: Decision) -> Result<(), Error> {
        let (kind, number) = match decision {
            Decision::Gap => (0, 0),
            Decision::GapTo(number) => (1, number),
            Decision::SkipTo(number) => (2, number),
        };
        self.handle.decide(flow, kind, number).done()
    }

    /// Does what [`Shortage::Unfinished`] left to be done of a flow; else nothing, also of a flow
    /// that doesn't exist.
    ///
    /// # Errors
    ///
    /// [`Closed`](Error::Closed), [`FlowClosing`](Error::FlowClosing) or [`Memory`](Error::Memory).
    pub fn go_on(&mut self, flow: usize) -> Result<(), Error> {
        self.handle.go_on(flow).done()
    }

    /// Takes the first frame that waits, if one does: its bytes take the place of what is in
    /// `room`, which grows where that is needed, and the index of its flow is returned. Where none
    /// waits `room` is empty afterwards.
    ///
    /// One `Vec` for all frames saves an allocation a frame; [`frames`](Receiver::frames) gives
    /// each its own.
    pub fn next_frame(&mut self, room: &mut Vec<u8>) -> Option<usize> {
        loop {
            let (status, frame) = self.handle.next_frame(room);
            match status {
                Status::OK => return Some(frame.flow),
                Status::NOTHING => return None,
                Status::ROOM_TOO_SMALL => room.reserve(frame.length),
                _ => status.unexpected(),
            }
        }
    }

    /// Takes the first frame that waits, if one does, without a copy: its bytes stay where they
    /// are, and are lent until the next call.
    ///
    /// ```compile_fail,E0499
    /// fn two_at_once(receiver: &mut segrx::Receiver) {
    ///     let first = receiver.lend_frame();
    ///     let second = receiver.lend_frame();
    ///     println!("{:?} {:?}", first, second);
    /// }
    /// ```
    pub fn lend_frame(&mut self) -> Option<LentFrame<'_>> {
        match self.handle.lend_frame() {
            Ok((flow, bytes)) => Some(LentFrame { flow, bytes }),
            Err(Status::NOTHING) => None,
            Err(status) => status.unexpected(),
        }
    }

    /// Takes the frames that wait, one after another, each as it is asked for.
    pub fn frames(&mut self) -> impl Iterator<Item = Frame> + '_ {
        iter::from_fn(move || {
            let mut bytes = Vec::new();
            let flow = self.next_frame(&mut bytes)?;
            Some(Frame { flow, bytes })
        })
    }

    /// Takes the first request that waits, if one does.
    pub fn next_request(&mut self) -> Option<Request> {
        match self.handle.next_request() {
            (Status::OK, request) => Some(request),
            (Status::NOTHING, _) => None,
            (status, _) => status.unexpected(),
        }
    }

    /// Takes the requests that wait, one after another, each as it is asked for.
    pub fn requests(&mut self) -> impl Iterator<Item = Request> + '_ {
        iter::from_fn(move || self.next_request())
    }

    /// What was counted of a flow; once the receiver is closed, up to its close.
    ///
    /// # Errors
    ///
    /// [`NoFlow`](Error::NoFlow); [`Closed`](Error::Closed) between a close that ran out of memory
    /// and its end.
    pub fn counts(&self, flow: usize) -> Result<Counts, Error> {
        let (status, counts) = self.handle.counts(flow);
        status.done().map(|()| counts)
    }

    /// Closes a flow: what is missing before a held segment is lost, and what it has left to give
    /// is given. Says what was counted of it. Then it begins anew at this number, 0 to 8191, as
    /// when a modem comes back.
    ///
    /// # Errors
    ///
    /// [`NoFlow`](Error::NoFlow), [`NumberRange`](Error::NumberRange), [`Closed`](Error::Closed) or
    /// [`Memory`](Error::Memory). After [`Shortage::NotTaken`] the flow takes nothing before this
    /// was called again.
    pub fn restart(&mut self, flow: usize, first: u16) -> Result<Counts, Error> {
        let (status, counts) = self.handle.restart(flow, first);
        status.done().map(|()| counts)
    }

    /// Closes all flows, and gives what each has left to give. What waits can still be taken, and
    /// counts can be asked for; all else answers [`Error::Closed`].
    ///
    /// # Errors
    ///
    /// At [`Shortage::NotTaken`] the close was begun, and is to be called again.
    /// [`Shortage::NotKept`] says that a frame or request is missing.
    pub fn close(&mut self) -> Result<(), Shortage> {
        self.handle.close().closed()
    }
}

impl Debug for Receiver {
    fn fmt(&self, to: &mut Formatter<'_>) -> fmt::Result {
        to.debug_struct("Receiver").finish_non_exhaustive()
    }
}
