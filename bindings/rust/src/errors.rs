//! Why a call doesn't do what it was asked.

use std::error;
use std::fmt::{self, Display, Formatter};

/// Why no receiver was made: of several faults of a setup the first one, but for too many flows or
/// rows, which are looked for before all others.
#[derive(Clone, Copy, Debug, PartialEq, Eq)]
pub enum SetupError {
    /// There is no channel.
    NoChannels,
    /// There are more than 16 channels.
    TooManyChannels,
    /// There is no flow.
    NoFlows,
    /// There are more than 16,384 flows.
    TooManyFlows,
    /// There are more than 262,144 rows.
    TooManyRows,
    /// A field of a flow is out of its range.
    BadFlow,
    /// Two flows have the same service flow identifier.
    SameSfid,
    /// The channel or the service identifier of a row is out of its range.
    SidRange,
    /// Two rows have the same channel and service identifier.
    SameSid,
    /// A row names a flow that isn't there.
    RowOfNoFlow,
    /// The library's `malloc` failed. Nothing is kept of the call.
    OutOfMemory,
}

/// Why a channel refused a grant or a burst. Both go wrong on a real channel; the receiver goes on.
///
/// [`NoGrant`](Refusal::NoGrant) and the refusals of a grant change nothing. The others spend the
/// grant: its number is free again.
#[derive(Clone, Copy, Debug, PartialEq, Eq)]
pub enum Refusal {
    /// A grant of fewer than 8 bytes or more than 65,535.
    GrantRange = 1,
    /// A grant whose number is that of one that is outstanding.
    GrantKnown = 2,
    /// A grant to a service identifier that the channel hasn't.
    UnknownSid = 3,
    /// A grant more than the 65,536 that may be outstanding.
    TooManyGrants = 4,
    /// A burst of which no grant is outstanding.
    NoGrant = 6,
    /// A burst with more bytes than were granted.
    TooLong = 7,
    /// A burst with a header whose check sequence is wrong.
    BadCheck = 8,
    /// A burst of fewer than 8 bytes.
    TooShort = 9,
    /// A burst whose pointer isn't below the length of its payload.
    PointerPast = 10,
}

/// What is left to do where the library's `malloc` failed.
///
/// The library asks the program's `malloc` for memory, and tells where that answers NULL. Rust's
/// own allocations, such as those of a [`Vec`] of the caller's, end the program as they ever do.
#[derive(Clone, Copy, Debug, PartialEq, Eq)]
pub enum Shortage {
    /// What was handed in isn't taken: make the call again, with the same arguments. Nothing is
    /// lost.
    NotTaken,
    /// What was handed in is taken, and isn't to be handed in again. The flow has more to give:
    /// [`Receiver::go_on`](crate::Receiver::go_on) gives it, and so does the next that comes to the
    /// flow. Nothing is lost. What became of a burst's segment is counted, but not told.
    Unfinished,
    /// A frame or a request that was given is lost, for want of a place in the queue. It is never
    /// told which. From then on every call that hands something in ends so, whatever else it would
    /// have said, also that it is to be made again. What waits can still be taken. Then the
    /// receiver is best dropped, and a new one made.
    NotKept,
}

/// Why a call of a receiver didn't do what it was asked.
#[derive(Clone, Copy, Debug, PartialEq, Eq)]
pub enum Error {
    /// The channel refused a grant or a burst.
    Refused(Refusal),
    /// The receiver has no such channel. Nothing was done.
    NoChannel,
    /// The receiver has no such flow. Nothing was done.
    NoFlow,
    /// A sequence number is above 8191. Nothing was done.
    NumberRange,
    /// A burst has more than 65,535 bytes. Nothing was done.
    LengthRange,
    /// The close of the receiver was begun: nothing is taken any more.
    Closed,
    /// A restart of the flow ran out of memory, and is to be called again first. Nothing was taken.
    FlowClosing,
    /// The library's `malloc` failed.
    Memory(Shortage),
}

impl Refusal {
    /// The number by which `segrx replay` reports the refusal.
    #[must_use]
    pub fn number(self) -> u8 {
        self as u8
    }
}

impl Display for SetupError {
    fn fmt(&self, to: &mut Formatter<'_>) -> fmt::Result {
        to.write_str(match self {
            SetupError::NoChannels => "no channel",
            SetupError::TooManyChannels => "more than 16 channels",
            SetupError::NoFlows => "no flow",
            SetupError::TooManyFlows => "more than 16,384 flows",
            SetupError::TooManyRows => "more than 262,144 rows",
            SetupError::BadFlow => "a flow with a field out of its range",
            SetupError::SameSfid => "two flows with the same service flow identifier",
            SetupError::SidRange => "a row with a channel or service identifier out of its range",
            SetupError::SameSid => "two rows with the same channel and service identifier",
            SetupError::RowOfNoFlow => "a row of no flow",
            SetupError::OutOfMemory => "out of memory",
        })
    }
}

impl Display for Refusal {
    fn fmt(&self, to: &mut Formatter<'_>) -> fmt::Result {
        to.write_str(match self {
            Refusal::GrantRange => "a grant of fewer than 8 bytes or more than 65,535",
            Refusal::GrantKnown => "a grant whose number is outstanding",
            Refusal::UnknownSid => "a grant to an unknown service identifier",
            Refusal::TooManyGrants => "more grants than may be outstanding",
            Refusal::NoGrant => "a burst without a grant",
            Refusal::TooLong => "a burst longer than its grant",
            Refusal::BadCheck => "a burst with a wrong check sequence",
            Refusal::TooShort => "a burst of fewer than 8 bytes",
            Refusal::PointerPast => "a burst with a pointer past its end",
        })
    }
}

impl Display for Shortage {
    fn fmt(&self, to: &mut Formatter<'_>) -> fmt::Result {
        to.write_str(match self {
            Shortage::NotTaken => "out of memory, and nothing was taken",
            Shortage::Unfinished => "out of memory before a flow had given all",
            Shortage::NotKept => "out of memory, and a frame or request is lost",
        })
    }
}

impl Display for Error {
    fn fmt(&self, to: &mut Formatter<'_>) -> fmt::Result {
        match self {
            Error::Refused(refusal) => refusal.fmt(to),
            Error::NoChannel => to.write_str("no such channel"),
            Error::NoFlow => to.write_str("no such flow"),
            Error::NumberRange => to.write_str("a sequence number above 8191"),
            Error::LengthRange => to.write_str("a burst of more than 65,535 bytes"),
            Error::Closed => to.write_str("the receiver is closed"),
            Error::FlowClosing => to.write_str("the flow is being closed"),
            Error::Memory(shortage) => shortage.fmt(to),
        }
    }
}

impl error::Error for SetupError {}
impl error::Error for Refusal {}
impl error::Error for Shortage {}
impl error::Error for Error {}

impl From<Shortage> for Error {
    fn from(shortage: Shortage) -> Error {
        Error::Memory(shortage)
    }
}

impl From<Refusal> for Error {
    fn from(refusal: Refusal) -> Error {
        Error::Refused(refusal)
    }
}
