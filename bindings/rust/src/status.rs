//! The statuses of `segrx.h`, and what each of them means to a caller in Rust.

use crate::errors::{Error, Refusal, SetupError, Shortage};
use crate::values::Verdict;

/// What a call answers: a number of `enum segrx_status`.
#[derive(Clone, Copy, Debug, PartialEq, Eq)]
#[repr(transparent)]
pub(crate) struct Status(u32);

impl Status {
    pub(crate) const OK: Status = Status(0);
    pub(crate) const NO_CHANNEL: Status = Status(2);
    pub(crate) const NO_FLOW: Status = Status(3);
    pub(crate) const NUMBER_RANGE: Status = Status(4);
    pub(crate) const NOTHING: Status = Status(7);
    pub(crate) const ROOM_TOO_SMALL: Status = Status(8);
    pub(crate) const CLOSED: Status = Status(9);
    pub(crate) const FLOW_CLOSING: Status = Status(10);
    pub(crate) const OUT_OF_MEMORY: Status = Status(11);
    pub(crate) const UNFINISHED: Status = Status(12);
    pub(crate) const NOT_KEPT: Status = Status(13);
    pub(crate) const LATE: Status = Status(14);
    pub(crate) const REPEAT: Status = Status(15);
    pub(crate) const BEYOND: Status = Status(16);
    pub(crate) const LENGTH_RANGE: Status = Status(17);
    pub(crate) const NO_CHANNELS: Status = Status(20);
    pub(crate) const TOO_MANY_CHANNELS: Status = Status(21);
    pub(crate) const NO_FLOWS: Status = Status(22);
    pub(crate) const TOO_MANY_FLOWS: Status = Status(23);
    pub(crate) const FLOW_COUNT: Status = Status(24);
    pub(crate) const BAD_FLOW: Status = Status(25);
    pub(crate) const SAME_SFID: Status = Status(26);
    pub(crate) const SID_RANGE: Status = Status(27);
    pub(crate) const SAME_SID: Status = Status(28);
    pub(crate) const ROW_OF_NO_FLOW: Status = Status(29);
    pub(crate) const GRANT_RANGE: Status = Status(33);
    pub(crate) const GRANT_KNOWN: Status = Status(34);
    pub(crate) const UNKNOWN_SID: Status = Status(35);
    pub(crate) const TOO_MANY_GRANTS: Status = Status(36);
    pub(crate) const GRANT_OUT_OF_MEMORY: Status = Status(37);
    pub(crate) const NO_GRANT: Status = Status(38);
    pub(crate) const TOO_LONG: Status = Status(39);
    pub(crate) const BAD_CHECK: Status = Status(40);
    pub(crate) const TOO_SHORT: Status = Status(41);
    pub(crate) const POINTER_PAST: Status = Status(42);
    pub(crate) const BURST_OUT_OF_MEMORY: Status = Status(43);

    /// What a call that hands something in, or asks for counts, answers.
    pub(crate) fn done(self) -> Result<(), Error> {
        Err(match self {
            Status::OK => return Ok(()),
            Status::NO_CHANNEL => Error::NoChannel,
            Status::NO_FLOW => Error::NoFlow,
            Status::NUMBER_RANGE => Error::NumberRange,
            Status::LENGTH_RANGE => Error::LengthRange,
            Status::CLOSED => Error::Closed,
            Status::FLOW_CLOSING => Error::FlowClosing,
            Status::OUT_OF_MEMORY | Status::GRANT_OUT_OF_MEMORY | Status::BURST_OUT_OF_MEMORY => {
                Error::Memory(Shortage::NotTaken)
            }
            Status::UNFINISHED => Error::Memory(Shortage::Unfinished),
            Status::NOT_KEPT => Error::Memory(Shortage::NotKept),
            _ => Error::Refused(self.refusal()),
        })
    }

    /// What a close answers.
    pub(crate) fn closed(self) -> Result<(), Shortage> {
        match self.done() {
            Ok(()) => Ok(()),
            Err(Error::Memory(shortage)) => Err(shortage),
            Err(_) => self.unexpected(),
        }
    }

    /// What a burst answers.
    pub(crate) fn verdict(self) -> Result<Verdict, Error> {
        match self {
            Status::LATE => Ok(Verdict::Late),
            Status::REPEAT => Ok(Verdict::Repeat),
            Status::BEYOND => Ok(Verdict::Beyond),
            _ => self.done().map(|()| Verdict::Kept),
        }
    }

    fn refusal(self) -> Refusal {
        match self {
            Status::GRANT_RANGE => Refusal::GrantRange,
            Status::GRANT_KNOWN => Refusal::GrantKnown,
            Status::UNKNOWN_SID => Refusal::UnknownSid,
            Status::TOO_MANY_GRANTS => Refusal::TooManyGrants,
            Status::NO_GRANT => Refusal::NoGrant,
            Status::TOO_LONG => Refusal::TooLong,
            Status::BAD_CHECK => Refusal::BadCheck,
            Status::TOO_SHORT => Refusal::TooShort,
            Status::POINTER_PAST => Refusal::PointerPast,
            _ => self.unexpected(),
        }
    }

    /// Why no receiver was made. The setup has so many flows.
    pub(crate) fn setup_error(self, flows: usize) -> SetupError {
        match self {
            Status::LENGTH_RANGE if flows > MOST_FLOWS => SetupError::TooManyFlows,
            Status::LENGTH_RANGE => SetupError::TooManyRows,
            Status::NO_CHANNELS => SetupError::NoChannels,
            Status::TOO_MANY_CHANNELS => SetupError::TooManyChannels,
            Status::NO_FLOWS => SetupError::NoFlows,
            Status::TOO_MANY_FLOWS | Status::FLOW_COUNT => SetupError::TooManyFlows,
            Status::BAD_FLOW => SetupError::BadFlow,
            Status::SAME_SFID => SetupError::SameSfid,
            Status::SID_RANGE => SetupError::SidRange,
            Status::SAME_SID => SetupError::SameSid,
            Status::ROW_OF_NO_FLOW => SetupError::RowOfNoFlow,
            Status::OUT_OF_MEMORY => SetupError::OutOfMemory,
            _ => self.unexpected(),
        }
    }

    /// No call of this crate is answered so: NULL, an unknown rule and an unknown decision can't be
    /// handed in, and the library's contracts have no other status.
    #[track_caller]
    pub(crate) fn unexpected(self) -> ! {
        panic!(
            "libsegrx.a isn't of this crate's version: it answered status {}",
            self.0
        )
    }
}

const MOST_FLOWS: usize = 16_384;
