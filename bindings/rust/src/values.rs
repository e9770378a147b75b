//! What is handed in and what is given.

/// A service flow. Its index, by which calls name it, is its place in the list of the setup.
#[derive(Clone, Copy, Debug, PartialEq, Eq)]
#[repr(C)]
pub struct Flow {
    /// The service flow identifier, which no other flow has.
    pub sfid: u32,
    /// The number of its first segment, 0 to 8191.
    pub first: u16,
    /// How many numbers may be held, from the expected one on: 1 to 4096.
    pub window: u16,
    /// How many SID clusters it has, 1 to 8.
    pub clusters: u8,
}

/// A service identifier of a channel, and the flow to which it belongs.
#[derive(Clone, Copy, Debug, PartialEq, Eq)]
#[repr(C)]
pub struct Row {
    /// The index of the flow.
    pub flow: usize,
    /// The service identifier, 0 to 16,383, once a channel.
    pub sid: u16,
    /// The channel, below the number of channels.
    pub channel: u8,
}

/// By what a receiver decides that segments are lost.
#[derive(Clone, Copy, Debug, PartialEq, Eq)]
pub enum LossRule {
    /// By [`Receiver::decide`](crate::Receiver::decide) alone.
    Decided = 0,
    /// Also what every channel of the flow has passed.
    Passed = 1,
    /// Also what lies a window or more before a segment that comes, so that the window slides.
    PassedOrSlid = 2,
}

/// A decision that segments of a flow are lost.
#[derive(Clone, Copy, Debug, PartialEq, Eq)]
pub enum Decision {
    /// The expected segment is lost, if a later one was kept.
    Gap,
    /// Those before this number, 0 to 8191, are, if they haven't come and a later one was kept.
    GapTo(u16),
    /// Those before this number, 0 to 8191, are, if they haven't come.
    SkipTo(u16),
}

/// What became of the segment of a burst that was admitted.
#[derive(Clone, Copy, Debug, PartialEq, Eq)]
pub enum Verdict {
    /// It is kept.
    Kept,
    /// It came when its number had passed.
    Late,
    /// Its number is held already.
    Repeat,
    /// Its number is beyond the window.
    Beyond,
}

/// A MAC frame.
#[derive(Clone, Debug, PartialEq, Eq)]
pub struct Frame {
    /// The index of its flow.
    pub flow: usize,
    /// Its bytes, the header included.
    pub bytes: Vec<u8>,
}

/// A MAC frame whose bytes are the receiver's, which lends them.
#[derive(Clone, Copy, Debug, PartialEq, Eq)]
pub struct LentFrame<'a> {
    /// The index of its flow.
    pub flow: usize,
    /// Its bytes, the header included.
    pub bytes: &'a [u8],
}

/// How much waits in a receiver.
#[derive(Clone, Copy, Debug, Default, PartialEq, Eq)]
#[repr(C)]
pub struct Waiting {
    /// How many frames.
    pub frames: usize,
    /// How many requests.
    pub requests: usize,
}

/// A request for grants, from the header of a segment.
#[derive(Clone, Copy, Debug, Default, PartialEq, Eq)]
#[repr(C)]
pub struct Request {
    /// The index of the flow.
    pub flow: usize,
    /// The queue depth that is asked for, in the flow's request units: 1 to 65,535.
    pub units: u16,
    /// The number of the segment, 0 to 8191.
    pub sequence: u16,
    /// The channel on which it came.
    pub channel: u8,
    /// The SID cluster, below the flow's count.
    pub cluster: u8,
}

/// What was counted of a flow since it was begun or began anew. Each count stays at `u64::MAX`.
#[derive(Clone, Copy, Debug, Default, PartialEq, Eq)]
#[repr(C)]
pub struct Counts {
    /// Segments that were kept.
    pub kept: u64,
    /// Segments that came when their number had passed.
    pub late: u64,
    /// Segments whose number was held already.
    pub repeat: u64,
    /// Segments whose number was beyond the window.
    pub beyond: u64,
    /// Segments that were declared lost or skipped.
    pub lost: u64,
    /// Frames that were given.
    pub frames: u64,
    /// Bytes of payload that were neither given nor are unfinished.
    pub skipped: u64,
}
