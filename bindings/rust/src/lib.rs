//! The receiving side of DOCSIS 3.0 upstream channel bonding: safe calls of segrx's C library.
//!
//! A bonded cable modem cuts the MAC frames of a service flow into numbered segments, without
//! regard to where a frame ends, and sends them on several upstream channels at once (CableLabs
//! CM-SP-MULPIv3.0, continuous concatenation and fragmentation). A [`Receiver`] takes the grants
//! that were sent and the bursts that came in them, orders each flow's segments, decides or is told
//! which are lost, and gives the frames and the requests for grants.
//!
//! What the library does is proved; that this crate calls it rightly is tested.
//!
//! # A frame in two segments
//!
//! The second segment comes first, on another channel.
//!
//! ```
//! use segrx::{Flow, LossRule, Receiver, Row, Verdict};
//!
//! # fn main() -> Result<(), Box<dyn std::error::Error>> {
//! let flow = Flow { sfid: 100, first: 0, window: 16, clusters: 2 };
//! let rows = [Row { flow: 0, sid: 17, channel: 0 }, Row { flow: 0, sid: 17, channel: 1 }];
//! let mut receiver = Receiver::new(2, &[flow], &rows, LossRule::Decided)?;
//!
//! receiver.grant(0, 1, 17, 64)?;
//! receiver.grant(1, 1, 17, 64)?;
//! // Segment 1: no frame begins in it. It asks for 4 units for SID cluster 0.
//! let second = [0, 0, 0, 8, 0, 4, 0, 0, 0xaa, 0xbb];
//! assert_eq!(receiver.burst(1, 1, true, &second)?, Verdict::Kept);
//! assert_eq!(receiver.frames().count(), 0);
//! // Segment 0: a frame begins at once, of six bytes and two more.
//! let first = [0x80, 0, 0, 0, 0, 0, 0, 0, 0, 0, 0, 2, 0x11, 0x11];
//! assert_eq!(receiver.burst(0, 1, true, &first)?, Verdict::Kept);
//!
//! let frames: Vec<_> = receiver.frames().collect();
//! assert_eq!(frames.len(), 1);
//! assert_eq!(frames[0].flow, 0);
//! assert_eq!(frames[0].bytes, [0, 0, 0, 2, 0x11, 0x11, 0xaa, 0xbb]);
//! let request = receiver.next_request().expect("the second segment asked");
//! assert_eq!((request.channel, request.units, request.sequence), (1, 4, 1));
//! receiver.close()?;
//! assert_eq!(receiver.counts(0)?.kept, 2);
//! # Ok(())
//! # }
//! ```
//!
//! # Refusals
//!
//! A burst of no grant, or with a wrong check sequence, is nothing unusual on a channel. It is
//! [`Error::Refused`], and the receiver goes on.
//!
//! ```
//! use segrx::{Error, Refusal};
//! # use segrx::{Flow, LossRule, Receiver, Row};
//! # let flow = Flow { sfid: 100, first: 0, window: 16, clusters: 2 };
//! # let rows = [Row { flow: 0, sid: 17, channel: 0 }];
//! # let mut receiver = Receiver::new(1, &[flow], &rows, LossRule::Decided).unwrap();
//!
//! match receiver.burst(0, 1, true, &[0; 8]) {
//!     Err(Error::Refused(refusal)) => assert_eq!(refusal, Refusal::NoGrant),
//!     other => panic!("{:?}", other),
//! }
//! ```
#![deny(missing_docs, unsafe_code, unsafe_op_in_unsafe_fn)]

/// What the README shows compiles.
#[cfg(doctest)]
#[doc = include_str!("../README.md")]
mod readme {}

mod errors;
mod handle;
mod receiver;
mod status;
mod values;

pub use errors::{Error, Refusal, SetupError, Shortage};
pub use receiver::Receiver;
pub use values::{
    Counts, Decision, Flow, Frame, LentFrame, LossRule, Request, Row, Verdict, Waiting,
};
