//! A flow on two channels, and its segments.
#![allow(dead_code)]

use segrx::{Error, Flow, LossRule, Receiver, Row, Verdict};

pub const FLOW: Flow = Flow {
    sfid: 100,
    first: 0,
    window: 4,
    clusters: 2,
};
pub const SID: u16 = 17;

pub fn rows() -> Vec<Row> {
    let row = |channel| Row {
        flow: 0,
        sid: SID,
        channel,
    };
    vec![row(0), row(1)]
}

pub fn receiver() -> Receiver {
    Receiver::new(2, &[FLOW], &rows(), LossRule::Decided).expect("a lawful setup")
}

/// A segment with this number, in which a frame begins at once if there is a payload. It asks for
/// so many units for SID cluster 1.
pub fn segment(number: u16, units: u16, payload: &[u8]) -> Vec<u8> {
    let begins = if payload.is_empty() { 0 } else { 0x8000 };
    let words: [u16; 4] = [begins, number << 3 | 1, units, 0];
    let header = words.iter().flat_map(|word| word.to_be_bytes());
    header.chain(payload.iter().copied()).collect()
}

/// A frame with so many bytes behind its header.
pub fn frame(count: u16) -> Vec<u8> {
    let [high, low] = count.to_be_bytes();
    let rest = (0..count).map(|k| k as u8);
    [1, 0, high, low, 0xab, 0xcd]
        .iter()
        .copied()
        .chain(rest)
        .collect()
}

/// Grants what the segment needs on the channel, and hands it in.
pub fn send(receiver: &mut Receiver, channel: usize, bytes: &[u8]) -> Result<Verdict, Error> {
    receiver.grant(channel, 1, SID, bytes.len() as u32)?;
    receiver.burst(channel, 1, true, bytes)
}
