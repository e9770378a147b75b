//! A trace is played through a receiver, and what it gave is reported.

use crate::trace::{Input, Trace, CHANNELS};
use segrx::{Counts, Error, Flow, LossRule, Receiver, Refusal, Request};
use std::io::{self, Write};

/// What came of a trace.
pub struct Played {
    flows: Vec<PlayedFlow>,
    channels: [PlayedChannel; CHANNELS],
}

struct PlayedFlow {
    sfid: u32,
    counts: Counts,
    frames: Vec<Vec<u8>>,
}

#[derive(Default)]
struct PlayedChannel {
    requests: Vec<Request>,
    admitted: u64,
    refused: Vec<Refusal>,
}

impl Played {
    /// Plays a trace by this rule.
    pub fn new(trace: &Trace, rule: LossRule) -> Result<Played, Box<dyn std::error::Error>> {
        let mut receiver = Receiver::new(CHANNELS as u32, &flows_of(trace), &trace.rows, rule)?;
        let mut played = Played::nothing_yet(&trace.flows);
        for input in &trace.inputs {
            played.take(&mut receiver, input)?;
            played.keep_given(&mut receiver);
        }
        receiver.close()?;
        played.keep_given(&mut receiver);
        for (index, flow) in played.flows.iter_mut().enumerate() {
            flow.counts = receiver.counts(index)?;
        }
        Ok(played)
    }

    fn nothing_yet(flows: &[Flow]) -> Played {
        let of_flow = |flow: &Flow| PlayedFlow {
            sfid: flow.sfid,
            counts: Counts::default(),
            frames: Vec::new(),
        };
        Played {
            flows: flows.iter().map(of_flow).collect(),
            channels: Default::default(),
        }
    }

    fn take(&mut self, receiver: &mut Receiver, input: &Input) -> Result<(), Error> {
        match *input {
            Input::Grant {
                channel,
                number,
                sid,
                bytes,
            } => {
                let answer = receiver.grant(channel, number, sid, bytes);
                self.note_refusal(channel, answer)
            }
            Input::Burst {
                channel,
                number,
                check_is_right,
                ref bytes,
            } => {
                let answer = take_burst(receiver, channel, number, check_is_right, bytes);
                self.channels[channel].admitted += u64::from(answer.is_ok());
                self.note_refusal(channel, answer)
            }
            Input::Gap { flow, decision } => receiver.decide(flow, decision),
        }
    }

    /// A refusal is noted. Other errors end the trace.
    fn note_refusal(&mut self, channel: usize, answer: Result<(), Error>) -> Result<(), Error> {
        if let Err(Error::Refused(refusal)) = answer {
            self.channels[channel].refused.push(refusal);
            return Ok(());
        }
        answer
    }

    fn keep_given(&mut self, receiver: &mut Receiver) {
        for frame in receiver.frames() {
            self.flows[frame.flow].frames.push(frame.bytes);
        }
        for request in receiver.requests() {
            self.channels[usize::from(request.channel)]
                .requests
                .push(request);
        }
    }

    /// Writes the report.
    pub fn report(&self, to: &mut impl Write) -> io::Result<()> {
        for (index, flow) in self.flows.iter().enumerate() {
            write!(to, "flow {} {} ", index, flow.sfid)?;
            report_counts(&flow.counts, to)?;
            for frame in &flow.frames {
                write!(to, "frame {} ", index)?;
                frame
                    .iter()
                    .try_for_each(|byte| write!(to, "{:02x}", byte))?;
                writeln!(to)?;
            }
        }
        for (channel, played) in self.channels.iter().enumerate() {
            for it in &played.requests {
                let words = [it.cluster.into(), it.units, it.sequence];
                write!(to, "request {} {}", channel, it.flow)?;
                words.iter().try_for_each(|word| write!(to, " {}", word))?;
                writeln!(to)?;
            }
        }
        for (channel, played) in self.channels.iter().enumerate() {
            write!(to, "lane {} admitted {} refused", channel, played.admitted)?;
            played
                .refused
                .iter()
                .try_for_each(|it| write!(to, " {}", it.number()))?;
            writeln!(to, "{}", if played.refused.is_empty() { " -" } else { "" })?;
        }
        Ok(())
    }
}

/// The flows of a receiver, which has one at least: for a trace without flows one that nothing
/// reaches.
fn flows_of(trace: &Trace) -> Vec<Flow> {
    if !trace.flows.is_empty() {
        return trace.flows.clone();
    }
    vec![Flow {
        sfid: 0,
        first: 0,
        window: 1,
        clusters: 1,
    }]
}

/// A burst that is longer than any grant may be is no segment for the library, but ends its grant,
/// as if nothing had been received in it; a trace reports it as too long.
fn take_burst(
    receiver: &mut Receiver,
    channel: usize,
    number: u32,
    check_is_right: bool,
    bytes: &[u8],
) -> Result<(), Error> {
    match receiver.burst(channel, number, check_is_right, bytes) {
        Err(Error::LengthRange) => match receiver.burst(channel, number, false, &[]) {
            Err(Error::Refused(Refusal::BadCheck)) => Err(Error::Refused(Refusal::TooLong)),
            answer => answer.map(|_| ()),
        },
        answer => answer.map(|_| ()),
    }
}

fn report_counts(counts: &Counts, to: &mut impl Write) -> io::Result<()> {
    let Counts {
        kept,
        late,
        repeat,
        beyond,
        lost,
        frames,
        skipped,
    } = counts;
    write!(
        to,
        "kept {} late {} repeat {} beyond {} ",
        kept, late, repeat, beyond
    )?;
    writeln!(to, "lost {} frames {} skipped {}", lost, frames, skipped)
}
