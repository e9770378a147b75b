//! Traces, as docs/FORMATS.md says of `segrx replay`.

use segrx::{Decision, Flow, Row};
use std::ops::RangeInclusive;

/// How many channels a trace has.
pub const CHANNELS: usize = 4;

const MOST_FLOWS: usize = 64;
const NUMBER: RangeInclusive<u64> = 0..=8191;
const SID: RangeInclusive<u64> = 0..=16_383;
const ANY: RangeInclusive<u64> = 0..=u32::MAX as u64;

/// What came, in the order of the lines.
pub enum Input {
    /// So many bytes were granted to a service identifier, under a number.
    Grant {
        channel: usize,
        number: u32,
        sid: u16,
        bytes: u32,
    },
    /// These bytes came in the grant of this number.
    Burst {
        channel: usize,
        number: u32,
        check_is_right: bool,
        bytes: Vec<u8>,
    },
    /// It was decided that segments of a flow are lost.
    Gap { flow: usize, decision: Decision },
}

/// A trace.
#[derive(Default)]
pub struct Trace {
    pub flows: Vec<Flow>,
    pub rows: Vec<Row>,
    pub inputs: Vec<Input>,
}

impl Trace {
    /// The trace that a text is, or the number of its first faulty line.
    pub fn read(text: &[u8]) -> Result<Trace, usize> {
        let mut trace = Trace::default();
        for (place, line) in text.split(|byte| *byte == b'\n').enumerate() {
            let words: Vec<&[u8]> = line
                .split(|byte| b" \t\r".contains(byte))
                .filter(|word| !word.is_empty())
                .collect();
            if words.first().map_or(false, |word| word[0] != b'#') {
                trace.add(&words).ok_or(place + 1)?;
            }
        }
        Ok(trace)
    }

    /// Adds what a line says, or nothing where it is faulty.
    fn add(&mut self, words: &[&[u8]]) -> Option<()> {
        match words {
            [b"flow", fields @ ..] if self.inputs.is_empty() => self.add_flow(fields),
            [b"sid", fields @ ..] if self.inputs.is_empty() => self.add_row(fields),
            [b"grant", fields @ ..] => self.add_grant(fields),
            [b"burst", fields @ ..] => self.add_burst(fields),
            [b"gap", fields @ ..] => self.add_gap(fields),
            _ => None,
        }
    }

    fn add_flow(&mut self, fields: &[&[u8]]) -> Option<()> {
        let [sfid, first, window, clusters] = fields_of(fields)?;
        let flow = Flow {
            sfid: number(sfid, ANY)? as u32,
            first: number(first, NUMBER)? as u16,
            window: number(window, 1..=4096)? as u16,
            clusters: number(clusters, 1..=8)? as u8,
        };
        let is_new = self.flows.iter().all(|other| other.sfid != flow.sfid);
        (is_new && self.flows.len() < MOST_FLOWS).then(|| self.flows.push(flow))
    }

    fn add_row(&mut self, fields: &[&[u8]]) -> Option<()> {
        let [channel_field, sid, flow] = fields_of(fields)?;
        let row = Row {
            flow: self.flow(flow)?,
            sid: number(sid, SID)? as u16,
            channel: channel(channel_field)? as u8,
        };
        let is_same = |other: &Row| (other.channel, other.sid) == (row.channel, row.sid);
        (!self.rows.iter().any(is_same)).then(|| self.rows.push(row))
    }

    fn add_grant(&mut self, fields: &[&[u8]]) -> Option<()> {
        let [channel_field, grant, sid, bytes] = fields_of(fields)?;
        self.inputs.push(Input::Grant {
            channel: channel(channel_field)?,
            number: number(grant, ANY)? as u32,
            sid: number(sid, SID)? as u16,
            bytes: number(bytes, ANY)? as u32,
        });
        Some(())
    }

    fn add_burst(&mut self, fields: &[&[u8]]) -> Option<()> {
        let [channel_field, grant, check, bytes] = fields_of(fields)?;
        self.inputs.push(Input::Burst {
            channel: channel(channel_field)?,
            number: number(grant, ANY)? as u32,
            check_is_right: match check {
                b"ok" => true,
                b"bad" => false,
                _ => return None,
            },
            bytes: hexadecimal(bytes)?,
        });
        Some(())
    }

    fn add_gap(&mut self, fields: &[&[u8]]) -> Option<()> {
        let (flow, decision) = match fields {
            [flow] => (flow, Decision::Gap),
            [flow, to] => (flow, Decision::GapTo(number(to, NUMBER)? as u16)),
            _ => return None,
        };
        let flow = self.flow(flow)?;
        self.inputs.push(Input::Gap { flow, decision });
        Some(())
    }

    /// The index of a flow that a line above gives.
    fn flow(&self, word: &[u8]) -> Option<usize> {
        let most = self.flows.len().checked_sub(1)?;
        Some(number(word, 0..=most as u64)? as usize)
    }
}

fn fields_of<'a, const COUNT: usize>(fields: &[&'a [u8]]) -> Option<[&'a [u8]; COUNT]> {
    fields.try_into().ok()
}

fn channel(word: &[u8]) -> Option<usize> {
    Some(number(word, 0..=CHANNELS as u64 - 1)? as usize)
}

/// A number without a sign, in this range. Zeros may precede it.
fn number(word: &[u8], range: RangeInclusive<u64>) -> Option<u64> {
    let has_digits_alone = word.iter().all(u8::is_ascii_digit);
    let value = std::str::from_utf8(word).ok()?.parse().ok()?;
    (has_digits_alone && range.contains(&value)).then_some(value)
}

/// The bytes that are written in hexadecimal, none as `-`.
fn hexadecimal(word: &[u8]) -> Option<Vec<u8>> {
    if word == b"-" {
        return Some(Vec::new());
    }
    let digit = |byte: u8| char::from(byte).to_digit(16);
    let pair = |pair: &[u8]| Some((digit(pair[0])? << 4 | digit(pair[1])?) as u8);
    (word.len() % 2 == 0).then(|| word.chunks(2).map(pair).collect())?
}
