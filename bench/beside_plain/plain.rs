//! What `segrx join`, `cut`, `replay` and `run` do, as an ordinary program in Rust does it, without
//! proofs: the same texts in, the same texts out, and nothing is written before the whole input was
//! read without fault. It knows no rule of losses, no options and no limits of size.

use std::collections::HashMap;
use std::io::{self, BufRead, BufReader, Write};
use std::sync::mpsc::{sync_channel, Receiver, SyncSender};
use std::thread;

type Fault = Box<dyn std::error::Error + Send + Sync>;

const CHANNELS: usize = 4;
const PIECE: usize = 1 << 18;
/// How many items wait between two threads.
const WAITING: usize = 16;

// Hexadecimal.

const DIGITS: [u8; 256] = {
    let mut digits = [0xff; 256];
    let mut at = 0;
    while at < 10 {
        digits[b'0' as usize + at] = at as u8;
        at += 1;
    }
    while at < 16 {
        digits[b'a' as usize + at - 10] = at as u8;
        digits[b'A' as usize + at - 10] = at as u8;
        at += 1;
    }
    digits
};

const PAIRS: [[u8; 2]; 256] = {
    let names = b"0123456789abcdef";
    let mut pairs = [[0; 2]; 256];
    let mut at = 0;
    while at < 256 {
        pairs[at] = [names[at >> 4], names[at & 15]];
        at += 1;
    }
    pairs
};

fn decode(word: &[u8]) -> Result<Vec<u8>, Fault> {
    if word == b"-" {
        return Ok(Vec::new());
    }
    let mut seen = 0;
    let bytes = word
        .chunks_exact(2)
        .map(|pair| {
            let (high, low) = (DIGITS[pair[0] as usize], DIGITS[pair[1] as usize]);
            seen |= high | low;
            high << 4 | low & 15
        })
        .collect();
    if word.len() % 2 == 1 || seen > 15 {
        return Err("not hexadecimal".into());
    }
    Ok(bytes)
}

/// Text that is written a piece at a time.
struct Text {
    piece: Vec<u8>,
    out: io::StdoutLock<'static>,
}

impl Text {
    fn new() -> Text {
        let out = io::stdout().lock();
        Text { piece: Vec::with_capacity(PIECE), out }
    }

    /// Puts bytes in hexadecimal and ends the line.
    fn put_hex(&mut self, bytes: &[u8]) -> io::Result<()> {
        self.put_digits(bytes)?;
        self.write_all(b"\n")
    }

    fn put_digits(&mut self, bytes: &[u8]) -> io::Result<()> {
        for part in bytes.chunks(PIECE / 2) {
            if self.piece.len() + 2 * part.len() > PIECE {
                self.flush()?;
            }
            let begin = self.piece.len();
            self.piece.resize(begin + 2 * part.len(), 0);
            for (pair, byte) in self.piece[begin..].chunks_exact_mut(2).zip(part) {
                pair.copy_from_slice(&PAIRS[*byte as usize]);
            }
        }
        Ok(())
    }
}

impl Write for Text {
    fn write(&mut self, bytes: &[u8]) -> io::Result<usize> {
        if self.piece.len() + bytes.len() > PIECE {
            self.flush()?;
        }
        self.piece.extend_from_slice(bytes);
        Ok(bytes.len())
    }

    fn flush(&mut self) -> io::Result<()> {
        self.out.write_all(&self.piece)?;
        self.piece.clear();
        Ok(())
    }
}

/// Frames end to end, and where each ends.
#[derive(Default)]
struct Frames {
    bytes: Vec<u8>,
    ends: Vec<usize>,
}

impl Frames {
    fn push(&mut self, frame: &[u8]) {
        self.bytes.extend_from_slice(frame);
        self.ends.push(self.bytes.len());
    }

    fn iter(&self) -> impl Iterator<Item = &[u8]> {
        let begins = std::iter::once(0).chain(self.ends.iter().copied());
        begins.zip(&self.ends).map(|(begin, end)| &self.bytes[begin..*end])
    }
}

// Lines.

fn is_space(byte: &u8) -> bool {
    matches!(byte, b' ' | b'\t' | b'\r' | b'\n')
}

/// How many bytes a word at the front has.
fn word_length(bytes: &[u8]) -> usize {
    let may_end = |part: &[u8]| part.iter().fold(false, |seen, byte| seen | (*byte <= b' '));
    let whole = 32 * bytes.chunks_exact(32).take_while(|part| !may_end(part)).count();
    let rest = &bytes[whole..];
    whole + rest.iter().position(is_space).unwrap_or(rest.len())
}

struct Words<'a>(&'a [u8]);

impl<'a> Iterator for Words<'a> {
    type Item = &'a [u8];

    fn next(&mut self) -> Option<&'a [u8]> {
        let begin = self.0.iter().position(|byte| !is_space(byte))?;
        let bytes = &self.0[begin..];
        let (word, rest) = bytes.split_at(word_length(bytes));
        self.0 = rest;
        Some(word)
    }
}

fn each_line(mut act: impl FnMut(&[u8], &mut Words) -> Result<(), Fault>) -> Result<(), Fault> {
    let mut input = BufReader::with_capacity(PIECE, io::stdin().lock());
    let mut line = Vec::new();
    while input.read_until(b'\n', &mut line)? > 0 {
        let mut words = Words(&line);
        if let Some(first) = words.next().filter(|word| word[0] != b'#') {
            act(first, &mut words)?;
        }
        line.clear();
    }
    Ok(())
}

fn number(word: Option<&[u8]>, most: u64) -> Result<u64, Fault> {
    let word = word.ok_or("wrong number of fields")?;
    let mut value = 0_u64;
    for byte in word {
        if !byte.is_ascii_digit() {
            return Err("bad number".into());
        }
        value = value.saturating_mul(10).saturating_add(u64::from(byte - b'0'));
    }
    if value > most {
        return Err("bad number".into());
    }
    Ok(value)
}

fn ends(words: &mut Words) -> Result<(), Fault> {
    if words.next().is_some() {
        return Err("wrong number of fields".into());
    }
    Ok(())
}

// Segments and frames.

struct Segment {
    first: Option<usize>,
    number: u16,
    cluster: u8,
    units: u16,
    /// Header and payload.
    bytes: Vec<u8>,
}

impl Segment {
    fn read(bytes: Vec<u8>) -> Option<Segment> {
        let head = bytes.first_chunk::<8>()?;
        let two = |at: usize| u16::from_be_bytes([head[at], head[at + 1]]);
        let (front, place, units) = (two(0), two(2), two(4));
        let pointer = usize::from(front & 0x3fff);
        let first = (front >> 15 == 1).then_some(pointer);
        if first.is_some() && pointer >= bytes.len() - 8 {
            return None;
        }
        Some(Segment { first, number: place >> 3, cluster: (place & 7) as u8, units, bytes })
    }
}

enum Front {
    Frame(usize),
    Short,
    NoFrame,
}

fn front(bytes: &[u8]) -> Front {
    match bytes {
        [] => Front::Short,
        [0xff, ..] => Front::NoFrame,
        [_] | [_, _] | [_, _, _] => Front::Short,
        [0, 0, 0, 0, ..] | [0xc4 | 0xc5 | 0xc8 | 0xc9, ..] => Front::NoFrame,
        [control, extended, high, low, ..] => {
            let length = u16::from_be_bytes([*high, *low]);
            if control & 1 == 1 && (*extended > 240 || u16::from(*extended) > length) {
                return Front::NoFrame;
            }
            Front::Frame(6 + usize::from(length))
        }
    }
}

#[derive(Default)]
struct Joiner {
    unfinished: Vec<u8>,
    skipped: u64,
}

impl Joiner {
    fn feed(&mut self, segment: &Segment, give: &mut impl FnMut(&[u8])) {
        let payload = &segment.bytes[8..];
        let (before, rest) = payload.split_at(segment.first.unwrap_or(payload.len()));
        if self.unfinished.is_empty() {
            self.skipped += before.len() as u64;
        } else {
            self.unfinished.extend_from_slice(before);
            self.finish(segment.first.is_some(), give);
        }
        if segment.first.is_some() {
            self.walk(rest, give);
        }
    }

    /// Looks at what is unfinished, which another frame follows or nothing yet.
    fn finish(&mut self, is_followed: bool, give: &mut impl FnMut(&[u8])) {
        let length = self.unfinished.len();
        match front(&self.unfinished) {
            Front::Frame(size) if size == length || size < length && !is_followed => {
                give(&self.unfinished[..size]);
                self.skipped += (length - size) as u64;
            }
            Front::Frame(_) | Front::Short if !is_followed => return,
            _ => self.skipped += length as u64,
        }
        self.unfinished.clear();
    }

    fn walk(&mut self, mut rest: &[u8], give: &mut impl FnMut(&[u8])) {
        loop {
            match front(rest) {
                Front::Frame(size) if size <= rest.len() => {
                    give(&rest[..size]);
                    rest = &rest[size..];
                }
                Front::NoFrame => {
                    self.skipped += rest.len() as u64;
                    return;
                }
                _ => break,
            }
        }
        self.unfinished.extend_from_slice(rest);
    }

    fn gap(&mut self) {
        self.skipped += self.unfinished.len() as u64;
        self.unfinished.clear();
    }
}

// `join` and `cut`.

fn join() -> Result<(), Fault> {
    let (mut joiner, mut frames) = (Joiner::default(), Frames::default());
    each_line(|word, words| {
        let bytes = decode(word)?;
        ends(words)?;
        let segment = Segment::read(bytes).ok_or("no segment")?;
        joiner.feed(&segment, &mut |frame| frames.push(frame));
        Ok(())
    })?;
    let mut out = Text::new();
    for frame in frames.iter() {
        out.put_hex(frame)?;
    }
    Ok(out.flush()?)
}

fn cut() -> Result<(), Fault> {
    let (mut stream, mut starts, mut pieces) = (Vec::new(), Vec::new(), Vec::new());
    each_line(|kind, words| {
        match kind {
            b"frame" => {
                let bytes = decode(words.next().ok_or("wrong number of fields")?)?;
                if !matches!(front(&bytes), Front::Frame(size) if size == bytes.len()) {
                    return Err("not a frame".into());
                }
                starts.push(stream.len());
                stream.extend_from_slice(&bytes);
            }
            b"piece" => {
                let data = number(words.next(), 65535)? as usize;
                pieces.push((data, number(words.next(), 65535)? as usize));
            }
            _ => return Err("unknown line".into()),
        }
        ends(words)
    })?;
    let (mut out, mut begun, mut next) = (Text::new(), 0, 0);
    for (index, (data, fill)) in pieces.into_iter().enumerate() {
        let end = stream.len().min(begun + data);
        let first = starts.get(next).filter(|start| **start < end).map(|start| start - begun);
        while starts.get(next).is_some_and(|start| *start < end) {
            next += 1;
        }
        let is_edge = end == stream.len() || starts.get(next) == Some(&end);
        if fill > 0 && !is_edge || first.is_some_and(|first| first > 16383) {
            return Err("no such piece".into());
        }
        let pointer = first.map_or(0, |first| 0x8000 | first as u16);
        let place = ((index % 8192) as u16) << 3;
        let [[a, b], [c, d]] = [pointer.to_be_bytes(), place.to_be_bytes()];
        out.put_digits(&[a, b, c, d, 0, 0, 0, 0])?;
        out.put_digits(&stream[begun..end])?;
        out.put_hex(&vec![0; fill])?;
        begun = end;
    }
    Ok(out.flush()?)
}

// Traces.

#[derive(Default)]
struct Flow {
    sfid: u64,
    clusters: u64,
    expected: u16,
    /// What is held, from the place of the expected number on, around the end.
    window: Vec<Option<Segment>>,
    place: usize,
    held: usize,
    joiner: Joiner,
    kept: u64,
    late: u64,
    repeat: u64,
    beyond: u64,
    lost: u64,
    frames: Frames,
}

impl Flow {
    fn place_of(&self, distance: usize) -> usize {
        let place = self.place + distance;
        if place < self.window.len() {
            place
        } else {
            place - self.window.len()
        }
    }

    fn arrive(&mut self, segment: Segment) {
        let distance = usize::from(segment.number.wrapping_sub(self.expected) % 8192);
        if distance >= 4096 {
            self.late += 1;
        } else if distance >= self.window.len() {
            self.beyond += 1;
        } else {
            let place = self.place_of(distance);
            if self.window[place].is_some() {
                self.repeat += 1;
                return;
            }
            self.window[place] = Some(segment);
            self.kept += 1;
            self.held += 1;
            self.drain();
        }
    }

    fn step(&mut self) {
        self.expected = (self.expected + 1) % 8192;
        self.place = self.place_of(1);
    }

    fn drain(&mut self) {
        while let Some(segment) = self.window[self.place].take() {
            let frames = &mut self.frames;
            self.joiner.feed(&segment, &mut |frame| frames.push(frame));
            self.held -= 1;
            self.step();
        }
    }

    fn gap(&mut self) {
        if self.held > 0 {
            self.joiner.gap();
            self.lost += 1;
            self.step();
            self.drain();
        }
    }

    fn gap_to(&mut self, number: u16) {
        for _ in 0..4096 {
            let distance = number.wrapping_sub(self.expected) % 8192;
            if distance == 0 || distance >= 4096 {
                return;
            }
            self.gap();
        }
    }

    fn close(&mut self) {
        while self.held > 0 {
            self.gap();
        }
    }
}

enum Input {
    Grant { number: u32, sid: u16, bytes: u64 },
    Burst { number: u32, is_right: bool, bytes: Vec<u8> },
}

/// What an admitted burst brings.
struct Admitted {
    flow: usize,
    segment: Segment,
}

struct Request {
    flow: usize,
    cluster: u8,
    units: u16,
    number: u16,
}

struct Lane {
    /// The flow of each service identifier, and how many clusters it has.
    sids: HashMap<u16, (usize, u64)>,
    grants: HashMap<u32, (usize, u64, u64)>,
    requests: Vec<Request>,
    admitted: u64,
    refused: Vec<u8>,
}

impl Lane {
    fn take(&mut self, input: Input) -> Option<Admitted> {
        match self.answer(input) {
            Ok(None) => None,
            Ok(Some(admitted)) => {
                self.admitted += 1;
                Some(admitted)
            }
            Err(refusal) => {
                self.refused.push(refusal);
                None
            }
        }
    }

    fn answer(&mut self, input: Input) -> Result<Option<Admitted>, u8> {
        match input {
            Input::Grant { number, sid, bytes } => {
                if !(8..=65535).contains(&bytes) {
                    return Err(1);
                }
                if self.grants.contains_key(&number) {
                    return Err(2);
                }
                let (flow, clusters) = *self.sids.get(&sid).ok_or(3)?;
                if self.grants.len() == 65536 {
                    return Err(4);
                }
                self.grants.insert(number, (flow, clusters, bytes));
                Ok(None)
            }
            Input::Burst { number, is_right, bytes } => {
                let (flow, clusters, granted) = self.grants.remove(&number).ok_or(6)?;
                if bytes.len() as u64 > granted {
                    return Err(7);
                }
                if !is_right {
                    return Err(8);
                }
                if bytes.len() < 8 {
                    return Err(9);
                }
                let segment = Segment::read(bytes).ok_or(10)?;
                let (cluster, units, number) = (segment.cluster, segment.units, segment.number);
                if units > 0 && u64::from(cluster) < clusters {
                    self.requests.push(Request { flow, cluster, units, number });
                }
                Ok(Some(Admitted { flow, segment }))
            }
        }
    }
}

enum TraceItem {
    Input(usize, Input),
    Gap(usize, Option<u16>),
}

/// Takes a line of a trace that is no setup.
fn item(kind: &[u8], words: &mut Words) -> Result<TraceItem, Fault> {
    if kind == b"gap" {
        let flow = number(words.next(), 63)? as usize;
        let to = words.next().map(|word| number(Some(word), 8191)).transpose()?;
        return Ok(TraceItem::Gap(flow, to.map(|to| to as u16)));
    }
    let channel = number(words.next(), 3)? as usize;
    let name = number(words.next(), u64::from(u32::MAX))? as u32;
    let input = match kind {
        b"grant" => Input::Grant {
            number: name,
            sid: number(words.next(), 16383)? as u16,
            bytes: number(words.next(), u64::from(u32::MAX))?,
        },
        b"burst" => Input::Burst {
            number: name,
            is_right: match words.next() {
                Some(b"ok") => true,
                Some(b"bad") => false,
                _ => return Err("not ok or bad".into()),
            },
            bytes: decode(words.next().ok_or("wrong number of fields")?)?,
        },
        _ => return Err("unknown line".into()),
    };
    Ok(TraceItem::Input(channel, input))
}

#[derive(Default)]
struct Setup {
    flows: Vec<Flow>,
    sids: [HashMap<u16, (usize, u64)>; CHANNELS],
    sfids: HashMap<u64, usize>,
}

impl Setup {
    fn add_flow(&mut self, words: &mut Words) -> Result<(), Fault> {
        let sfid = number(words.next(), u64::from(u32::MAX))?;
        let expected = number(words.next(), 8191)? as u16;
        let width = number(words.next(), 4096)? as usize;
        let clusters = number(words.next(), 8)?;
        if self.flows.len() == 64 || self.sfids.insert(sfid, self.flows.len()).is_some() {
            return Err("flow given before".into());
        }
        let window = (0..width).map(|_| None).collect();
        self.flows.push(Flow { sfid, clusters, expected, window, ..Flow::default() });
        Ok(())
    }

    fn add_sid(&mut self, words: &mut Words) -> Result<(), Fault> {
        let channel = number(words.next(), 3)? as usize;
        let sid = number(words.next(), 16383)? as u16;
        let index = number(words.next(), 63)? as usize;
        let flow = self.flows.get(index).ok_or("unknown flow")?;
        if self.sids[channel].insert(sid, (index, flow.clusters)).is_some() {
            return Err("sid given before".into());
        }
        Ok(())
    }

    fn split(self) -> (Vec<Flow>, [Lane; CHANNELS]) {
        let lane = |sids| Lane {
            sids,
            grants: HashMap::new(),
            requests: Vec::new(),
            admitted: 0,
            refused: Vec::new(),
        };
        (self.flows, self.sids.map(lane))
    }
}

/// Reads the trace, and hands its items to what begins with the setup.
fn each_item<S>(
    begin: impl FnOnce(Setup) -> S,
    mut act: impl FnMut(&mut S, TraceItem),
) -> Result<S, Fault> {
    let (mut setup, mut begin, mut state) = (Setup::default(), Some(begin), None);
    each_line(|kind, words| {
        match kind {
            b"flow" | b"sid" if state.is_some() => return Err("setup after input".into()),
            b"flow" => setup.add_flow(words)?,
            b"sid" => setup.add_sid(words)?,
            _ => {
                let item = item(kind, words)?;
                if let Some(begin) = begin.take() {
                    state = Some(begin(std::mem::take(&mut setup)));
                }
                if let Some(state) = &mut state {
                    act(state, item);
                }
            }
        }
        ends(words)
    })?;
    match (state, begin) {
        (Some(state), _) => Ok(state),
        (None, Some(begin)) => Ok(begin(setup)),
        (None, None) => Err("no trace".into()),
    }
}

fn report(flows: &[Flow], lanes: &[Lane]) -> Result<(), Fault> {
    let mut out = Text::new();
    for (index, flow) in flows.iter().enumerate() {
        let Flow { sfid, kept, late, repeat, beyond, lost, .. } = flow;
        let (frames, skipped) = (flow.frames.ends.len(), flow.joiner.skipped);
        write!(out, "flow {index} {sfid} kept {kept} late {late} repeat {repeat} ")?;
        writeln!(out, "beyond {beyond} lost {lost} frames {frames} skipped {skipped}")?;
        for frame in flow.frames.iter() {
            write!(out, "frame {index} ")?;
            out.put_hex(frame)?;
        }
    }
    for (channel, lane) in lanes.iter().enumerate() {
        for request in &lane.requests {
            let Request { flow, cluster, units, number } = request;
            writeln!(out, "request {channel} {flow} {cluster} {units} {number}")?;
        }
    }
    for (channel, lane) in lanes.iter().enumerate() {
        write!(out, "lane {channel} admitted {} refused", lane.admitted)?;
        for refusal in &lane.refused {
            write!(out, " {refusal}")?;
        }
        writeln!(out, "{}", if lane.refused.is_empty() { " -" } else { "" })?;
    }
    Ok(out.flush()?)
}

fn decide(flows: &mut [Flow], flow: usize, to: Option<u16>) {
    match (flows.get_mut(flow), to) {
        (Some(flow), None) => flow.gap(),
        (Some(flow), Some(to)) => flow.gap_to(to),
        (None, _) => {}
    }
}

fn replay() -> Result<(), Fault> {
    let (mut flows, lanes) = each_item(Setup::split, |(flows, lanes), item| match item {
        TraceItem::Gap(flow, to) => decide(flows, flow, to),
        TraceItem::Input(channel, input) => {
            if let Some(admitted) = lanes[channel].take(input) {
                flows[admitted.flow].arrive(admitted.segment);
            }
        }
    })?;
    flows.iter_mut().for_each(Flow::close);
    report(&flows, &lanes)
}

// The same on threads: one for each channel, and one for the flows.

enum Coming {
    Admitted(Admitted),
    Gap(usize, Option<u16>),
}

fn serve_lane(mut lane: Lane, inputs: Receiver<Input>, to: SyncSender<Coming>) -> Lane {
    for input in inputs {
        if let Some(admitted) = lane.take(input) {
            if to.send(Coming::Admitted(admitted)).is_err() {
                break;
            }
        }
    }
    lane
}

fn serve_flows(mut flows: Vec<Flow>, comings: Receiver<Coming>) -> Vec<Flow> {
    for coming in comings {
        match coming {
            Coming::Admitted(admitted) => flows[admitted.flow].arrive(admitted.segment),
            Coming::Gap(flow, to) => decide(&mut flows, flow, to),
        }
    }
    flows.iter_mut().for_each(Flow::close);
    flows
}

struct Running {
    inputs: [SyncSender<Input>; CHANNELS],
    gaps: SyncSender<Coming>,
    lanes: [thread::JoinHandle<Lane>; CHANNELS],
    flows: thread::JoinHandle<Vec<Flow>>,
}

fn start(setup: Setup) -> Running {
    let (flows, lanes) = setup.split();
    let (gaps, comings) = sync_channel(WAITING);
    let mut inputs = Vec::new();
    let lanes = lanes.map(|lane| {
        let (to, from) = sync_channel(WAITING);
        inputs.push(to);
        let gaps = gaps.clone();
        thread::spawn(move || serve_lane(lane, from, gaps))
    });
    let flows = thread::spawn(move || serve_flows(flows, comings));
    let Ok(inputs) = inputs.try_into() else { unreachable!() };
    Running { inputs, gaps, lanes, flows }
}

fn run() -> Result<(), Fault> {
    let running = each_item(start, |running, item| {
        // A thread that has ended says so when it is joined.
        match item {
            TraceItem::Input(channel, input) => drop(running.inputs[channel].send(input)),
            TraceItem::Gap(flow, to) => drop(running.gaps.send(Coming::Gap(flow, to))),
        }
    })?;
    drop((running.inputs, running.gaps));
    let lanes = running.lanes.map(|lane| lane.join().expect("a lane ends"));
    let flows = running.flows.join().expect("the flows end");
    report(&flows, &lanes)
}

fn main() {
    let done = match std::env::args().nth(1).as_deref() {
        Some("join") => join(),
        Some("cut") => cut(),
        Some("replay") => replay(),
        Some("run") => run(),
        _ => Err("usage: plain join|cut|replay|run".into()),
    };
    if let Err(fault) = done {
        eprintln!("plain: {fault}");
        std::process::exit(1);
    }
}
