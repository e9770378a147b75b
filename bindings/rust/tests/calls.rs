//! What each call of a receiver answers, and what it gives.

mod common;

use common::{frame, receiver, rows, segment, send, FLOW, SID};
use segrx::{
    Counts, Decision, Error, Flow, Frame, LentFrame, LossRule, Receiver, Refusal, Request, Row,
    Verdict, Waiting,
};

fn numbered(number: u16) -> Vec<u8> {
    segment(number, 0, &frame(number))
}

#[test]
fn every_refusal_of_a_grant_or_burst() {
    let mut receiver = receiver();
    let pointer_past = [0x80, 2, 0, 0, 0, 0, 0, 0, 1, 1];
    let refused = |refusal| Err(Error::Refused(refusal));
    assert_eq!(receiver.grant(0, 1, SID, 7), refused(Refusal::GrantRange));
    assert_eq!(
        receiver.grant(0, 1, SID, 65_536),
        refused(Refusal::GrantRange)
    );
    assert_eq!(
        receiver.grant(0, 1, SID + 1, 8),
        refused(Refusal::UnknownSid)
    );
    assert_eq!(receiver.grant(0, 1, SID, 8), Ok(()));
    assert_eq!(receiver.grant(0, 1, SID, 8), refused(Refusal::GrantKnown));
    let cases: [(Refusal, bool, &[u8]); 4] = [
        (Refusal::TooLong, true, &[0; 9]),
        (Refusal::BadCheck, false, &[]),
        (Refusal::TooShort, true, &[0; 7]),
        (Refusal::PointerPast, true, &pointer_past[..8]),
    ];
    for (refusal, check, bytes) in cases {
        assert_eq!(
            receiver.burst(0, 1, check, bytes).err(),
            Some(Error::Refused(refusal))
        );
        // The grant is spent.
        assert_eq!(
            receiver.burst(0, 1, check, bytes).err(),
            Some(Error::Refused(Refusal::NoGrant))
        );
        assert_eq!(receiver.grant(0, 1, SID, 8), Ok(()));
    }
    for number in 2..=65_536 {
        assert_eq!(receiver.grant(0, number, SID, 8), Ok(()));
    }
    assert_eq!(
        receiver.grant(0, 0, SID, 8),
        refused(Refusal::TooManyGrants)
    );
    assert_eq!(receiver.counts(0), Ok(Counts::default()));
}

#[test]
fn every_error_that_a_caller_makes() {
    let mut receiver = receiver();
    assert_eq!(receiver.grant(2, 1, SID, 8), Err(Error::NoChannel));
    assert_eq!(receiver.grant(usize::MAX, 1, SID, 8), Err(Error::NoChannel));
    assert_eq!(receiver.burst(2, 1, true, &[0; 8]), Err(Error::NoChannel));
    assert_eq!(
        receiver.burst(0, 1, true, &vec![0; 65_536]),
        Err(Error::LengthRange)
    );
    assert_eq!(receiver.decide(1, Decision::Gap), Err(Error::NoFlow));
    assert_eq!(
        receiver.decide(0, Decision::GapTo(8192)),
        Err(Error::NumberRange)
    );
    assert_eq!(
        receiver.decide(0, Decision::SkipTo(8192)),
        Err(Error::NumberRange)
    );
    assert_eq!(receiver.go_on(1), Ok(()));
    assert_eq!(receiver.counts(1), Err(Error::NoFlow));
    assert_eq!(receiver.restart(1, 0), Err(Error::NoFlow));
    assert_eq!(receiver.restart(0, 8192), Err(Error::NumberRange));
    assert_eq!(receiver.close(), Ok(()));
    assert_eq!(receiver.close(), Ok(()));
    assert_eq!(receiver.grant(0, 1, SID, 8), Err(Error::Closed));
    assert_eq!(receiver.burst(0, 1, true, &[0; 8]), Err(Error::Closed));
    assert_eq!(receiver.decide(0, Decision::Gap), Err(Error::Closed));
    assert_eq!(receiver.go_on(0), Err(Error::Closed));
    assert_eq!(receiver.restart(0, 0), Err(Error::Closed));
    assert_eq!(receiver.counts(0), Ok(Counts::default()));
}

#[test]
fn the_longest_burst_is_taken() {
    let mut receiver = receiver();
    let longest = segment(0, 0, &frame(65_535 - 8 - 6));
    assert_eq!(longest.len(), 65_535);
    assert_eq!(send(&mut receiver, 0, &longest), Ok(Verdict::Kept));
    let bytes = frame(65_535 - 8 - 6);
    assert_eq!(
        receiver.frames().collect::<Vec<_>>(),
        [Frame { flow: 0, bytes }]
    );
}

#[test]
fn frames_are_lent_as_many_as_wait() {
    let mut receiver = receiver();
    for (number, units) in [(2, 9), (1, 0)] {
        let ahead = segment(number, units, &frame(number));
        assert_eq!(send(&mut receiver, 0, &ahead), Ok(Verdict::Kept));
        let waiting = receiver.waiting_behind_burst();
        assert_eq!((waiting.frames, waiting.requests), (0, 1));
    }
    assert_eq!(receiver.lend_frame(), None);
    assert_eq!(send(&mut receiver, 1, &numbered(0)), Ok(Verdict::Kept));
    let (frames, requests) = (3, 1);
    assert_eq!(
        receiver.waiting_behind_burst(),
        Waiting { frames, requests }
    );
    // One is copied between two that are lent.
    let (first, last, mut room) = (frame(0), frame(2), Vec::new());
    let lent = |bytes| Some(LentFrame { flow: 0, bytes });
    assert_eq!(receiver.lend_frame(), lent(&first[..]));
    assert_eq!(receiver.next_frame(&mut room), Some(0));
    assert_eq!(room, frame(1));
    assert_eq!(receiver.lend_frame(), lent(&last[..]));
    assert_eq!(receiver.lend_frame(), None);
    assert_eq!(
        receiver.burst(0, 9, true, &[0; 70_000]).err(),
        Some(Error::LengthRange)
    );
    assert_eq!(receiver.requests().count(), 1);
}

#[test]
fn every_verdict_and_its_count() {
    let mut receiver = receiver();
    let late = [(0, Verdict::Late); 6];
    let cases = [
        (2, Verdict::Kept),
        (2, Verdict::Repeat),
        (2, Verdict::Repeat),
        (0, Verdict::Kept),
        (3, Verdict::Kept),
        (5, Verdict::Beyond),
    ];
    for (number, verdict) in cases.iter().chain(&late) {
        let answer = send(&mut receiver, 0, &numbered(*number));
        assert_eq!(answer, Ok(*verdict), "{}", number);
    }
    let fill = segment(4, 0, &[0xff; 5]);
    assert_eq!(send(&mut receiver, 1, &fill), Ok(Verdict::Kept));
    receiver.decide(0, Decision::GapTo(2)).unwrap();
    receiver.decide(0, Decision::SkipTo(11)).unwrap();
    receiver.close().unwrap();
    let wanted = Counts {
        kept: 4,
        late: 6,
        repeat: 2,
        beyond: 1,
        lost: 7,
        frames: 3,
        skipped: 5,
    };
    assert_eq!(receiver.counts(0), Ok(wanted));
    let given: Vec<_> = receiver.frames().map(|frame| frame.bytes).collect();
    assert_eq!(given, [frame(0), frame(2), frame(3)]);
}

#[test]
fn every_decision() {
    // Segment 3 is held. What is lost then, of a window of 4.
    let cases = [
        (Decision::Gap, 1),
        (Decision::GapTo(2), 2),
        (Decision::GapTo(9), 3),
        (Decision::SkipTo(2), 2),
        (Decision::SkipTo(9), 8),
    ];
    for (decision, lost) in cases {
        let mut receiver = receiver();
        assert_eq!(send(&mut receiver, 0, &numbered(3)), Ok(Verdict::Kept));
        assert_eq!(receiver.decide(0, decision), Ok(()));
        assert_eq!(receiver.counts(0).unwrap().lost, lost, "{:?}", decision);
    }
}

#[test]
fn the_rules_by_which_segments_are_lost() {
    // Segment 1 is missing, and 2 to 6 come in a window of 4, on two channels by turns.
    let cases = [
        (LossRule::Decided, 0, 2),
        (LossRule::Passed, 1, 0),
        (LossRule::PassedOrSlid, 1, 0),
    ];
    for (rule, lost, beyond) in cases {
        let mut receiver = Receiver::new(2, &[FLOW], &rows(), rule).unwrap();
        for (channel, number) in [(0, 0), (0, 2), (1, 3), (0, 4), (1, 5), (0, 6)] {
            send(&mut receiver, channel, &numbered(number)).unwrap();
        }
        let counts = receiver.counts(0).unwrap();
        assert_eq!((counts.lost, counts.beyond), (lost, beyond), "{:?}", rule);
    }
}

#[test]
fn a_window_slides() {
    let silent = Receiver::new(2, &[FLOW], &rows(), LossRule::PassedOrSlid);
    let mut receiver = silent.unwrap();
    assert_eq!(send(&mut receiver, 0, &numbered(9)), Ok(Verdict::Kept));
    assert_eq!(receiver.counts(0).unwrap().lost, 6);
}

#[test]
fn requests_with_all_that_they_say() {
    let flows = [
        Flow { sfid: 1, ..FLOW },
        Flow {
            first: 8191,
            ..FLOW
        },
    ];
    let row = Row {
        flow: 1,
        sid: 5,
        channel: 2,
    };
    let mut receiver = Receiver::new(3, &flows, &[row], LossRule::Decided).unwrap();
    for (number, units) in [(8191, 65_535), (0, 0), (1, 7)] {
        receiver.grant(2, 9, 5, 8).unwrap();
        receiver
            .burst(2, 9, true, &segment(number, units, &[]))
            .unwrap();
    }
    let request = |units, sequence| Request {
        flow: 1,
        units,
        sequence,
        channel: 2,
        cluster: 1,
    };
    assert_eq!(
        receiver.requests().collect::<Vec<_>>(),
        [request(65_535, 8191), request(7, 1)]
    );
    assert_eq!(receiver.next_request(), None);
}

#[test]
fn frames_into_one_room_and_each_its_own() {
    let mut receiver = receiver();
    for number in [1, 2, 0] {
        send(&mut receiver, 0, &segment(number, 0, &frame(number * 1000))).unwrap();
    }
    let mut room = vec![1, 2, 3];
    assert_eq!(receiver.next_frame(&mut room), Some(0));
    assert_eq!(room, frame(0));
    assert_eq!(receiver.next_frame(&mut room), Some(0));
    assert_eq!(room, frame(1000));
    // What isn't taken of an iterator still waits.
    assert_eq!(
        receiver.frames().next().map(|frame| frame.bytes.len()),
        Some(2006)
    );
    send(&mut receiver, 1, &numbered(3)).unwrap();
    assert_eq!(
        receiver
            .frames()
            .map(|frame| frame.bytes)
            .collect::<Vec<_>>(),
        [frame(3)]
    );
    assert_eq!(receiver.next_frame(&mut room), None);
    assert!(room.is_empty());
}

#[test]
fn a_flow_begins_anew() {
    let mut receiver = receiver();
    send(&mut receiver, 0, &numbered(1)).unwrap();
    let counts = receiver.restart(0, 8000).unwrap();
    assert_eq!((counts.kept, counts.lost, counts.frames), (1, 1, 1));
    assert_eq!(receiver.counts(0), Ok(Counts::default()));
    assert_eq!(send(&mut receiver, 0, &numbered(8000)), Ok(Verdict::Kept));
    assert_eq!(receiver.frames().count(), 2);
}

#[test]
fn what_waits_can_be_taken_after_the_close_and_dropped() {
    let mut closed = receiver();
    send(&mut closed, 0, &segment(1, 4, &frame(1))).unwrap();
    closed.close().unwrap();
    assert_eq!(closed.frames().count(), 1);
    assert_eq!(closed.requests().count(), 1);
    let mut dropped = receiver();
    send(&mut dropped, 0, &segment(0, 4, &frame(1))).unwrap();
    send(&mut dropped, 0, &segment(2, 4, &frame(1))).unwrap();
}

#[test]
fn receivers_on_several_threads_at_once() {
    let work = || {
        let mut receiver = receiver();
        for number in 0..2000 {
            let sent = numbered(number % 8192);
            send(&mut receiver, usize::from(number % 2), &sent).unwrap();
        }
        receiver.frames().count()
    };
    let threads: Vec<_> = (0..4).map(|_| std::thread::spawn(work)).collect();
    assert!(threads
        .into_iter()
        .all(|thread| thread.join().unwrap() == 2000));
}

#[test]
fn bytes_that_are_shared_or_read_only_are_taken() {
    static SEGMENT: [u8; 8] = [0; 8];
    let mut receiver = receiver();
    assert_eq!(send(&mut receiver, 0, &SEGMENT), Ok(Verdict::Kept));
}
