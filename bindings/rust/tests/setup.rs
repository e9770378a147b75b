//! Each fault of a setup, and its borders.

mod common;

use common::{rows, FLOW, SID};
use segrx::{Flow, LossRule, Receiver, Row, SetupError};

fn flows(count: u32) -> Vec<Flow> {
    (0..count).map(|sfid| Flow { sfid, ..FLOW }).collect()
}

fn row(flow: usize, sid: u16, channel: u8) -> Row {
    Row { flow, sid, channel }
}

fn many_rows() -> Vec<Row> {
    let of_channel = |channel| (0..=16_383).map(move |sid| row(0, sid, channel));
    (0..16).flat_map(of_channel).collect()
}

#[test]
fn setups_that_are_lawful() {
    let cases: [(&str, u32, Vec<Flow>, Vec<Row>); 4] = [
        ("one channel, no row", 1, flows(1), vec![]),
        ("sixteen channels", 16, flows(1), vec![row(0, 16_383, 15)]),
        (
            "as many flows as may be",
            4,
            flows(16_384),
            vec![row(16_383, 0, 3)],
        ),
        ("as many rows as may be", 16, flows(1), many_rows()),
    ];
    for (name, channels, flows, rows) in cases {
        for rule in [LossRule::Decided, LossRule::Passed, LossRule::PassedOrSlid] {
            assert!(
                Receiver::new(channels, &flows, &rows, rule).is_ok(),
                "{}",
                name
            );
        }
    }
}

#[test]
fn setups_that_are_refused() {
    let one_more = [many_rows(), vec![row(0, 0, 0)]].concat();
    let cases: [(SetupError, u32, Vec<Flow>, Vec<Row>); 15] = [
        (SetupError::NoChannels, 0, flows(1), vec![]),
        (SetupError::TooManyChannels, 17, flows(1), vec![]),
        (SetupError::TooManyChannels, u32::MAX, flows(1), vec![]),
        (SetupError::NoFlows, 2, vec![], vec![]),
        (SetupError::TooManyFlows, 2, flows(16_385), vec![]),
        (SetupError::TooManyRows, 16, flows(1), one_more),
        (
            SetupError::BadFlow,
            2,
            vec![Flow {
                first: 8192,
                ..FLOW
            }],
            vec![],
        ),
        (
            SetupError::BadFlow,
            2,
            vec![Flow { window: 0, ..FLOW }],
            vec![],
        ),
        (
            SetupError::BadFlow,
            2,
            vec![Flow {
                window: 4097,
                ..FLOW
            }],
            vec![],
        ),
        (
            SetupError::BadFlow,
            2,
            vec![Flow {
                clusters: 9,
                ..FLOW
            }],
            vec![],
        ),
        (SetupError::SameSfid, 2, vec![FLOW, FLOW], vec![]),
        (SetupError::SidRange, 2, flows(1), vec![row(0, SID, 2)]),
        (SetupError::SidRange, 2, flows(1), vec![row(0, 16_384, 0)]),
        (SetupError::SameSid, 2, flows(1), [rows(), rows()].concat()),
        (SetupError::RowOfNoFlow, 2, flows(1), vec![row(1, SID, 0)]),
    ];
    for (fault, channels, flows, rows) in cases {
        let answer = Receiver::new(channels, &flows, &rows, LossRule::Passed);
        assert_eq!(answer.err(), Some(fault));
    }
}
