//! Every row of the table, alone, in all pairs and all at once, in every operation: the lowest
//! is answered and no lent byte has changed, but that rows 8 to 11 clear work.

use programs::format::{Message, Reply};
use programs::replay::Replay;
use reference::cases::{accepted, damaged};
use reference::Answer::Refused;
use std::collections::BTreeSet;

#[test]
fn the_lowest_row_is_answered() {
    let mut replay = Replay::start();
    let mut tried = BTreeSet::new();
    for damaged in damaged() {
        let reply = replay.call(&Message::from(&damaged.call));
        let wanted = Reply::new(&Refused(damaged.row()), &damaged.after());
        assert_eq!(reply, wanted, "rows {:?}: {:?}", damaged.rows, damaged.call);
        tried.insert((damaged.call.name(), damaged.rows));
    }
    for (call, rows) in accepted() {
        let reply = replay.call(&Message::from(&call));
        assert_eq!(reply.row, 0, "{call:?}");
        for (i, &low) in rows.iter().enumerate() {
            assert!(tried.contains(&(call.name(), vec![low])));
            for &high in &rows[i + 1..] {
                assert!(tried.contains(&(call.name(), vec![low, high])));
            }
        }
        assert!(tried.contains(&(call.name(), rows)));
    }
    replay.end();
}
