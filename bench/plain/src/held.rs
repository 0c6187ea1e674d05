//! What is held in memory of each kind of thing: two shapes a kind, with equal records but for what is kept of them.

use crate::shapes::{held_flows, held_intervals, held_places, held_requests, held_votes, Shape};

/// A kind of thing. The first shape leaves so many more of it held than the second, and both have as many records of
/// equal lengths.
pub struct Held {
    pub name: &'static str,
    pub count: usize,
    pub many: Shape,
    pub one: Shape,
}

/// All kinds of things.
pub fn held() -> Vec<Held> {
    let mut all = Vec::new();
    for (name, (count, many, one)) in [
        ("flow", held_flows()),
        ("request that waits", held_requests()),
        ("vote of a node", held_votes()),
        ("place that is learned", held_places()),
        ("interval that a modem keeps", held_intervals()),
    ] {
        all.push(Held {
            name,
            count,
            many,
            one,
        });
    }
    all
}
