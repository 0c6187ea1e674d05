//! Inputs made by chance, the same ones from the same seed.

pub mod bodies;
pub mod commands;
pub mod modems;
pub mod nodes;

/// A file of so many inputs of a kind.
pub fn made(kind: &str, seed: u64, count: usize) -> Option<Vec<u8>> {
    match kind {
        "commands" => Some(commands::made(seed, count, false)),
        "all_commands" => Some(commands::made(seed, count, true)),
        "bodies" => Some(bodies::made(seed, count)),
        "modems" => Some(modems::made(seed, count)),
        "nodes" => Some(nodes::made(seed, count)),
        _ => None,
    }
}
