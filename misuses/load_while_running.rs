//! A misuse: a board is loaded while it runs. Stop it first.
#![tactic(auto)]

use board::board::Board;
use engine::supply::Supply;
use order::order::EngineOrder;
use running::running::Running;
use slack::rule::SlackRule;

/// Starts a board, and loads a text onto it.
pub fn misuse<P: Supply + Drop, R: SlackRule + Drop, O: EngineOrder + Drop>(
    board: Board<P, R, O>,
    text: &[u8],
) -> bool {
    let mut running = Running::start(board);
    running.load(text).is_err()
}
