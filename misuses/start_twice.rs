//! A misuse: a board is started twice. Go on with the running board that the first start gave.
#![tactic(auto)]

use board::board::Board;
use engine::supply::Supply;
use order::order::EngineOrder;
use running::running::Running;
use slack::rule::SlackRule;

/// Starts a board, and starts it again.
pub fn misuse<P: Supply + Drop, R: SlackRule + Drop, O: EngineOrder + Drop>(
    board: Board<P, R, O>,
) -> u64 {
    let first = Running::start(board);
    let second = Running::start(board);
    first.late_total() + second.late_total()
}
