//! What the misuses are compared with: a board is loaded, runs, is stopped, and is loaded again.
#![tactic(auto)]

use board::board::Board;
use engine::supply::Supply;
use order::order::EngineOrder;
use running::running::Running;
use slack::rule::SlackRule;

/// Loads a text before and after a run, and answers whether both were refused.
pub fn right<P: Supply + Drop, R: SlackRule + Drop, O: EngineOrder + Drop>(
    board: Board<P, R, O>,
    text: &[u8],
) -> bool {
    let mut board = board;
    let first = board.load(text).is_err();
    let running = Running::start(board);
    let mut board = running.stop();
    let second = board.load(text).is_err();
    first && second
}
