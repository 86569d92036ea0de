//! A misuse: a board is loaded after it was started. It is gone; go on with the running board.
#![tactic(auto)]

use board::board::Board;
use engine::supply::Supply;
use order::order::EngineOrder;
use running::running::Running;
use slack::rule::SlackRule;

/// Starts a board, and loads a text onto what was started.
pub fn misuse<P: Supply + Drop, R: SlackRule + Drop, O: EngineOrder + Drop>(
    board: Board<P, R, O>,
    text: &[u8],
) -> bool {
    let mut board = board;
    let running = Running::start(board);
    board.load(text).is_err()
}
