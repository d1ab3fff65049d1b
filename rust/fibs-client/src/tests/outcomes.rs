//! How an engine, a conversation and a command line end.

use crate::fibs_engine::fault::EngineFault;
use crate::fibs_test_tools::outcome::Outcome;

/// Asserts how one ended, and what it printed on both writers. The name and the number say which case it is.
pub fn assert_is(name: &str, at: usize, outcome: &Outcome, ending: Result<u8, EngineFault>, printed: [&[u8]; 2]) {
    let [out, err] = printed;
    assert!(outcome.is(ending, out, err), "{name}, at {at}: {outcome:?}");
}
