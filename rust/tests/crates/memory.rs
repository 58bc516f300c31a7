//! Requests for memory that are refused.
use crate::refusing::{Refused, refusing};
use std::fmt::Debug;

/// How many requests of a call are refused one by one. Of those behind it some are, further and further apart.
const EACH: usize = 2_000;

/// Makes a call again and again, and refuses another of its requests for memory each time, alone and with all later
/// ones. The call answers the same, or it gives the error that says so.
#[track_caller]
pub fn assert_refusals_told<T: PartialEq + Debug, E: Debug>(
    call: impl Fn() -> Result<T, E>,
    is_told: impl Fn(&E) -> bool,
) {
    let wanted = call().expect("an answer");
    for refused in [Refused::One, Refused::All] {
        let mut granted = 0;
        loop {
            let (answer, count) = refusing(refused, granted, &call);
            match answer {
                Ok(answer) => assert_eq!(answer, wanted, "without request {granted}"),
                Err(error) => assert!(count > 0 && is_told(&error), "without request {granted}: {error:?}"),
            }
            if count == 0 {
                assert!(granted > 0, "the call takes no memory");
                break;
            }
            granted += 1 + granted.saturating_sub(EACH) / 200;
        }
    }
}
