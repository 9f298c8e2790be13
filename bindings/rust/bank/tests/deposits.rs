//! Each seed is a schedule of the two deposits.
use bank::{deposit, locked_deposit};

detio::explore_test! {
    no_deposit_is_lost: threads 2, seeds 1..=20, deposit, |balances| assert!(balances.contains(&Ok(2)))
}

detio::explore_test! {
    no_locked_deposit_is_lost: threads 2, seeds 1..=20, locked_deposit, |balances| assert!(balances.contains(&Ok(2)))
}
