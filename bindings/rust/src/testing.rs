//! Tests under many schedules: [`explore`](crate::testing::explore), and `explore_test!` for `cargo test`.
//!
//! ```
//! detio::explore_test! {
//!     /// No deposit is lost.
//!     deposits: threads 2, seeds 1..=20,
//!     |io| io.open(b"/account", detio::READ_WRITE, detio::CREATE),
//!     |values| assert!(values.iter().all(|it| it.is_ok()))
//! }
//! # fn main() {}
//! ```
//!
//! A seed that fails leaves its log in `target/detio`, or in the folder `DETIO_LOGS`, and says the line that runs it
//! again: `DETIO_SEEDS=7 cargo test deposits`. With `DETIO_REPLAY=PATH` too, that log is replayed.
use std::ops::RangeInclusive;
use std::panic::{AssertUnwindSafe, catch_unwind, resume_unwind};
use std::path::PathBuf;

use crate::{REACH, Run, Settings, Thread};

/// A test that plays a function in so many threads under each of these seeds, and checks what the threads returned.
#[macro_export]
macro_rules! explore_test {
    ($(#[$meta:meta])* $name:ident: threads $threads:expr, seeds $seeds:expr, $play:expr, $check:expr $(,)?) => {
        $(#[$meta])*
        #[test]
        fn $name() {
            $crate::testing::explore(stringify!($name), $threads, $seeds, $play, $check);
        }
    };
}

/// The seeds that `DETIO_SEEDS` names, as `7` or `1-100`, or else these.
fn seeds_of(given: Option<String>, seeds: RangeInclusive<u64>) -> RangeInclusive<u64> {
    let Some(text) = given else { return seeds };
    let (first, last) = text.split_once('-').unwrap_or((&text, &text));
    match (first.parse(), last.parse()) {
        (Ok(first), Ok(last)) => first..=last,
        _ => panic!("DETIO_SEEDS is a seed or two, as 7 or 1-100, and not {text}"),
    }
}

/// Where the log of a seed that failed is left.
fn path_of(name: &str, seed: u64) -> PathBuf {
    let folder = std::env::var_os("DETIO_LOGS").map_or_else(|| PathBuf::from("target/detio"), PathBuf::from);
    folder.join(format!("{name}-seed-{seed}.log"))
}

/// Plays the function under each seed, and checks what the threads returned, and that the run ended. Where a check
/// panics, the log is left, the line that runs this seed again is printed, and the panic goes on.
pub fn explore<T: Send>(
    name: &str, threads: usize, seeds: RangeInclusive<u64>, play: impl Fn(&mut Thread) -> T + Sync,
    check: impl Fn(&[T]),
) {
    let replays = std::env::var_os("DETIO_REPLAY").map(|it| std::fs::read(it).expect("DETIO_REPLAY is a log"));
    for seed in seeds_of(std::env::var("DETIO_SEEDS").ok(), seeds) {
        let begun = match &replays {
            Some(log) => Run::replay(log),
            None => Run::record(&Settings::of(threads), 10),
        };
        let run = begun.expect("the run begins").with_seed(seed, REACH);
        let played = catch_unwind(AssertUnwindSafe(|| run.play(&play)));
        let ended = run.finish().expect("the run is finished");
        let log = ended.log.clone();
        let checked = played.and_then(|values| {
            catch_unwind(AssertUnwindSafe(|| {
                check(&values);
                if let Err(why) = ended.check() {
                    panic!("{why}");
                }
            }))
        });
        if let Err(why) = checked {
            let path = path_of(name, seed);
            let left = path.parent().map_or(Ok(()), std::fs::create_dir_all).and_then(|()| std::fs::write(&path, log));
            eprintln!("{name}: seed {seed} fails; again: DETIO_SEEDS={seed} cargo test {name}");
            match left {
                Ok(()) => eprintln!("its log: {}", path.display()),
                Err(why) => eprintln!("its log was not left at {}: {why}", path.display()),
            }
            resume_unwind(why);
        }
    }
}

#[cfg(test)]
mod tests {
    use super::seeds_of;

    #[test]
    fn seeds_are_read() {
        assert_eq!(seeds_of(None, 1..=9), 1..=9);
        assert_eq!(seeds_of(Some("7".into()), 1..=9), 7..=7);
        assert_eq!(seeds_of(Some("3-5".into()), 1..=9), 3..=5);
        assert!(std::panic::catch_unwind(|| seeds_of(Some("x".into()), 1..=9)).is_err());
    }
}
