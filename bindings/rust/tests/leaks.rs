//! Runs and refusals, of which nothing is left: a program of its own, since it looks at how much memory that takes.
use detio::{Run, Settings};

#[test]
fn refusals_leak_nothing() {
    let size = || {
        let text = std::fs::read_to_string("/proc/self/statm").unwrap();
        text.split(' ').nth(1).unwrap().parse::<usize>().unwrap() * 4096
    };
    let refuse = |times| (0..times).for_each(|_| assert!(Run::record(&Settings::of(17), 10).is_err()));
    refuse(1000);
    let before = size();
    refuse(20_000);
    assert!(size() < before + (8 << 20));
    for _ in 0..10_000 {
        Run::record(&Settings::of(1), 10).unwrap();
    }
    assert!(size() < before + (16 << 20));
}
