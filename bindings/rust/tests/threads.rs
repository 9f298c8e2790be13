//! Threads that cannot start: a program of its own, since it takes memory for their stacks away.
use detio::{Fault, Run, Settings};
use std::panic::{AssertUnwindSafe, catch_unwind};
use std::sync::atomic::{AtomicUsize, Ordering};

/// The limit of the address space, as `setrlimit` of Linux has it.
#[repr(C)]
struct Limit {
    now: u64,
    most: u64,
}

const ADDRESSES: i32 = 9;

extern "C" {
    fn getrlimit(what: i32, limit: *mut Limit) -> i32;
    fn setrlimit(what: i32, limit: *const Limit) -> i32;
    fn alarm(seconds: u32) -> u32;
}

#[test]
fn a_thread_that_cannot_start_stops_the_others() {
    let text = std::fs::read_to_string("/proc/self/statm").unwrap();
    let pages: u64 = text.split(' ').next().unwrap().parse().unwrap();
    // (what hangs ends)
    unsafe { alarm(60) };
    let run = Run::record(&Settings::of(16), 10).unwrap();
    let (began, stops) = (AtomicUsize::new(0), AtomicUsize::new(0));
    let mut before = Limit { now: 0, most: 0 };
    assert_eq!(unsafe { getrlimit(ADDRESSES, &mut before) }, 0);
    let less = Limit { now: (pages + 3500) * 4096, most: before.most };
    assert_eq!(unsafe { setrlimit(ADDRESSES, &less) }, 0);
    let caught = catch_unwind(AssertUnwindSafe(|| {
        run.play(|io| {
            began.fetch_add(1, Ordering::SeqCst);
            loop {
                if io.pipe() == Err(Fault::Stopped(5)) {
                    stops.fetch_add(1, Ordering::SeqCst);
                    return;
                }
            }
        })
    }));
    assert_eq!(unsafe { setrlimit(ADDRESSES, &before) }, 0);
    let why = *caught.unwrap_err().downcast::<String>().unwrap();
    assert!(why.contains("of the run could not start"), "{why}");
    let began = began.into_inner();
    assert!(began < 16 && stops.into_inner() == began, "{began} began");
}
