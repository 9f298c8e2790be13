//! Tests of the crate, over the library in DETIO_LIBRARY_DIR or in bindings/out: `cargo test --offline`.
use detio::{CREATE, EXCLUSIVE, Fault, READ_ONLY, READ_WRITE, Run, Settings, Thread};
use std::panic::{AssertUnwindSafe, catch_unwind};
use std::path::PathBuf;

/// An empty folder of a test.
fn folder(name: &str) -> PathBuf {
    let path = std::env::temp_dir().join(format!("detio-{}-{name}", std::process::id()));
    let _ = std::fs::remove_dir_all(&path);
    std::fs::create_dir_all(&path).unwrap();
    path
}

fn run(threads: usize) -> Run {
    Run::record(&Settings::of(threads), 10).unwrap()
}

fn calls(io: &mut Thread) -> Result<(), Fault> {
    let a = io.open(b"/a", READ_WRITE, CREATE | EXCLUSIVE)?;
    assert_eq!((io.write(a, b"hello")?, io.lseek(a, 1, detio::SET)?, io.read(a, 2)?), (5, 1, &b"el"[..]));
    assert_eq!((io.number(), io.pread(a, 9, 3)?), (0, &b"lo"[..]));
    assert_eq!((io.pwrite(a, b"J", 0)?, io.fstat(a)?.length), (1, 5));
    io.ftruncate(a, 2)?;
    assert_eq!((io.fstat(a)?.length, io.dup(a)?, io.dup_from(a, 7)?, io.dup2(a, 9)?, io.getfl(a)?), (2, 1, 7, 9, 2));
    io.setfl(a, detio::APPEND)?;
    assert_eq!(io.getfl(a)?, 6);
    io.link(b"/a", b"/b")?;
    io.rename(b"/b", b"/c")?;
    io.unlink(b"/c")?;
    io.mkdir(b"/d")?;
    io.rmdir(b"/d")?;
    assert_eq!((io.pipe()?, io.socketpair()?), ((2, 3), (4, 5)));
    io.shutdown(5, detio::SHUT_WRITE)?;
    io.close(a)?;
    let listener = io.tcp_listen(0)?;
    let port = io.fstat(listener)?.length as u16;
    assert_eq!((listener, io.tcp_connect(port)?, io.tcp_accept(listener)?), (0, 6, 8));
    assert_eq!(io.host_open(b"/none/none", READ_ONLY, 0), Err(Fault::Failed("ENOENT")));
    Ok(())
}

#[test]
fn each_call_by_its_name() {
    let run = run(1);
    assert_eq!(run.play(calls), [Ok(())]);
    run.finish().unwrap().check().unwrap();
}

#[test]
fn a_log_in_a_file_is_replayed() {
    let (folder, settings) = (folder("log"), Settings::of(2));
    let (log, text) = (folder.join("run.log"), folder.join("in.txt"));
    let path = text.to_str().unwrap().as_bytes();
    std::fs::write(&text, "four").unwrap();
    let reads = |io: &mut Thread| {
        let file = io.host_open(path, READ_ONLY, 0)?;
        io.read(file, 9).map(|it| it.to_vec())
    };
    let run = Run::record_to(&settings, 10, &log, false).unwrap();
    let seen = run.play(reads);
    let ended = run.finish().unwrap().check().unwrap();
    assert_eq!(seen, [Ok(b"four".to_vec()), Ok(b"four".to_vec())]);
    assert_eq!(std::fs::read(&log).unwrap(), ended.log);
    let refused = Run::record_to(&settings, 10, &log, false).err();
    assert_eq!(refused, Some(Fault::Log(std::io::ErrorKind::AlreadyExists)));
    assert_eq!(Run::record_to(&Settings::of(17), 10, &log, true).err(), Some(Fault::Stopped(13)));
    assert_eq!(std::fs::read(&log).unwrap(), ended.log);
    std::fs::remove_file(&text).unwrap();
    let run = Run::replay(&ended.log).unwrap();
    assert_eq!(run.play(reads), seen);
    run.finish().unwrap().check().unwrap();
    let run = Run::replay(&ended.log).unwrap();
    run.play(|_| ());
    let why = run.finish().unwrap().check().unwrap_err().to_string();
    assert!(why.starts_with("stopped: the log diverged: thread 0 ended after call 0; the log has more of it"), "{why}");
    let run = Run::replay(&ended.log).unwrap();
    assert_eq!(run.play(|io| io.tcp_listen(80))[0], Err(Fault::Stopped(16)));
    assert!(run.strayed().contains("asked listen at port 80; the log has open ok 0"), "{}", run.strayed());
}

#[test]
fn a_log_that_fails_stops_the_run() {
    let full = std::path::Path::new("/dev/full");
    if !full.exists() {
        return;
    }
    let run = Run::record_to(&Settings::of(2), 10, full, true).unwrap();
    for seen in run.play(|io| io.pipe()) {
        assert!(matches!(seen, Err(Fault::Log(_) | Fault::Stopped(5))), "{seen:?}");
    }
    assert!(matches!(run.finish(), Err(Fault::Log(_))));
}

#[test]
fn a_panic_comes_out_and_the_others_go_on() {
    let run = run(2);
    let others = std::sync::atomic::AtomicUsize::new(0);
    let caught = catch_unwind(AssertUnwindSafe(|| {
        run.play(|io| {
            if io.number() == 0 {
                panic!("the cause");
            }
            io.pipe().unwrap();
            others.fetch_add(1, std::sync::atomic::Ordering::SeqCst);
        })
    }));
    assert_eq!(caught.unwrap_err().downcast_ref::<&str>(), Some(&"the cause"));
    assert_eq!(others.into_inner(), 1);
}

#[test]
fn a_stop_ends_each_wait() {
    let run = run(2);
    let seen = run.play(|io| {
        if io.number() == 0 {
            std::thread::sleep(std::time::Duration::from_millis(50));
            run.stop();
            return Ok(0);
        }
        io.work(50)?;
        io.pipe().map(|it| it.0)
    });
    assert_eq!(seen, [Ok(0), Err(Fault::Stopped(5))]);
    assert_eq!(run.finish().unwrap().check().unwrap_err().to_string(), "stopped: no memory");
}

#[test]
fn a_still_run_says_who_waits() {
    let run = run(2);
    run.play(|io| {
        if io.number() == 0 {
            std::thread::sleep(std::time::Duration::from_millis(100));
            assert!(run.still(20).contains("thread 0 is in no call"), "{}", run.still(20));
        } else {
            io.work(50).unwrap();
            io.pipe().unwrap();
        }
    });
    assert_eq!(run.still(0), "");
}

fn deposits(io: &mut Thread) -> Result<u64, Fault> {
    let account = io.open(b"/account", READ_WRITE, CREATE)?;
    let balance = io.pread(account, 20, 0)?.len() as u64;
    io.pwrite(account, &vec![b'x'; balance as usize + 1], 0)?;
    Ok(balance + 1)
}

#[test]
fn seeds_find_what_is_lost_and_replay_it() {
    let played = || detio::explore(Settings::of(2), 10, 1..50, 30, deposits).map(|it| it.unwrap());
    let (lost, seen, ended) = played().find(|it| it.1 == [Ok(1), Ok(1)]).unwrap();
    assert!(played().any(|it| it.1 != seen));
    for _ in 0..5 {
        assert_eq!(Run::replay(&ended.log).unwrap().with_seed(lost, 30).play(deposits), seen);
    }
}

detio::explore_test! {
    /// Each thread has its file.
    each_has_a_file: threads 3, seeds 1..=20,
    |io| io.open(b"/a", READ_WRITE, CREATE),
    |values| assert!(values.iter().all(|it| it.is_ok()))
}

#[test]
fn a_seed_that_fails_leaves_its_log() {
    let folder = folder("seeds");
    // (no other test of this file leaves a log)
    unsafe { std::env::set_var("DETIO_LOGS", &folder) };
    let failed = catch_unwind(|| {
        detio::testing::explore("lost", 2, 1..=50, deposits, |it| assert!(it.contains(&Ok(2)), "a deposit is lost"));
    });
    assert!(failed.is_err());
    let names: Vec<_> = std::fs::read_dir(&folder).unwrap().map(|it| it.unwrap().file_name()).collect();
    assert_eq!(names.len(), 1);
    assert!(names[0].to_str().unwrap().starts_with("lost-seed-"), "{names:?}");
}
