//! Threads of a program whose calls are recorded and replayed, over `detio_threads.h`.
//!
//! A [`Run`] plays functions together, at most 16, each in a thread of its own. A function makes its calls by a
//! [`Thread`]: what is open there are descriptors of the run, and not of the system. A replay is the same run where the
//! functions depend on their replies alone.
//!
//! ```no_run
//! let run = detio::Run::record(&detio::Settings::of(2), 10)?;
//! let counts = run.play(|io| {
//!     let file = io.open(b"/a", detio::READ_WRITE, detio::CREATE)?;
//!     io.write(file, b"hello")
//! });
//! let log = run.finish()?.check()?.log;
//! # Ok::<(), Box<dyn std::error::Error>>(())
//! ```
//!
//! However a run is left, it is stopped, its threads are joined, and it is freed.
mod calls;
mod raw;
pub mod testing;

use std::cell::UnsafeCell;
use std::ffi::c_char;
use std::fmt;
use std::fs::{File, OpenOptions};
use std::io::Write;
use std::path::Path;
use std::sync::Mutex;

pub use calls::*;
pub use raw::{Call, Reply, Settings};

/// The most bytes of a read or a write.
pub const LARGEST: usize = 32767;

/// The longest wait for a peer, in milliseconds.
pub const LONGEST_WAIT: u32 = 60_000;

/// Below which the delays of a seed are, unless another reach is given.
pub const REACH: u64 = 30;

const STOPPED: u32 = 5;
const STOP_MEMORY: u32 = 1;
const FAILURE: u32 = 7;

impl Settings {
    /// So many threads, with the usual patience and door cost, and a log with room for 4 MiB.
    pub fn of(threads: usize) -> Settings {
        let size = std::mem::size_of::<Settings>();
        Settings { size, threads, patience: 1000, door_cost: 100, version: 2, room: 1 << 22 }
    }
}

/// Why a call has no reply that serves.
#[derive(Clone, Copy, Debug, PartialEq, Eq)]
pub enum Fault {
    /// The call failed with this error, as `ENOENT`.
    Failed(&'static str),
    /// The run cannot go on for this thread: a code of `detio.h`.
    Stopped(u32),
    /// The file of the log could not be made or written.
    Log(std::io::ErrorKind),
}

impl fmt::Display for Fault {
    fn fmt(&self, out: &mut fmt::Formatter) -> fmt::Result {
        match self {
            Fault::Failed(name) => write!(out, "{name}"),
            Fault::Stopped(code) => write!(out, "the run cannot go on: {} (code {code})", raw::code_name(*code)),
            Fault::Log(kind) => write!(out, "the log could not be written: {kind}"),
        }
    }
}

impl std::error::Error for Fault {}

fn done(code: u32) -> Result<(), Fault> {
    if code == 0 { Ok(()) } else { Err(Fault::Stopped(code)) }
}

/// How a run ended, and its log. Where a log ended or diverged, `thread` is the thread for which it did, and `strayed`
/// says what it asked, and what the log has.
#[derive(Clone, Debug)]
pub struct Ended {
    pub how: u32,
    pub thread: usize,
    pub strayed: String,
    pub log: Vec<u8>,
}

impl Ended {
    /// Refuses each end but that of all threads.
    pub fn check(self) -> Result<Ended, NotEnded> {
        if self.how == 0 { Ok(self) } else { Err(NotEnded(self)) }
    }
}

/// A run that did not end.
#[derive(Clone, Debug)]
pub struct NotEnded(pub Ended);

impl fmt::Display for NotEnded {
    fn fmt(&self, out: &mut fmt::Formatter) -> fmt::Result {
        write!(out, "{}", raw::end_name(self.0.how))?;
        if self.0.strayed.is_empty() { Ok(()) } else { write!(out, ": {}", self.0.strayed) }
    }
}

impl std::error::Error for NotEnded {}

/// The file of a log, and how many bytes of it are there.
struct Keeper {
    file: File,
    kept: usize,
    fault: Option<Fault>,
}

/// A run, or a replay, of threads.
pub struct Run {
    place: Box<[UnsafeCell<u128>]>,
    threads: usize,
    seed: Option<(u64, u64)>,
    keeper: Option<Mutex<Keeper>>,
}

// The driver holds a lock round each of its calls.
unsafe impl Sync for Run {}
unsafe impl Send for Run {}

impl Run {
    /// A run begins. A call waits for its peer for so many milliseconds at a time, 0 to [`LONGEST_WAIT`]: a longer wait
    /// is refused by code 13.
    pub fn record(settings: &Settings, wait: u32) -> Result<Run, Fault> {
        Run::begun(settings.threads, |place| unsafe { raw::detio_run_begin(place, settings, wait) })
    }

    /// The same, with its log in a file: what came from outside is there before a function goes on. A file that is
    /// there is kept, unless `force` is true. Where the log cannot be written, the run is stopped.
    pub fn record_to(settings: &Settings, wait: u32, path: &Path, force: bool) -> Result<Run, Fault> {
        let mut run = Run::record(settings, wait)?;
        let mut how = OpenOptions::new();
        how.write(true).create(force).create_new(!force).truncate(force);
        let file = how.open(path).map_err(|it| Fault::Log(it.kind()))?;
        run.keeper = Some(Mutex::new(Keeper { file, kept: 0, fault: None }));
        Ok(run)
    }

    /// A replay of a log begins, for as many threads as the log has.
    pub fn replay(log: &[u8]) -> Result<Run, Fault> {
        let threads = log.get(6..8).map_or(0, |it| usize::from(it[0]) << 8 | usize::from(it[1]));
        Run::begun(threads, |place| unsafe { raw::detio_run_replay(place, log.as_ptr(), log.len()) })
    }

    /// Each thread works before each call for a time below `reach` that the seed says. A replay of such a run takes the
    /// same seed and reach.
    pub fn with_seed(mut self, seed: u64, reach: u64) -> Run {
        self.seed = Some((seed, reach.max(1)));
        self
    }

    fn begun(threads: usize, begin: impl FnOnce(*mut raw::Place) -> u32) -> Result<Run, Fault> {
        let words = unsafe { raw::detio_run_size() }.div_ceil(16);
        let place: Box<[UnsafeCell<u128>]> = (0..words).map(|_| UnsafeCell::new(0)).collect();
        done(begin(place.as_ptr() as *mut raw::Place))?;
        Ok(Run { place, threads, seed: None, keeper: None })
    }

    fn at(&self) -> *mut raw::Place {
        self.place.as_ptr() as *mut raw::Place
    }

    /// No thread goes on: each call that waits, and each that is made later, is refused by code 5.
    pub fn stop(&self) {
        unsafe { raw::detio_run_stop(self.at(), STOP_MEMORY, 0) }
    }

    /// Plays this function in each thread: what each returned. Where one panics, the others go on, and the panic comes
    /// out here.
    pub fn play<T: Send>(&self, function: impl Fn(&mut Thread) -> T + Sync) -> Vec<T> {
        let function = &function;
        let mut panic = None;
        let values = std::thread::scope(|scope| {
            let mut started = Vec::new();
            for number in 0..self.threads {
                let play = move || {
                    let mut thread = Thread { run: self, number, data: vec![0; LARGEST], made: 0 };
                    function(&mut thread)
                };
                match std::thread::Builder::new().spawn_scoped(scope, play) {
                    Ok(it) => started.push(it),
                    Err(why) => {
                        self.stop();
                        panic!("thread {number} of the run could not start: {why}");
                    }
                }
            }
            let joined: Vec<_> = started.into_iter().map(|it| it.join()).collect();
            joined.into_iter().filter_map(|it| it.map_err(|why| panic.get_or_insert(why)).ok()).collect()
        });
        match panic {
            None => values,
            Some(why) => std::panic::resume_unwind(why),
        }
    }

    /// What the log has so far, from this place on.
    pub fn log(&self, from: usize) -> Result<Vec<u8>, Fault> {
        let (mut length, mut none) = (0, 0);
        done(unsafe { raw::detio_run_log(self.at(), from, &mut none, 0, &mut length) })?;
        let mut bytes = vec![0; length.saturating_sub(from)];
        let room = bytes.len();
        done(unsafe { raw::detio_run_log(self.at(), from, bytes.as_mut_ptr(), room, &mut length) })?;
        Ok(bytes)
    }

    /// Writes what the log has to its file.
    fn keep(&self) -> Result<(), Fault> {
        let Some(keeper) = &self.keeper else { return Ok(()) };
        let mut it = keeper.lock().unwrap_or_else(|it| it.into_inner());
        if let Some(fault) = it.fault {
            return Err(fault);
        }
        let more = self.log(it.kept)?;
        if let Err(why) = it.file.write_all(&more) {
            it.fault = Some(Fault::Log(why.kind()));
            self.stop();
            return Err(Fault::Log(why.kind()));
        }
        it.kept += more.len();
        Ok(())
    }

    fn line(&self, said: impl FnOnce(*mut raw::Place, *mut c_char, usize) -> usize) -> String {
        let mut line = [0_u8; 400];
        let length = said(self.at(), line.as_mut_ptr().cast(), line.len());
        String::from_utf8_lossy(&line[..length]).into_owned()
    }

    /// Who waits for whom, where no thread came for so many milliseconds; else nothing.
    pub fn still(&self, milliseconds: u32) -> String {
        self.line(|place, line, room| unsafe { raw::detio_run_still(place, milliseconds, line, room) })
    }

    /// Where a replay stopped: what the thread asked, and what the log has; else nothing.
    pub fn strayed(&self) -> String {
        self.line(|place, line, room| unsafe { raw::detio_run_strayed(place, line, room) })
    }

    /// The run is over: how it ended, and its log.
    pub fn finish(self) -> Result<Ended, Fault> {
        let mut ended = raw::RunEnd::default();
        done(unsafe { raw::detio_run_finish(self.at(), &mut ended) })?;
        self.keep()?;
        let (strayed, log) = (self.strayed(), self.log(0)?);
        Ok(Ended { how: ended.how, thread: ended.thread, strayed, log })
    }
}

impl Drop for Run {
    fn drop(&mut self) {
        unsafe { raw::detio_run_free(self.at()) }
    }
}

/// Plays a function under the schedule of each seed, one run after another: the seed, what each thread returned, and
/// how the run ended. What the function does at the host it does each time.
pub fn explore<T: Send>(
    settings: Settings, wait: u32, seeds: impl IntoIterator<Item = u64>, reach: u64,
    function: impl Fn(&mut Thread) -> T + Sync,
) -> impl Iterator<Item = Result<(u64, Vec<T>, Ended), Fault>> {
    seeds.into_iter().map(move |seed| {
        let run = Run::record(&settings, wait)?.with_seed(seed, reach);
        let values = run.play(&function);
        Ok((seed, values, run.finish()?))
    })
}

/// What a function makes its calls by. The thread ends with it.
pub struct Thread<'a> {
    run: &'a Run,
    number: usize,
    data: Vec<u8>,
    made: u64,
}

impl Thread<'_> {
    /// From 0.
    pub fn number(&self) -> usize {
        self.number
    }

    /// Works for so many units of the thread's clock, so that others come first meanwhile.
    pub fn work(&mut self, units: u64) -> Result<(), Fault> {
        done(unsafe { raw::detio_thread_work(self.run.at(), self.number, units) })
    }

    /// For how many units the thread works before its next call, by the seed.
    fn delay(&mut self) -> Option<u64> {
        let (seed, reach) = self.run.seed?;
        self.made += 1;
        let mut drawn = seed ^ (self.number as u64) << 56 ^ self.made.wrapping_mul(0x9e37_79b9_7f4a_7c15);
        drawn = (drawn ^ drawn >> 30).wrapping_mul(0xbf58_476d_1ce4_e5b9);
        drawn = (drawn ^ drawn >> 27).wrapping_mul(0x94d0_49bb_1331_11eb);
        Some((drawn ^ drawn >> 31) % reach)
    }

    /// Any call, by its words (`detio.h`); of a read the bytes are in `bytes`.
    pub fn call(&mut self, call: Call, text: &[u8], second: &[u8]) -> Result<Reply, Fault> {
        let mut reply = Reply::default();
        if let Some(units) = self.delay() {
            self.work(units)?;
        }
        let code = unsafe {
            raw::detio_thread_call(
                self.run.at(), self.number, &call, text.as_ptr(), text.len(), second.as_ptr(), second.len(), &mut reply,
                self.data.as_mut_ptr(), self.data.len(),
            )
        };
        let kept = self.run.keep();
        if code != STOPPED || kept.is_ok() {
            done(code)?;
        }
        kept?;
        if reply.kind == FAILURE {
            return Err(Fault::Failed(raw::error_name(reply.error)));
        }
        Ok(reply)
    }

    /// The bytes of the last read.
    pub fn bytes(&self, reply: &Reply) -> &[u8] {
        &self.data[..reply.count as usize]
    }
}

impl Drop for Thread<'_> {
    fn drop(&mut self) {
        unsafe { raw::detio_thread_end(self.run.at(), self.number) };
    }
}
