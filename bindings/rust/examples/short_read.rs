//! A short read that a program does not expect: a writer sends six bytes through a pipe in two parts, and the reader
//! takes what its first read gives for the whole. The run is recorded, its replay gives the same, and other delays of
//! the reader show how often it goes well.
//!
//!     cargo run --offline --example short_read
use detio::{Fault, Run, Settings, Thread};

fn part(io: &mut Thread, delay: u64) -> Result<Vec<u8>, Fault> {
    if io.number() == 0 {
        let (_reads, writes) = io.pipe()?;
        io.write(writes, b"tea ")?;
        io.work(200)?;
        io.write(writes, b"ok")?;
        return Ok(Vec::new());
    }
    io.work(delay)?;
    // The reader should go on until it has six bytes.
    Ok(io.read(0, 6)?.to_vec())
}

fn main() -> Result<(), Fault> {
    let run = Run::record(&Settings::of(2), 10)?;
    let seen = run.play(|io| part(io, 50));
    let ended = run.finish()?;
    println!("recorded: {:?}, ended {}", String::from_utf8_lossy(seen[1].as_ref().unwrap()), ended.how);
    let replayed = Run::replay(&ended.log)?;
    let again = replayed.play(|io| part(io, 50));
    println!("replayed: {:?}", String::from_utf8_lossy(again[1].as_ref().unwrap()));
    assert!(seen == again);
    let mut whole = 0;
    for delay in (20..=400).step_by(20) {
        let seen = Run::record(&Settings::of(2), 10)?.play(|io| part(io, delay));
        whole += usize::from(seen[1].as_ref().is_ok_and(|it| it == b"tea ok"));
    }
    println!("explored: with {whole} of 20 delays it is whole");
    Ok(())
}
