//! A bank that loses a deposit, and one that keeps each: docs/cargo-test.md shows how a seed finds the difference.
use detio::{CREATE, EXCLUSIVE, Fault, READ_ONLY, READ_WRITE, Thread};

/// Adds one to the account, and returns the new balance.
pub fn deposit(io: &mut Thread) -> Result<u64, Fault> {
    let account = io.open(b"/account", READ_WRITE, CREATE)?;
    let digits = io.pread(account, 20, 0)?;
    let balance = std::str::from_utf8(digits).unwrap_or("").parse().unwrap_or(0) + 1;
    io.pwrite(account, format!("{balance}").as_bytes(), 0)?;
    Ok(balance)
}

/// Makes the file `/lock`, once nobody else has it.
fn lock(io: &mut Thread) -> Result<(), Fault> {
    loop {
        match io.open(b"/lock", READ_ONLY, CREATE | EXCLUSIVE) {
            Err(Fault::Failed("EEXIST")) => io.work(10)?,
            opened => return opened.and_then(|it| io.close(it)),
        }
    }
}

/// Deposits while no other thread does.
pub fn locked_deposit(io: &mut Thread) -> Result<u64, Fault> {
    lock(io)?;
    let balance = deposit(io)?;
    io.unlink(b"/lock")?;
    Ok(balance)
}
