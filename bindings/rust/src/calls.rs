//! The words of calls, and each call by its name. `tools/header` compares the words with `detio.h`.
use crate::{Call, Fault, Reply, Thread};

pub const READ_ONLY: u32 = 0;
pub const WRITE_ONLY: u32 = 1;
pub const READ_WRITE: u32 = 2;

pub const CREATE: u32 = 1;
pub const EXCLUSIVE: u32 = 2;
pub const TRUNCATE: u32 = 4;
pub const APPEND: u32 = 8;
pub const NONBLOCK: u32 = 16;

pub const SET: u32 = 0;
pub const CURRENT: u32 = 1;
pub const END: u32 = 2;

pub const SHUT_READ: u32 = 0;
pub const SHUT_WRITE: u32 = 1;
pub const SHUT_BOTH: u32 = 2;

/// The kinds of [`Call`].
pub mod kind {
    pub const OPEN: u32 = 1;
    pub const CLOSE: u32 = 2;
    pub const READ: u32 = 3;
    pub const WRITE: u32 = 4;
    pub const PREAD: u32 = 5;
    pub const PWRITE: u32 = 6;
    pub const LSEEK: u32 = 7;
    pub const FTRUNCATE: u32 = 8;
    pub const FSTAT: u32 = 9;
    pub const DUP: u32 = 10;
    pub const DUP_FROM: u32 = 11;
    pub const DUP2: u32 = 12;
    pub const GETFL: u32 = 13;
    pub const SETFL: u32 = 14;
    pub const LINK: u32 = 15;
    pub const UNLINK: u32 = 16;
    pub const RENAME: u32 = 17;
    pub const MKDIR: u32 = 18;
    pub const RMDIR: u32 = 19;
    pub const PIPE: u32 = 20;
    pub const SOCKETPAIR: u32 = 21;
    pub const SHUTDOWN: u32 = 22;
    pub const HOST_OPEN: u32 = 23;
    pub const TCP_LISTEN: u32 = 24;
    pub const TCP_CONNECT: u32 = 25;
    pub const TCP_ACCEPT: u32 = 26;
}

/// What `fstat` says: the kind of the object, 1 to 6 (a file, a pipe, a pair, a host file, a listener, a stream), its
/// length or its port, and how many names it has.
#[derive(Clone, Copy, Debug, PartialEq, Eq)]
pub struct Stat {
    pub kind: i64,
    pub length: u64,
    pub links: u64,
}

/// A call of this kind for a descriptor.
fn of(kind: u32, descriptor: i64) -> Call {
    Call { kind, descriptor, ..Call::default() }
}

/// A call of this kind with a number and no descriptor.
fn at(kind: u32, number: i64) -> Call {
    Call { kind, number, ..Call::default() }
}

/// The calls, by their names. Descriptors are numbers of the run.
impl Thread<'_> {
    fn plain(&mut self, call: Call) -> Result<(), Fault> {
        self.call(call, &[], &[]).map(|_| ())
    }

    fn first(&mut self, call: Call) -> Result<i64, Fault> {
        Ok(self.call(call, &[], &[])?.first)
    }

    fn both(&mut self, kind: u32) -> Result<(i64, i64), Fault> {
        let Reply { first, second, .. } = self.call(of(kind, 0), &[], &[])?;
        Ok((first, second))
    }

    fn data(&mut self, call: Call) -> Result<&[u8], Fault> {
        let reply = self.call(call, &[], &[])?;
        Ok(self.bytes(&reply))
    }

    fn paths(&mut self, kind: u32, first: &[u8], second: &[u8]) -> Result<(), Fault> {
        self.call(of(kind, 0), first, second).map(|_| ())
    }

    pub fn open(&mut self, path: &[u8], access: u32, flags: u32) -> Result<i64, Fault> {
        Ok(self.call(Call { choice: access, flags, ..of(kind::OPEN, 0) }, path, &[])?.first)
    }

    pub fn host_open(&mut self, path: &[u8], access: u32, flags: u32) -> Result<i64, Fault> {
        Ok(self.call(Call { choice: access, flags, ..of(kind::HOST_OPEN, 0) }, path, &[])?.first)
    }

    pub fn close(&mut self, descriptor: i64) -> Result<(), Fault> {
        self.plain(of(kind::CLOSE, descriptor))
    }

    pub fn read(&mut self, descriptor: i64, count: usize) -> Result<&[u8], Fault> {
        self.data(Call { number: number(count), ..of(kind::READ, descriptor) })
    }

    pub fn write(&mut self, descriptor: i64, bytes: &[u8]) -> Result<u64, Fault> {
        Ok(self.call(of(kind::WRITE, descriptor), bytes, &[])?.count)
    }

    pub fn pread(&mut self, descriptor: i64, count: usize, position: i64) -> Result<&[u8], Fault> {
        self.data(Call { number: number(count), position, ..of(kind::PREAD, descriptor) })
    }

    pub fn pwrite(&mut self, descriptor: i64, bytes: &[u8], position: i64) -> Result<u64, Fault> {
        Ok(self.call(Call { position, ..of(kind::PWRITE, descriptor) }, bytes, &[])?.count)
    }

    pub fn lseek(&mut self, descriptor: i64, offset: i64, whence: u32) -> Result<i64, Fault> {
        self.first(Call { number: offset, choice: whence, ..of(kind::LSEEK, descriptor) })
    }

    pub fn ftruncate(&mut self, descriptor: i64, size: i64) -> Result<(), Fault> {
        self.plain(Call { number: size, ..of(kind::FTRUNCATE, descriptor) })
    }

    pub fn fstat(&mut self, descriptor: i64) -> Result<Stat, Fault> {
        let reply = self.call(of(kind::FSTAT, descriptor), &[], &[])?;
        Ok(Stat { kind: reply.first, length: reply.count, links: reply.links })
    }

    pub fn dup(&mut self, descriptor: i64) -> Result<i64, Fault> {
        self.first(of(kind::DUP, descriptor))
    }

    pub fn dup_from(&mut self, descriptor: i64, least: i64) -> Result<i64, Fault> {
        self.first(Call { number: least, ..of(kind::DUP_FROM, descriptor) })
    }

    pub fn dup2(&mut self, descriptor: i64, target: i64) -> Result<i64, Fault> {
        self.first(Call { number: target, ..of(kind::DUP2, descriptor) })
    }

    pub fn getfl(&mut self, descriptor: i64) -> Result<i64, Fault> {
        self.first(of(kind::GETFL, descriptor))
    }

    pub fn setfl(&mut self, descriptor: i64, flags: u32) -> Result<(), Fault> {
        self.plain(Call { flags, ..of(kind::SETFL, descriptor) })
    }

    pub fn link(&mut self, old: &[u8], new: &[u8]) -> Result<(), Fault> {
        self.paths(kind::LINK, old, new)
    }

    pub fn unlink(&mut self, path: &[u8]) -> Result<(), Fault> {
        self.paths(kind::UNLINK, path, &[])
    }

    pub fn rename(&mut self, old: &[u8], new: &[u8]) -> Result<(), Fault> {
        self.paths(kind::RENAME, old, new)
    }

    pub fn mkdir(&mut self, path: &[u8]) -> Result<(), Fault> {
        self.paths(kind::MKDIR, path, &[])
    }

    pub fn rmdir(&mut self, path: &[u8]) -> Result<(), Fault> {
        self.paths(kind::RMDIR, path, &[])
    }

    pub fn pipe(&mut self) -> Result<(i64, i64), Fault> {
        self.both(kind::PIPE)
    }

    pub fn socketpair(&mut self) -> Result<(i64, i64), Fault> {
        self.both(kind::SOCKETPAIR)
    }

    pub fn shutdown(&mut self, descriptor: i64, how: u32) -> Result<(), Fault> {
        self.plain(Call { choice: how, ..of(kind::SHUTDOWN, descriptor) })
    }

    pub fn tcp_listen(&mut self, port: u16) -> Result<i64, Fault> {
        self.first(at(kind::TCP_LISTEN, port.into()))
    }

    pub fn tcp_connect(&mut self, port: u16) -> Result<i64, Fault> {
        self.first(at(kind::TCP_CONNECT, port.into()))
    }

    pub fn tcp_accept(&mut self, listener: i64) -> Result<i64, Fault> {
        self.first(of(kind::TCP_ACCEPT, listener))
    }
}

/// A count as the run has it: one that is too great stays so.
fn number(count: usize) -> i64 {
    i64::try_from(count).unwrap_or(i64::MAX)
}
