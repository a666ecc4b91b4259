//! A process of a program that `ivyrun` starts: a safe wrapper of `ivy_runtime.h`, `ivy_native.h` and `ivy_sync.h`.
use crate::{Call, Manager, Status};
use std::ffi::{c_char, c_int, c_long, c_void};
use std::mem::{forget, size_of};
use std::ptr::null_mut;
use std::time::Duration;

const DONE: u32 = 0;
const TIMEOUT: u32 = 406;

#[repr(C)]
struct Config {
    nodes: u32,
    pages: u32,
    page_size: u32,
    manager: u32,
}

/// A lock in a word, or one for readers.
#[repr(C)]
#[derive(Clone, Copy)]
struct Word {
    address: u64,
}

#[repr(C)]
#[derive(Clone, Copy)]
struct Tickets {
    next: u64,
    turn: u64,
}

#[repr(C)]
struct Meeting {
    count: u64,
    nodes: u32,
    passed: u64,
}

#[repr(C)]
struct Pieces {
    address: u64,
    barrier: *mut Meeting,
}

/// What a process has done, as `ivy_runtime.h` says.
#[repr(C)]
#[derive(Clone, Copy, Debug, PartialEq, Eq)]
pub struct Counts {
    pub calls: u64,
    pub hits: u64,
    pub misses: u64,
    pub waits: u64,
    pub sent: u64,
    pub again: u64,
    pub heard: u64,
}

unsafe extern "C" {
    fn ivy_init_as(
        argc: *mut c_int,
        argv: *mut *mut *mut c_char,
        config: *const Config,
        process: *mut *mut c_void,
    ) -> u32;
    fn ivy_leave(process: *mut c_void) -> u32;
    fn ivy_me(process: *const c_void) -> u32;
    fn ivy_nodes(process: *const c_void) -> u32;
    fn ivy_use_threads(process: *mut c_void);
    fn ivy_call(
        process: *mut c_void,
        kind: u32,
        width: u32,
        place: u64,
        operand: u64,
        expected: u64,
        value: *mut u64,
    ) -> u32;
    fn ivy_await_for(process: *mut c_void, count: u64, least: u64, wait_us: c_long, value: *mut u64) -> u32;
    fn ivy_get(process: *mut c_void, address: u64, into: *mut c_void, len: usize) -> u32;
    fn ivy_put(process: *mut c_void, address: u64, from: *const c_void, len: usize) -> u32;
    fn ivy_prefetch(process: *mut c_void, address: u64, bytes: u64) -> u32;
    fn ivy_counts_of(process: *mut c_void) -> Counts;
    fn ivy_error(process: *mut c_void) -> u32;
    fn ivy_give_root(process: *mut c_void, root: u32, number: u64) -> u32;
    fn ivy_root_for(process: *mut c_void, root: u32, wait_us: c_long, number: *mut u64) -> u32;
    fn ivy_lock_acquire_for(process: *mut c_void, lock: Word, wait_us: c_long) -> c_int;
    fn ivy_lock_release(process: *mut c_void, lock: Word) -> u32;
    fn ivy_ticket_lock_acquire(process: *mut c_void, lock: Tickets) -> u64;
    fn ivy_ticket_lock_release(process: *mut c_void, lock: Tickets) -> u32;
    fn ivy_readers_lock_read(process: *mut c_void, lock: Word) -> u32;
    fn ivy_readers_lock_leave_read(process: *mut c_void, lock: Word) -> u32;
    fn ivy_readers_lock_write(process: *mut c_void, lock: Word) -> u32;
    fn ivy_readers_lock_leave_write(process: *mut c_void, lock: Word) -> u32;
    fn ivy_barrier_wait(process: *mut c_void, barrier: *mut Meeting) -> u32;
    fn ivy_gather(
        process: *mut c_void,
        pieces: *const Pieces,
        me: u32,
        piece: *const c_void,
        len: usize,
        all: *mut c_void,
    ) -> u32;
}

mod sealed {
    /// A type of which any bytes are a value, and that has no others.
    pub trait Number: Copy + Default {}
}

/// A number in the machine's own form.
pub trait Number: sealed::Number {}

macro_rules! numbers {
    ($($name:ty),*) => { $(impl sealed::Number for $name {} impl Number for $name {})* };
}
numbers!(u8, u16, u32, u64, i8, i16, i32, i64, f32, f64);

/// A process that has joined the others, until it leaves; or one alone, where `ivyrun` did not start it.
pub struct Process {
    pub(crate) at: *mut c_void,
}

// The library's calls of one process wait for each other.
unsafe impl Send for Process {}
unsafe impl Sync for Process {}

/// A time as the library has it: without one it waits without an end.
fn microseconds(time: Option<Duration>) -> c_long {
    time.map_or(-1, |it| c_long::try_from(it.as_micros()).unwrap_or(c_long::MAX / 2))
}

fn done(status: u32) -> Result<(), Status> {
    if status == DONE { Ok(()) } else { Err(Status(status)) }
}

impl Process {
    /// Joins the others, which have the same pages.
    pub fn join(pages: u32, page_size: u32, manager: Manager) -> Result<Process, Status> {
        let config = Config { nodes: 0, pages, page_size, manager: manager as u32 };
        let mut at = null_mut();
        done(unsafe { ivy_init_as(null_mut(), null_mut(), &config, &mut at) })?;
        Ok(Process { at })
    }

    /// Says that several threads make calls: none waits in the memory for what another of them has to do.
    pub fn use_threads(&self) {
        unsafe { ivy_use_threads(self.at) }
    }

    /// The number of this node, from 0 on.
    pub fn me(&self) -> u32 {
        unsafe { ivy_me(self.at) }
    }

    /// How many nodes there are.
    pub fn nodes(&self) -> u32 {
        unsafe { ivy_nodes(self.at) }
    }

    /// A call of the memory: its value.
    pub fn call(&self, call: Call) -> Result<u64, Status> {
        let (kind, width, place, operand, expected) = call.numbers();
        let mut value = 0;
        done(unsafe { ivy_call(self.at, kind, width, place, operand, expected, &mut value) })?;
        Ok(value)
    }

    /// Waits until a count is at least so much: the count, or nothing where the time is over before.
    pub fn wait(&self, count: u64, least: u64, time: Option<Duration>) -> Result<Option<u64>, Status> {
        let mut value = 0;
        match unsafe { ivy_await_for(self.at, count, least, microseconds(time), &mut value) } {
            TIMEOUT => Ok(None),
            status => done(status).map(|()| Some(value)),
        }
    }

    /// Gives all nodes a number under a root, as the address of a block.
    pub fn give_root(&self, root: u32, number: u64) -> Result<(), Status> {
        done(unsafe { ivy_give_root(self.at, root, number) })
    }

    /// The number that a root was given, or nothing where the time is over before.
    pub fn root(&self, root: u32, time: Option<Duration>) -> Result<Option<u64>, Status> {
        let mut number = 0;
        match unsafe { ivy_root_for(self.at, root, microseconds(time), &mut number) } {
            TIMEOUT => Ok(None),
            status => done(status).map(|()| Some(number)),
        }
    }

    /// What the process has done.
    pub fn counts(&self) -> Counts {
        unsafe { ivy_counts_of(self.at) }
    }

    /// Numbers from an address on.
    pub fn get_slice<T: Number>(&self, address: u64, into: &mut [T]) -> Result<(), Status> {
        let bytes = size_of::<T>() * into.len();
        done(unsafe { ivy_get(self.at, address, into.as_mut_ptr().cast(), bytes) })
    }

    /// A hint: so many bytes from an address on will be read soon. Nothing is waited for.
    pub fn prefetch(&self, address: u64, bytes: u64) -> Result<(), Status> {
        done(unsafe { ivy_prefetch(self.at, address, bytes) })
    }

    /// Puts numbers from an address on.
    pub fn put_slice<T: Number>(&self, address: u64, from: &[T]) -> Result<(), Status> {
        let bytes = size_of::<T>() * from.len();
        done(unsafe { ivy_put(self.at, address, from.as_ptr().cast(), bytes) })
    }

    /// The number at an address.
    pub fn get<T: Number>(&self, address: u64) -> Result<T, Status> {
        let mut found = [T::default()];
        self.get_slice(address, &mut found)?;
        Ok(found[0])
    }

    /// Puts a number at an address.
    pub fn put<T: Number>(&self, address: u64, value: T) -> Result<(), Status> {
        self.put_slice(address, &[value])
    }

    /// Takes the lock in a word of 8 bytes, which is 0 where it is free: it is held until the guard goes.
    pub fn lock(&self, address: u64) -> Result<Guard<'_>, Status> {
        while self.call(Call::Swap { width: 8, address, value: 1 })? != 0 {}
        Ok(self.guard(Held::Lock(Word { address })))
    }

    /// The same, or nothing where the time is over before.
    pub fn lock_for(&self, address: u64, time: Duration) -> Result<Option<Guard<'_>>, Status> {
        let word = Word { address };
        if unsafe { ivy_lock_acquire_for(self.at, word, microseconds(Some(time))) } == 1 {
            return Ok(Some(self.guard(Held::Lock(word))));
        }
        done(unsafe { ivy_error(self.at) }).map(|()| None)
    }

    /// Takes the lock whose next ticket is in a word and whose turn is a count.
    pub fn ticket_lock(&self, next: u64, turn: u64) -> Result<Guard<'_>, Status> {
        let tickets = Tickets { next, turn };
        unsafe { ivy_ticket_lock_acquire(self.at, tickets) };
        done(unsafe { ivy_error(self.at) })?;
        Ok(self.guard(Held::Tickets(tickets)))
    }

    /// Enters a lock for readers, with other readers.
    pub fn read(&self, address: u64) -> Result<Guard<'_>, Status> {
        done(unsafe { ivy_readers_lock_read(self.at, Word { address }) })?;
        Ok(self.guard(Held::Read(Word { address })))
    }

    /// Enters a lock for readers, alone.
    pub fn write(&self, address: u64) -> Result<Guard<'_>, Status> {
        done(unsafe { ivy_readers_lock_write(self.at, Word { address }) })?;
        Ok(self.guard(Held::Write(Word { address })))
    }

    fn guard(&self, held: Held) -> Guard<'_> {
        Guard { process: self, held }
    }

    /// A barrier of so many nodes, by a count that is 0 at first.
    pub fn barrier(&self, count: u64, nodes: u32) -> Barrier<'_> {
        Barrier { process: self, meeting: Meeting { count, nodes, passed: 0 } }
    }

    /// Serves the others until all leave.
    pub fn leave(self) -> Result<(), Status> {
        let at = self.at;
        forget(self);
        done(unsafe { ivy_leave(at) })
    }
}

impl Drop for Process {
    /// A process that panics does not wait for others: they find that it is dead.
    fn drop(&mut self) {
        if !std::thread::panicking() {
            unsafe { ivy_leave(self.at) };
        }
    }
}

enum Held {
    Lock(Word),
    Tickets(Tickets),
    Read(Word),
    Write(Word),
}

/// A lock that is held, until this goes.
pub struct Guard<'p> {
    process: &'p Process,
    held: Held,
}

impl Drop for Guard<'_> {
    fn drop(&mut self) {
        let at = self.process.at;
        // After a failure nobody gets a lock any more.
        let _ = match self.held {
            Held::Lock(word) => unsafe { ivy_lock_release(at, word) },
            Held::Tickets(tickets) => unsafe { ivy_ticket_lock_release(at, tickets) },
            Held::Read(word) => unsafe { ivy_readers_lock_leave_read(at, word) },
            Held::Write(word) => unsafe { ivy_readers_lock_leave_write(at, word) },
        };
    }
}

/// So many nodes meet, over and over: each has one of its own for it.
pub struct Barrier<'p> {
    process: &'p Process,
    meeting: Meeting,
}

impl Barrier<'_> {
    /// Waits for the others.
    pub fn wait(&mut self) -> Result<(), Status> {
        done(unsafe { ivy_barrier_wait(self.process.at, &mut self.meeting) })
    }

    /// The numbers of all nodes, in the order of their places, each as many as these: at the address is room for all. Before
    /// they are given again all have to meet once more.
    pub fn gather<T: Number>(&mut self, address: u64, place: u32, own: &[T]) -> Result<Vec<T>, Status> {
        let mut all = vec![T::default(); own.len() * self.meeting.nodes as usize];
        let pieces = Pieces { address, barrier: &mut self.meeting };
        let (at, bytes) = (self.process.at, size_of::<T>() * own.len());
        done(unsafe { ivy_gather(at, &pieces, place, own.as_ptr().cast(), bytes, all.as_mut_ptr().cast()) })?;
        Ok(all)
    }
}
