//! Mapped memory: slices at one address, the same in all processes. A safe wrapper of `ivy_map.h`.
use crate::{Number, Process, Status};
use std::ffi::c_void;
use std::ops::{Deref, DerefMut};
use std::sync::atomic::{AtomicU64, Ordering};

const DONE: u32 = 0;

unsafe extern "C" {
    fn ivy_map(process: *mut c_void) -> u32;
    fn ivy_map_malloc_pages(process: *mut c_void, bytes: usize) -> *mut c_void;
    fn ivy_map_free(process: *mut c_void, block: *mut c_void);
    fn ivy_map_root(process: *mut c_void) -> *mut *mut c_void;
    fn ivy_map_barrier(process: *mut c_void);
    fn ivy_map_lock_acquire(process: *mut c_void, lock: u32);
    fn ivy_map_lock_release(process: *mut c_void, lock: u32);
    fn ivy_error(process: *mut c_void) -> u32;
}

/// The memory of a process that is mapped. An access that finds no page waits for it.
pub struct Memory<'p> {
    process: &'p Process,
}

impl Process {
    /// Maps the memory, whose pages have 4,096 bytes, before anything is allocated.
    pub fn map(&self) -> Result<Memory<'_>, Status> {
        match unsafe { ivy_map(self.at) } {
            DONE => Ok(Memory { process: self }),
            status => Err(Status(status)),
        }
    }
}

impl Memory<'_> {
    /// The address of so many bytes in whole pages, which no allocation shares.
    pub fn pages(&self, bytes: usize) -> Option<u64> {
        let block = unsafe { ivy_map_malloc_pages(self.process.at, bytes) };
        (!block.is_null()).then_some(block as u64)
    }

    /// Gives such pages back.
    ///
    /// # Safety
    /// `pages` gave the address, and no process uses a slice of it any more.
    pub unsafe fn free(&self, address: u64) {
        unsafe { ivy_map_free(self.process.at, address as *mut c_void) }
    }

    /// A word that all processes find, 0 at first.
    pub fn root(&self) -> &AtomicU64 {
        unsafe { &*ivy_map_root(self.process.at).cast() }
    }

    /// The same pages for all processes, which all ask for: node 0 gets them.
    pub fn shared(&self, bytes: usize) -> Result<u64, Status> {
        if self.process.me() == 0 {
            self.root().store(self.pages(bytes).unwrap_or(0), Ordering::SeqCst);
        }
        self.barrier()?;
        let found = self.root().load(Ordering::SeqCst);
        self.barrier()?;
        if found == 0 { Err(Status(9)) } else { Ok(found) }
    }

    /// Numbers that all may change at any time.
    ///
    /// # Safety
    /// So many of them lie from the address on in pages that are allocated, and who else uses these bytes uses them so.
    pub unsafe fn atomics(&self, address: u64, many: usize) -> &[AtomicU64] {
        unsafe { std::slice::from_raw_parts(address as *const AtomicU64, many) }
    }

    /// Numbers that belong to a lock.
    ///
    /// # Safety
    /// So many of them lie from the address on in pages that are allocated, and all processes use these bytes under this
    /// lock alone.
    pub unsafe fn locked<T: Number>(&self, lock: u32, address: u64, many: usize) -> Locked<'_, T> {
        Locked { process: self.process, lock, at: address as *mut T, many }
    }

    /// Nobody goes on before all processes are here.
    pub fn barrier(&self) -> Result<(), Status> {
        unsafe { ivy_map_barrier(self.process.at) };
        error_of(self.process)
    }
}

fn error_of(process: &Process) -> Result<(), Status> {
    match unsafe { ivy_error(process.at) } {
        DONE => Ok(()),
        status => Err(Status(status)),
    }
}

/// Numbers that belong to a lock.
pub struct Locked<'p, T> {
    process: &'p Process,
    lock: u32,
    at: *mut T,
    many: usize,
}

impl<T: Number> Locked<'_, T> {
    /// Takes the lock, which is held until the guard goes. One process has it at a time.
    pub fn lock(&mut self) -> Result<Held<'_, T>, Status> {
        unsafe { ivy_map_lock_acquire(self.process.at, self.lock) };
        error_of(self.process)?;
        let numbers = unsafe { std::slice::from_raw_parts_mut(self.at, self.many) };
        Ok(Held { process: self.process, lock: self.lock, numbers })
    }
}

/// A lock that is held, with its numbers.
pub struct Held<'l, T> {
    process: &'l Process,
    lock: u32,
    numbers: &'l mut [T],
}

impl<T> Deref for Held<'_, T> {
    type Target = [T];
    fn deref(&self) -> &[T] {
        self.numbers
    }
}

impl<T> DerefMut for Held<'_, T> {
    fn deref_mut(&mut self) -> &mut [T] {
        self.numbers
    }
}

impl<T> Drop for Held<'_, T> {
    fn drop(&mut self) {
        unsafe { ivy_map_lock_release(self.process.at, self.lock) }
    }
}
