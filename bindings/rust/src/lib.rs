//! One node of a coherent shared memory, as a value: a safe wrapper of `ivy.h`, which says what whoever drives a node
//! owes. The wrapper is tested and not proved; what it calls is proved.
use std::fmt;

mod mapped;
mod process;

pub use mapped::{Held, Locked, Memory};
pub use process::{Barrier, Counts, Guard, Number, Process};

mod header {
    #[repr(C)]
    pub struct Handle {
        pub at: *mut u8,
    }

    unsafe extern "C" {
        pub fn ivy_version() -> u32;
        pub fn ivy_open_by(node: *mut Handle, nodes: u32, pages: u32, page_size: u32, manager: u32, me: u32) -> u32;
        pub fn ivy_close(node: *mut Handle);
        pub fn ivy_begin(
            node: *mut Handle,
            kind: u32,
            width: u32,
            place: u64,
            operand: u64,
            expected: u64,
            value: *mut u64,
        ) -> u32;
        pub fn ivy_reply(node: *mut Handle, value: *mut u64) -> u32;
        pub fn ivy_load_block(node: *mut Handle, address: u64, into: *mut u8, len: usize, words: *mut usize) -> u32;
        pub fn ivy_store_block(node: *mut Handle, address: u64, from: *const u8, len: usize, words: *mut usize) -> u32;
        pub fn ivy_turns(node: *mut Handle, turns: *mut u64) -> u32;
        pub fn ivy_deliver(node: *mut Handle, bytes: *const u8, len: usize, verdict: *mut u32) -> u32;
        pub fn ivy_next_frame(node: *mut Handle, buffer: *mut u8, room: usize, len: *mut usize, dest: *mut u32) -> u32;
        pub fn ivy_pulse(node: *mut Handle, peer: u8) -> u32;
        pub fn ivy_kept_set(node: *mut Handle, peers: *mut u32) -> u32;
        pub fn ivy_owed_set(node: *mut Handle, peers: *mut u32) -> u32;
    }
}

/// The version of the functions that this wrapper calls.
pub const VERSION: u32 = 1;

const DONE: u32 = 0;
const PENDING: u32 = 300;

/// Why a function did not do what it was asked: the statuses of `ivy.h`.
#[derive(Clone, Copy, Debug, PartialEq, Eq)]
pub struct Status(pub u32);

impl Status {
    /// There was no memory; the node is as it was, and the same call may be made again.
    pub const MEMORY: Status = Status(257);
    /// The library has other functions than this wrapper calls.
    pub const BAD_VERSION: Status = Status(269);

    /// Whether it is a refusal by the shared memory, which ends the call.
    pub fn is_reply(self) -> bool {
        self.0 < 256
    }
}

impl fmt::Display for Status {
    fn fmt(&self, f: &mut fmt::Formatter) -> fmt::Result {
        let text = match self.0 {
            3 => "the address is no multiple of the width",
            4 => "the address is past the heap",
            5 => "the address is in the first page",
            6 => "there is no such eventcount",
            7 => "the eventcount is at its greatest value",
            8 => "a block of no bytes",
            9 => "no room in the heap",
            10 => "no live block begins at the address",
            257 => "no memory",
            258 => "the configuration is out of its limits",
            267..=272 => "no frame of this configuration",
            273 => "message numbers are spent",
            274 => "a call is in progress already",
            301 => "no call is in progress",
            304 => "no such kind, width, node or manager",
            400 => "a peer is dead",
            401 => "others are not here",
            402 => "a peer has another configuration",
            403 => "the others are in a run with another process as this node",
            404 => "the log takes no more",
            405 => "there is no transport",
            407 => "the key cannot be used",
            408 => "another node writes the log",
            _ => return write!(f, "status {}", self.0),
        };
        f.write_str(text)
    }
}

impl std::error::Error for Status {}

/// How nodes find a page's owner.
#[derive(Clone, Copy, Debug, PartialEq, Eq)]
pub enum Manager {
    Fixed = 0,
    Dynamic = 1,
    /// By hints that stay as copies end; what finds a copy awaited is sent on.
    Steady = 2,
}

/// What all nodes have alike.
#[derive(Clone, Copy, Debug, PartialEq, Eq)]
pub struct Config {
    pub nodes: u32,
    pub pages: u32,
    pub page_size: u32,
    pub manager: Manager,
}

/// What a node is asked for.
#[derive(Clone, Copy, Debug, PartialEq, Eq)]
pub enum Call {
    Load { width: u32, address: u64 },
    Store { width: u32, address: u64, value: u64 },
    Swap { width: u32, address: u64, value: u64 },
    CompareAndSwap { width: u32, address: u64, expected: u64, value: u64 },
    FetchAndAdd { width: u32, address: u64, addend: u64 },
    Count { count: u64 },
    Advance { count: u64 },
    Await { count: u64, least: u64 },
    Alloc { bytes: u64 },
    Free { address: u64 },
}

impl Call {
    /// Kind, width, place, operand and expected, as `ivy_begin` takes them.
    fn numbers(self) -> (u32, u32, u64, u64, u64) {
        match self {
            Call::Load { width, address } => (0, width, address, 0, 0),
            Call::Store { width, address, value } => (1, width, address, value, 0),
            Call::Swap { width, address, value } => (2, width, address, value, 0),
            Call::CompareAndSwap { width, address, expected, value } => (3, width, address, value, expected),
            Call::FetchAndAdd { width, address, addend } => (4, width, address, addend, 0),
            Call::Count { count } => (5, 0, count, 0, 0),
            Call::Advance { count } => (6, 0, count, 0, 0),
            Call::Await { count, least } => (7, 0, count, least, 0),
            Call::Alloc { bytes } => (8, 0, 0, bytes, 0),
            Call::Free { address } => (9, 0, address, 0, 0),
        }
    }
}

/// What a string was.
#[derive(Clone, Copy, Debug, PartialEq, Eq)]
pub enum Verdict {
    /// New, and served.
    Next,
    /// Seen before, or an acknowledgement alone.
    Repeat,
    /// Others before it are missing.
    Ahead,
    /// For another node.
    NotMine,
}

/// A node. It is freed when it is dropped.
pub struct Node {
    handle: header::Handle,
    frame_most: usize,
}

// A node has no tie to a thread: it keeps no global state, and the one handle to it moves along.
unsafe impl Send for Node {}

impl Drop for Node {
    fn drop(&mut self) {
        unsafe { header::ivy_close(&mut self.handle) }
    }
}

/// A value where a call is over, nothing where it is in progress, and a status else.
fn progress(status: u32, value: u64) -> Result<Option<u64>, Status> {
    match status {
        DONE => Ok(Some(value)),
        PENDING => Ok(None),
        other => Err(Status(other)),
    }
}

impl Node {
    /// Node `me` of a configuration, which has made no call yet.
    pub fn open(config: Config, me: u32) -> Result<Node, Status> {
        if unsafe { header::ivy_version() } != VERSION {
            return Err(Status::BAD_VERSION);
        }
        let mut handle = header::Handle { at: std::ptr::null_mut() };
        let Config { nodes, pages, page_size, manager } = config;
        match unsafe { header::ivy_open_by(&mut handle, nodes, pages, page_size, manager as u32, me) } {
            DONE => Ok(Node { handle, frame_most: page_size as usize + 41 }),
            other => Err(Status(other)),
        }
    }

    /// Begins a call: its value where it is over at once, nothing where it is in progress. A store and its like give 0.
    pub fn begin(&mut self, call: Call) -> Result<Option<u64>, Status> {
        let (kind, width, place, operand, expected) = call.numbers();
        let mut value = 0;
        let status =
            unsafe { header::ivy_begin(&mut self.handle, kind, width, place, operand, expected, &mut value) };
        progress(status, value)
    }

    /// The value of the call in progress, once.
    pub fn reply(&mut self) -> Result<Option<u64>, Status> {
        let mut value = 0;
        let status = unsafe { header::ivy_reply(&mut self.handle, &mut value) };
        progress(status, value)
    }

    /// Reads words of 8 bytes in a row, from an address on, each with its highest byte first: as many as there is room for,
    /// as lie in the page, and as can be read here at once. It says how many words. Where that is none nothing was done, and
    /// [`Node::begin`] loads the first word, or says what is wrong with it. What stands behind the words is not to be used.
    pub fn read_into(&mut self, address: u64, into: &mut [u8]) -> Result<usize, Status> {
        let mut words = 0;
        match unsafe { header::ivy_load_block(&mut self.handle, address, into.as_mut_ptr(), into.len(), &mut words) } {
            DONE => Ok(words),
            other => Err(Status(other)),
        }
    }

    /// Writes words of 8 bytes in a row, as [`Node::read_into`] reads them.
    pub fn write_from(&mut self, address: u64, from: &[u8]) -> Result<usize, Status> {
        let mut words = 0;
        match unsafe { header::ivy_store_block(&mut self.handle, address, from.as_ptr(), from.len(), &mut words) } {
            DONE => Ok(words),
            other => Err(Status(other)),
        }
    }

    /// How many turns the node has had since it was opened.
    pub fn turns(&mut self) -> Result<u64, Status> {
        let mut turns = 0;
        match unsafe { header::ivy_turns(&mut self.handle, &mut turns) } {
            DONE => Ok(turns),
            other => Err(Status(other)),
        }
    }

    /// A string comes, any bytes at all.
    pub fn deliver(&mut self, bytes: &[u8]) -> Result<Verdict, Status> {
        let mut verdict = 0;
        match unsafe { header::ivy_deliver(&mut self.handle, bytes.as_ptr(), bytes.len(), &mut verdict) } {
            DONE => Ok(match verdict {
                0 => Verdict::Next,
                1 => Verdict::Repeat,
                2 => Verdict::Ahead,
                _ => Verdict::NotMine,
            }),
            other => Err(Status(other)),
        }
    }

    /// The first string that waits, with the node that it is for. It waits no more.
    pub fn next_frame(&mut self) -> Option<(u32, Vec<u8>)> {
        let mut bytes = vec![0; self.frame_most];
        let (mut len, mut dest) = (0, 0);
        let status = unsafe {
            header::ivy_next_frame(&mut self.handle, bytes.as_mut_ptr(), bytes.len(), &mut len, &mut dest)
        };
        if status != DONE {
            return None;
        }
        bytes.truncate(len);
        Some((dest, bytes))
    }

    /// What a peer has not acknowledged waits to be sent again, or an acknowledgement that is owed to it.
    pub fn pulse(&mut self, peer: u8) -> Result<(), Status> {
        match unsafe { header::ivy_pulse(&mut self.handle, peer) } {
            DONE => Ok(()),
            other => Err(Status(other)),
        }
    }

    /// The peers that have not acknowledged some message: bit i is that of peer i.
    pub fn kept_set(&mut self) -> Result<u32, Status> {
        let mut peers = 0;
        match unsafe { header::ivy_kept_set(&mut self.handle, &mut peers) } {
            DONE => Ok(peers),
            other => Err(Status(other)),
        }
    }

    /// The peers to which an acknowledgement is owed: bit i is that of peer i. Only a pulse to one of these, or of
    /// [`Node::kept_set`], makes a string.
    pub fn owed_set(&mut self) -> Result<u32, Status> {
        let mut peers = 0;
        match unsafe { header::ivy_owed_set(&mut self.handle, &mut peers) } {
            DONE => Ok(peers),
            other => Err(Status(other)),
        }
    }
}
