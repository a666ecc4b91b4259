//! Nodes in threads: each adds to one counter under a lock, then a token goes round by eventcounts, then each writes a row
//! of words and reads those of all. Of the strings a tenth is lost, a tenth comes twice and a fifth comes late.
//! Usage: threads [fixed]
use ivy::{Call, Config, Manager, Node, Status};
use std::sync::atomic::{AtomicUsize, Ordering::SeqCst};
use std::sync::mpsc::{sync_channel, Receiver, SyncSender};
use std::sync::Arc;
use std::thread;
use std::time::{Duration, Instant};

const NODES: u32 = 4;
const PAGE: u64 = 256;
const EACH: u64 = 50;
const LOCK: u64 = PAGE;
const COUNTER: u64 = PAGE + 8;
const TOKEN: u64 = 2 * PAGE;

/// A row of each node, over the ends of pages.
const ROWS: u64 = 2 * PAGE + 8;
const ROW: usize = 120;

const WAIT: Duration = Duration::from_millis(1);

/// What a channel has no room for is lost.
const ROOM: usize = 256;

/// So often a node pulses, whatever comes: else who always hears something never asks again for what was lost.
const BETWEEN_PULSES: Duration = Duration::from_millis(2);

/// Drawn numbers, so that a run can be repeated.
struct Dice(u64);

impl Dice {
    fn below(&mut self, n: u64) -> u64 {
        self.0 ^= self.0 << 13;
        self.0 ^= self.0 >> 7;
        self.0 ^= self.0 << 17;
        (self.0 >> 33) % n
    }
}

struct Process {
    node: Node,
    me: u32,
    peers: Vec<SyncSender<Vec<u8>>>,
    inbox: Receiver<Vec<u8>>,
    late: Option<(u32, Vec<u8>)>,
    pulsed: Instant,
    calls: u32,
    dice: Dice,
}

impl Process {
    /// Sends what waits, as a bad wire does.
    fn send_frames(&mut self) {
        while let Some((to, bytes)) = self.node.next_frame() {
            if self.dice.below(10) == 0 {
                continue;
            }
            if self.late.is_none() && self.dice.below(5) == 0 {
                self.late = Some((to, bytes));
                continue;
            }
            let _ = self.peers[to as usize].try_send(bytes.clone());
            if self.dice.below(10) == 0 {
                let _ = self.peers[to as usize].try_send(bytes);
            }
            if let Some((to, bytes)) = self.late.take() {
                let _ = self.peers[to as usize].try_send(bytes);
            }
        }
    }

    /// Hears what comes within this time, and pulses where it is due.
    fn serve(&mut self, wait: Duration) -> Result<(), Status> {
        if let Ok(bytes) = self.inbox.recv_timeout(wait) {
            self.node.deliver(&bytes)?;
        }
        if self.pulsed.elapsed() >= BETWEEN_PULSES {
            for peer in (0..NODES).filter(|&peer| peer != self.me) {
                self.node.pulse(peer as u8)?;
            }
            self.pulsed = Instant::now();
        }
        self.send_frames();
        Ok(())
    }

    /// Makes a call. Every so often it hears something too: else who spins on a word of its own never serves the others.
    fn call(&mut self, call: Call) -> Result<u64, Status> {
        self.calls += 1;
        if self.calls % 64 == 0 {
            self.serve(Duration::ZERO)?;
        }
        let mut answer = self.node.begin(call)?;
        self.send_frames();
        while answer.is_none() {
            self.serve(WAIT)?;
            answer = self.node.reply()?;
            self.send_frames();
        }
        Ok(answer.unwrap_or(0))
    }

    fn count_under_a_lock(&mut self) -> Result<(), Status> {
        for _ in 0..EACH {
            while self.call(Call::Swap { width: 8, address: LOCK, value: 1 })? == 1 {}
            let value = self.call(Call::Load { width: 8, address: COUNTER })? + 1;
            self.call(Call::Store { width: 8, address: COUNTER, value })?;
            self.call(Call::Store { width: 8, address: LOCK, value: 0 })?;
        }
        Ok(())
    }

    fn pass_the_token(&mut self) -> Result<(), Status> {
        let (me, next) = (u64::from(self.me), u64::from((self.me + 1) % NODES));
        for round in 1..=EACH {
            let least = if me == 0 { round - 1 } else { round };
            self.call(Call::Await { count: 1 + me, least })?;
            self.call(Call::FetchAndAdd { width: 8, address: TOKEN, addend: me })?;
            self.call(Call::Advance { count: 1 + next })?;
        }
        Ok(())
    }

    /// Writes or reads a row, in blocks where its page is here and by a word where it is not.
    fn write_row(&mut self, address: u64, row: &[u8]) -> Result<(), Status> {
        let mut done = 0;
        while done < row.len() {
            let at = address + done as u64;
            let words = self.node.write_from(at, &row[done..])?;
            if words == 0 {
                let word = row[done..done + 8].try_into().expect("a word has 8 bytes");
                self.call(Call::Store { width: 8, address: at, value: u64::from_be_bytes(word) })?;
            }
            done += 8 * words.max(1);
        }
        Ok(())
    }

    fn read_row(&mut self, address: u64, row: &mut [u8]) -> Result<(), Status> {
        let mut done = 0;
        while done < row.len() {
            let at = address + done as u64;
            let words = self.node.read_into(at, &mut row[done..])?;
            if words == 0 {
                let value = self.call(Call::Load { width: 8, address: at })?;
                row[done..done + 8].copy_from_slice(&value.to_be_bytes());
            }
            done += 8 * words.max(1);
        }
        Ok(())
    }

    /// Each writes a row, and once all have, each reads all rows.
    fn share_rows(&mut self) -> Result<(), Status> {
        self.write_row(ROWS + ROW as u64 * u64::from(self.me), &[self.me as u8 + 1; ROW])?;
        self.call(Call::Advance { count: 5 })?;
        self.call(Call::Await { count: 5, least: u64::from(NODES) })?;
        let mut all = [0; ROW * NODES as usize];
        self.read_row(ROWS, &mut all)?;
        let right = all.chunks(ROW).zip(1..).all(|(row, number)| row.iter().all(|&byte| byte == number));
        assert!(right, "node {} reads other rows", self.me);
        Ok(())
    }

    /// The counter and the token, once all have added to them.
    fn run(&mut self) -> Result<(u64, u64), Status> {
        self.count_under_a_lock()?;
        self.pass_the_token()?;
        self.share_rows()?;
        self.call(Call::Advance { count: 0 })?;
        self.call(Call::Await { count: 0, least: u64::from(NODES) })?;
        let counter = self.call(Call::Load { width: 8, address: COUNTER })?;
        let token = self.call(Call::Load { width: 8, address: TOKEN })?;
        Ok((counter, token))
    }
}

/// Runs a process, and serves the others until all are done.
fn run_one(mut process: Process, done: &AtomicUsize) -> Result<(u64, u64), Status> {
    let seen = process.run();
    done.fetch_add(1, SeqCst);
    while done.load(SeqCst) < NODES as usize {
        process.serve(WAIT)?;
    }
    seen
}

fn main() -> Result<(), Status> {
    let manager = match std::env::args().nth(1).as_deref() {
        Some("fixed") => Manager::Fixed,
        Some("steady") => Manager::Steady,
        _ => Manager::Dynamic,
    };
    let config = Config { nodes: NODES, pages: 4, page_size: PAGE as u32, manager };
    let (peers, inboxes): (Vec<_>, Vec<_>) = (0..NODES).map(|_| sync_channel(ROOM)).unzip();
    let done = Arc::new(AtomicUsize::new(0));
    let mut threads = Vec::new();
    for (me, inbox) in (0..NODES).zip(inboxes) {
        let node = Node::open(config, me)?;
        let dice = Dice(88172645463325252 + u64::from(me));
        let process = Process { node, me, peers: peers.clone(), inbox, late: None, pulsed: Instant::now(), calls: 0, dice };
        let done = done.clone();
        threads.push(thread::spawn(move || run_one(process, &done)));
    }
    let should = (EACH * u64::from(NODES), EACH * u64::from(NODES * (NODES - 1) / 2));
    for thread in threads {
        let seen = thread.join().expect("a thread ends")?;
        assert_eq!(seen, should);
    }
    println!("threads: {} and {}", should.0, should.1);
    Ok(())
}
