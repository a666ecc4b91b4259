//! Each process puts a row of numbers, and all get the sums; threads of each add under locks: `ivyrun -n 3 sums`.
use ivy::{Call, Manager, Process, Status};
use std::thread::scope;
use std::time::Duration;

const PAGE: u64 = 1024;
const MANY: usize = 40;
const LOCK: u64 = PAGE;
const SUM: u64 = PAGE + 8;
const THREADS: u32 = 3;
const EACH: u32 = 20;
const READERS: u64 = PAGE + 16;
const NEXT: u64 = PAGE + 24;
const MET: u64 = 0;
const TURN: u64 = 1;
const PIECES: u64 = 12 * PAGE;
const SHORT: Duration = Duration::from_millis(5);

fn add(ivy: &Process) -> Result<(), Status> {
    for _ in 0..EACH {
        let _held = ivy.lock(LOCK)?;
        ivy.put(SUM, ivy.get::<f64>(SUM)? + 0.5)?;
    }
    for _ in 0..EACH {
        let _turn = ivy.ticket_lock(NEXT, TURN)?;
        ivy.put(SUM + 64, ivy.get::<u64>(SUM + 64)? + 1)?;
    }
    for _ in 0..EACH {
        let _inside = ivy.write(READERS)?;
        ivy.put(SUM + 72, ivy.get::<u64>(SUM + 72)? + 1)?;
    }
    Ok(())
}

/// Node 0 gives an address, which all find; and no lock is held twice.
fn hand_on(ivy: &Process) -> Result<(), Status> {
    if ivy.me() == 0 {
        ivy.give_root(2, 3 * PAGE)?;
        let _held = ivy.lock(LOCK + 128)?;
        assert!(ivy.lock_for(LOCK + 128, SHORT)?.is_none());
    }
    assert_eq!(ivy.root(2, None)?, Some(3 * PAGE));
    assert_eq!(ivy.root(3, Some(SHORT))?, None);
    Ok(())
}

fn run(ivy: &Process) -> Result<(), Status> {
    let row_of = |node: u32| 2 * PAGE + 8 * MANY as u64 * u64::from(node);
    ivy.use_threads();
    ivy.put_slice(row_of(ivy.me()), &[f64::from(ivy.me()) + 0.5; MANY])?;
    scope(|threads| {
        let all: Vec<_> = (0..THREADS).map(|_| threads.spawn(|| add(ivy))).collect();
        all.into_iter().try_for_each(|it| it.join().expect("a thread ends"))
    })?;
    let mut met = ivy.barrier(MET, ivy.nodes());
    hand_on(ivy)?;
    met.wait()?;
    ivy.prefetch(row_of(0), 8 * MANY as u64 * u64::from(ivy.nodes()))?;
    assert_eq!(ivy.prefetch(15 * PAGE, PAGE + 1), Err(Status(4)));
    let mut sums = [0.0; MANY];
    for node in 0..ivy.nodes() {
        let mut row = [0.0; MANY];
        ivy.get_slice(row_of(node), &mut row)?;
        sums.iter_mut().zip(row).for_each(|(sum, it)| *sum += it);
    }
    assert_eq!(sums, [f64::from(ivy.nodes() * ivy.nodes()) / 2.0; MANY]);
    assert_eq!(ivy.get::<f64>(SUM)?, f64::from(ivy.nodes() * THREADS * EACH) / 2.0);
    {
        let _inside = ivy.read(READERS)?;
        assert_eq!(ivy.get::<u64>(SUM + 64)?, u64::from(ivy.nodes() * THREADS * EACH));
        assert_eq!(ivy.get::<u64>(SUM + 72)?, u64::from(ivy.nodes() * THREADS * EACH));
    }
    let pieces = met.gather(PIECES, ivy.me(), &[ivy.me() as i16, -1])?;
    assert_eq!(pieces, (0..ivy.nodes()).flat_map(|it| [it as i16, -1]).collect::<Vec<_>>());
    assert_eq!(ivy.wait(5, 1, Some(SHORT))?, None);
    assert_eq!(ivy.call(Call::Load { width: 8, address: PAGE + 1 }), Err(Status(3)));
    let counts = ivy.counts();
    assert_eq!(counts.hits + counts.misses + counts.waits, counts.calls);
    met.wait()
}

fn main() -> Result<(), Status> {
    let ivy = Process::join(16, 1024, Manager::Dynamic)?;
    run(&ivy)?;
    if ivy.me() == 0 {
        println!("sums: {} processes", ivy.nodes());
    }
    ivy.leave()
}
