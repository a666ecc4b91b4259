//! Each process adds to numbers in mapped memory, by atomic additions and under a lock: `ivyrun -n 3 mapped`.
use ivy::{Manager, Memory, Process, Status};
use std::sync::atomic::Ordering;

const MANY: usize = 100;
const TIMES: u32 = 25;

fn run(ivy: &Process, memory: &Memory) -> Result<(), Status> {
    let counts_at = memory.shared(8 * MANY)?;
    let sums_at = memory.shared(8 * MANY)?;
    // the pages are those that were shared just now, and no other slices are made of them
    let counts = unsafe { memory.atomics(counts_at, MANY) };
    let mut sums = unsafe { memory.locked::<f64>(5, sums_at, MANY) };
    for _ in 0..TIMES {
        counts.iter().for_each(|it| {
            it.fetch_add(1, Ordering::SeqCst);
        });
        sums.lock()?.iter_mut().for_each(|it| *it += 0.5);
    }
    memory.barrier()?;
    let all = u64::from(ivy.nodes() * TIMES);
    assert!(counts.iter().all(|it| it.load(Ordering::SeqCst) == all));
    assert!(sums.lock()?.iter().all(|it| *it == all as f64 / 2.0));
    memory.barrier()
}

fn main() -> Result<(), Status> {
    let ivy = Process::join(64, 4096, Manager::Dynamic)?;
    run(&ivy, &ivy.map()?)?;
    if ivy.me() == 0 {
        println!("mapped: {} processes", ivy.nodes());
    }
    ivy.leave()
}
