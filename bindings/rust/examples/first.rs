//! The first program: each node adds to one number, and node 0 prints the sum once all have: `ivyrun -n 3 first`.
use ivy::{Call, Manager, Process, Status};

const PAGE: u64 = 1024;
const ALL_DONE: u64 = 0;

fn main() -> Result<(), Status> {
    let ivy = Process::join(256, 1024, Manager::Dynamic)?;
    for _ in 0..100 {
        ivy.call(Call::FetchAndAdd { width: 8, address: PAGE, addend: 1 })?;
    }
    ivy.barrier(ALL_DONE, ivy.nodes()).wait()?;
    if ivy.me() == 0 {
        println!("{} nodes: {}", ivy.nodes(), ivy.call(Call::Load { width: 8, address: PAGE })?);
    }
    ivy.leave()
}
