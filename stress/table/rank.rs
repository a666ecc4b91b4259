//! A rank of a world and a request, which no move raises and each round lowers until the request is served.
use crate::claims::is_after;
use crate::world::{bit, has, Kind, Nodes, Packet, State, World, MOST_NODES};

/// The request that is followed; where it is put off, that of the node there; and so on.
pub fn chain(world: &World, request: &Packet) -> Vec<Packet> {
    let mut chain = vec![*request];
    let is_loose = |p: &Packet| world.is_loose && world.packets().last() == Some(p);
    while let Some(last) = chain.last().filter(|last| last.is_put_off() && !is_loose(last)) {
        match world.request_of(last.at) {
            Some(next) => chain.push(*next),
            None => break,
        }
    }
    chain
}

/// Whether what this node sends along its hop comes after one of the chain, or to a node of the set.
fn leads(world: &World, chain: &[Packet], late: Nodes, me: u8) -> bool {
    let hop = world.nodes[me as usize].hop;
    has(late, hop) || chain.iter().any(|p| p.at == hop && (p.is_put_off() || p.from == me))
}

/// Whether this node's request comes after one of the chain, or is at a node of the set.
fn asks(world: &World, chain: &[Packet], late: Nodes, me: u8) -> bool {
    let comes_late = |p: &Packet| has(late, p.at) || chain.iter().any(|q| is_after(world, p, q));
    world.request_of(me).is_some_and(comes_late)
}

/// The nodes of which nothing comes before the request any more, by where their hops and their own requests are alone.
pub fn late(world: &World) -> Nodes {
    let asker = world.followed.asker;
    let request = world.request_of(asker).expect("a request is followed");
    let chain = chain(world, request);
    let mut late = bit(asker);
    for _ in 0..world.many {
        for me in 0..world.many {
            let node = &world.nodes[me as usize];
            let leads = || leads(world, &chain, late, me);
            let asks = || asks(world, &chain, late, me);
            let is_late = match node.state {
                State::Idle => !node.owner && leads(),
                State::AwaitRead => leads() && (node.sent_on || asks()),
                State::AwaitWrite => asks(),
                State::AwaitAcks => false,
            };
            if is_late {
                late |= bit(me);
            }
        }
    }
    late
}

/// What the rank is made of.
pub struct Study {
    pub late: Nodes,
    /// What each node adds to the rank: nothing if it is late, else 4; but 3 where one of the chain is put off and the page is
    /// awaited, 2 where copies are to be given up there, and 1 where all acknowledgements are under way, and where what was put
    /// off is served.
    pub weights: [u8; MOST_NODES],
    pub rank: u8,
    /// One of the chain is at a late node, or a late node owns the page.
    pub is_wrong: bool,
}

pub fn study(world: &World) -> Study {
    let asker = world.followed.asker;
    let request = world.request_of(asker).expect("a request is followed");
    let (chain, late) = (chain(world, request), late(world));
    let ordered = world.packets().iter().any(|p| p.kind == Kind::Inval);
    let weight = |me: u8| match world.nodes[me as usize].state {
        _ if has(late, me) => 0,
        State::AwaitRead => 4,
        _ if !chain.iter().any(|p| p.is_put_off() && p.at == me) => 4,
        State::AwaitWrite => 3,
        State::AwaitAcks => 1 + ordered as u8,
        State::Idle => 1,
    };
    let mut weights = [0; MOST_NODES];
    (0..world.many).for_each(|me| weights[me as usize] = weight(me));
    let owns = |me: u8| has(late, me) && me != asker && world.nodes[me as usize].owner;
    let is_wrong = chain.iter().any(|p| has(late, p.at)) || (0..world.many).any(owns);
    Study { late, weights, rank: weights.iter().sum(), is_wrong }
}

/// Whether the hop of each node that asked for a copy leads as those of late nodes do: it sends others' requests after its own.
pub fn is_ordered(world: &World) -> bool {
    (0..world.many).filter(|me| world.nodes[*me as usize].state == State::AwaitRead).all(|me| {
        let Some(request) = world.request_of(me) else { return true };
        let mut world = *world;
        world.followed.asker = me;
        leads(&world, &chain(&world, request), late(&world), me)
    })
}

/// What one row breaks, if anything, where these nodes sent the request on in it: a node is late no more, one's weight rises, or
/// a late node sends the request on.
pub fn broken(before: &Study, after: &Study, sent: Nodes) -> Option<&'static str> {
    if before.late & !after.late != 0 {
        return Some("late no more");
    }
    if before.weights.iter().zip(&after.weights).any(|(before, after)| before < after) {
        return Some("rank rises");
    }
    if sent & before.late != 0 {
        return Some("sent on by a late node");
    }
    after.is_wrong.then_some("at a late node")
}
