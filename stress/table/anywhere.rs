//! All worlds that keep what is proved of every world, whether or not moves lead to them: whoever waits has its message,
//! who has a copy is counted by whoever owns the page, and requests, copies and hints lead down.
use crate::world::{bit, has, Kind, Node, Packet, Rules, State, World, NOBODY};

/// A node whose hop is not chosen yet.
const BLANK: Node = Node {
    state: State::Idle,
    access: 0,
    owner: false,
    copies: 0,
    hop: NOBODY,
    sent_on: false,
};

/// Goes through them; node 0 owns the page, or gets it.
pub fn each_world(rules: Rules, many: u8, each: &mut dyn FnMut(&World)) {
    let mut first = World::first(rules, many);
    for node in &mut first.nodes {
        *node = BLANK;
    }
    let sets = (0..1 << many).filter(|set| !has(*set, 0));
    for copies in sets {
        let owner = Node { access: 1, owner: true, copies, ..BLANK };
        let all = Node { access: 2, ..owner };
        let collects = Node { state: State::AwaitAcks, ..owner };
        let owners: &[Node] = if copies == 0 { &[all] } else { &[owner, collects] };
        for owner in owners {
            let mut world = first;
            world.nodes[0] = *owner;
            nodes(rules, &world, 1, each);
        }
        for from in 1..many {
            for access in [0, 1] {
                let mut world = first;
                world.nodes[0] = Node { state: State::AwaitWrite, access, ..BLANK };
                let reply = Packet { from, kind: Kind::WriteRep, copies, ..Packet::default() };
                insert(&world, reply, &mut |world| nodes(rules, world, 1, each));
            }
        }
    }
}

/// Who has a copy, or may, by the one that owns the page.
fn counted(world: &World) -> u8 {
    let given = world.packets().iter().find(|p| p.kind == Kind::WriteRep);
    given.map_or(world.nodes[0].copies, |p| p.copies)
}

/// The world with one packet more, at each place among those of its pair.
fn insert(world: &World, packet: Packet, each: &mut dyn FnMut(&World)) {
    let pair = (packet.from, packet.at);
    let len = world.len as usize;
    for k in 0..=len {
        if k == len || (world.packets[k].from, world.packets[k].at) == pair {
            let mut more = *world;
            more.packets.copy_within(k..len, k + 1);
            more.packets[k] = packet;
            more.len += 1;
            each(&more);
        }
    }
}

/// The entries of the nodes from this one on.
fn nodes(rules: Rules, world: &World, me: u8, each: &mut dyn FnMut(&World)) {
    if me == world.many {
        letters(rules, world, 0, each);
        return;
    }
    let most = has(counted(world), me) as u8;
    for state in [State::Idle, State::AwaitRead, State::AwaitWrite] {
        let reads = state == State::AwaitRead;
        for access in 0..=if reads { 0 } else { most } {
            for sent_on in [false, true] {
                if !sent_on || reads && rules == Rules::SentOn {
                    let mut world = *world;
                    world.nodes[me as usize] = Node { state, access, sent_on, ..BLANK };
                    nodes(rules, &world, me + 1, each);
                }
            }
        }
    }
}

/// What the nodes from this one on wait for.
fn letters(rules: Rules, world: &World, me: u8, each: &mut dyn FnMut(&World)) {
    if me == world.many {
        hops(world, 0, each);
        return;
    }
    let node = &world.nodes[me as usize];
    let comes = world.packets().iter().any(|p| p.kind == Kind::WriteRep && p.at == me);
    let mut then = |world: &World| letters(rules, world, me + 1, each);
    match node.state {
        State::AwaitRead => {
            requests(rules, world, Kind::ReadReq, me, &mut then);
            for from in (0..world.many).filter(|from| *from != me && has(counted(world), me)) {
                let kind = Kind::ReadRep;
                insert(world, Packet { from, at: me, kind, origin: me, ..Packet::default() }, &mut then);
            }
        }
        State::AwaitWrite if !comes => requests(rules, world, Kind::WriteReq, me, &mut then),
        State::AwaitAcks => orders(world, 1, &mut then),
        State::Idle | State::AwaitWrite => then(world),
    }
}

fn requests(rules: Rules, world: &World, kind: Kind, me: u8, each: &mut dyn FnMut(&World)) {
    for at in (0..world.many).filter(|at| *at != me) {
        for from in 0..world.many {
            let state = world.nodes[at as usize].state;
            let sends = state == State::AwaitRead && rules == Rules::SentOn;
            if from == at && (state == State::Idle || sends) {
                continue;
            }
            let request = Packet { from, at, kind, origin: me, ..Packet::default() };
            insert(world, request, &mut |world| {
                if is_lower(world) {
                    each(world);
                }
            });
        }
    }
}

/// The order of node 0 to each node from this one on that has not given its copy up, or its answer.
fn orders(world: &World, me: u8, each: &mut dyn FnMut(&World)) {
    if me == world.many {
        each(world);
        return;
    }
    if !has(world.nodes[0].copies, me) {
        return orders(world, me + 1, each);
    }
    let node = &world.nodes[me as usize];
    let order = Packet { from: 0, at: me, kind: Kind::Inval, ..Packet::default() };
    let mut then = |world: &World| orders(world, me + 1, each);
    insert(world, order, &mut then);
    if node.state == State::AwaitRead {
        insert(world, Packet { from: me, ..order }, &mut then);
    }
    let comes = world.packets().iter().any(|p| p.kind == Kind::ReadRep && p.at == me);
    if node.access == 0 && !comes {
        insert(world, Packet { from: me, at: 0, kind: Kind::InvalAck, ..order }, &mut then);
    }
}

/// The hops of the nodes from this one on.
fn hops(world: &World, me: u8, each: &mut dyn FnMut(&World)) {
    if me == world.many {
        each(world);
        return;
    }
    for hop in 0..world.many {
        let mut world = *world;
        world.nodes[me as usize].hop = hop;
        if (hop == me) == world.nodes[me as usize].owner && is_lower(&world) && is_covered(&world) {
            hops(&world, me + 1, each);
        }
    }
}

/// Whoever is counted has a copy, gets one, or gave it up, and who gets one did not.
fn is_covered(world: &World) -> bool {
    let gets = |me: u8| world.packets().iter().any(|p| p.kind == Kind::ReadRep && p.at == me);
    let gave = |me: u8| world.packets().iter().any(|p| p.kind == Kind::InvalAck && p.from == me);
    let has_copy = |me: u8| world.nodes[me as usize].access > 0 || gets(me);
    (0..world.many).filter(|me| has(counted(world), *me)).all(|me| has_copy(me) != gave(me))
}

/// Whether requests, copies under way and hints lead to lower nodes, by some heights.
pub fn is_lower(world: &World) -> bool {
    let mut lower = [0u8; 8];
    for p in world.packets() {
        match p.kind {
            Kind::ReadReq | Kind::WriteReq => lower[p.origin as usize] |= bit(p.at),
            Kind::ReadRep => lower[p.at as usize] |= bit(p.from),
            Kind::WriteRep | Kind::Inval | Kind::InvalAck => {}
        }
    }
    for (me, node) in world.nodes().iter().enumerate() {
        let claims = node.owner || node.state == State::AwaitWrite;
        if !claims && node.hop != NOBODY {
            lower[me] |= bit(node.hop);
        }
    }
    let mut left: u8 = (1 << world.many) - 1;
    for _ in 0..world.many {
        left = (0..world.many).filter(|me| has(left, *me) && lower[*me as usize] & left != 0).map(bit).sum();
    }
    left == 0
}
