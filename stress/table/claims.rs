//! What has to hold of each world, and who is behind a request.
use crate::world::{bit, has, Kind, Packet, State, World, NOBODY};

/// What is wrong in a world, if anything is.
pub fn fault_of(world: &World) -> Option<&'static str> {
    let packets = world.packets();
    let owners = world.nodes().iter().filter(|node| node.owner).count();
    let given = packets.iter().filter(|p| p.kind == Kind::WriteRep).count();
    let many = world.many as usize;
    let put_off = |me: u8| packets.iter().filter(|p| p.is_put_off() && p.at == me).count();
    if world.breach {
        return Some("a message fits no rule");
    }
    if owners + given != 1 {
        return Some("not one owner");
    }
    if (0..world.many).any(|me| put_off(me) >= many) {
        return Some("N put off at one node");
    }
    let writer = world.nodes().iter().any(|node| node.access == 2);
    let readers = world.nodes().iter().filter(|node| node.access > 0).count();
    let copies = packets.iter().filter(|p| p.kind == Kind::ReadRep).count();
    (writer && readers + copies > 1).then_some("a writer, and a copy elsewhere")
}

/// Whether a node waits and nothing is under way.
pub fn stands_still(world: &World) -> bool {
    world.nodes().iter().any(|node| node.waits()) && world.packets().iter().all(|p| p.is_put_off())
}

/// Whether a request comes after another one where that is.
pub fn is_after(world: &World, packet: &Packet, request: &Packet) -> bool {
    let place = |p: &Packet| world.packets().iter().position(|q| q == p);
    let comes_to_it = request.is_put_off() && !packet.is_put_off() && packet.at == request.at;
    let is_same_pair = (packet.from, packet.at) == (request.from, request.at);
    packet != request && comes_to_it || is_same_pair && place(packet) > place(request)
}

/// Whether those whose requests to write are put off at a node behind are behind too.
pub fn is_closed(world: &World) -> bool {
    let behind = |me: u8| has(world.followed.behind, me);
    let mut writes = world.packets().iter().filter(|p| p.kind == Kind::WriteReq && p.is_put_off());
    writes.all(|p| behind(p.origin) || !behind(p.at))
}

/// Which of the three claims of the nodes behind the request that is followed fails, if one does.
pub fn failing(world: &World) -> Option<&'static str> {
    let followed = &world.followed;
    let request = world.request_of(followed.asker)?;
    if followed.twice {
        return Some("sent on twice");
    }
    let behind = |me: u8| has(followed.behind, me);
    let is_free = |me: u8| has(followed.before, me);
    for me in (0..world.many).filter(|me| behind(*me)) {
        let node = &world.nodes[me as usize];
        let is_there = node.hop == request.at && (request.is_put_off() || request.from == me);
        let speaks = matches!(node.state, State::Idle | State::AwaitRead);
        if speaks && !node.owner && !behind(node.hop) && !is_there {
            return Some("K1");
        }
        if node.owner && me != followed.asker {
            return Some("K3 owner");
        }
    }
    if behind(request.at) {
        return Some("K3 request");
    }
    for packet in world.packets() {
        let answers = matches!(packet.kind, Kind::ReadRep | Kind::WriteRep);
        if answers && behind(packet.at) && !is_free(packet.at) {
            return Some("K3 answer");
        }
        let asks = packet.kind.is_request() && packet.origin != followed.asker;
        if asks && behind(packet.origin) && !is_free(packet.origin) && !behind(packet.at) {
            if !is_after(world, packet, request) {
                return Some("K2");
            }
        }
    }
    None
}

/// The world with the request of this node followed, where it has just asked.
pub fn following(world: &World, asker: u8) -> Option<World> {
    world.request_of(asker)?;
    let mut world = *world;
    world.followed.asker = asker;
    world.followed.behind = bit(asker);
    Some(world)
}

/// Whether the request that is followed was served.
pub fn is_over(world: &World) -> bool {
    world.followed.asker != NOBODY && world.request_of(world.followed.asker).is_none()
}

/// A world in a few lines.
pub fn text_of(world: &World) -> String {
    let names = |nodes| (0..world.many).filter(|i| has(nodes, *i)).collect::<Vec<u8>>();
    let mut text = String::new();
    for (me, node) in world.nodes().iter().enumerate() {
        let owner = if node.owner { ", owner" } else { "" };
        let sent_on = if node.sent_on { ", sent on" } else { "" };
        let (state, access, hop) = (node.state, node.access, node.hop);
        let copies = names(node.copies);
        text += &format!("{me}: {state:?}, access {access}, hop {hop}, copies {copies:?}{owner}{sent_on}\n");
    }
    for Packet { from, at, kind, origin, copies, .. } in world.packets() {
        text += &format!("{from} -> {at}: {kind:?} of {origin} {:?}\n", names(*copies));
    }
    let followed = &world.followed;
    let sets = [followed.behind, followed.sent, followed.before].map(names);
    text + &format!("of {}: behind, sent on, before {sets:?}\n", followed.asker)
}
