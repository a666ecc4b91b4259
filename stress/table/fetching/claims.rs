//! What has to hold of each world of pages, calls and fetches.
use super::world::{Call, Entry, Letter, Move, Setup, World, NOBODY};
use crate::world::{bit, has, Kind, Nodes, Rules, State};

/// What is wrong in a world, if anything is.
pub fn fault_of(setup: &Setup, world: &World) -> Option<&'static str> {
    let pages = 0..world.pages;
    world.fault.or_else(|| calls(setup, world)).or_else(|| pages.filter_map(|page| of_page(setup, world, page)).next())
}

/// What is wrong with a page, if anything is.
fn of_page(setup: &Setup, world: &World, page: u8) -> Option<&'static str> {
    entries(world, page)
        .or_else(|| exclusive(world, page))
        .or_else(|| letters(world, page))
        .or_else(|| alone(world, page))
        .or_else(|| counted(world, page))
        .or_else(|| put_off(world, page))
        .or_else(|| exists(world, page))
        .or_else(|| (!is_lower(world, page)).then_some("requests, copies and hints lead round"))
        .or_else(|| (setup.rules == Rules::Fixed).then(|| managed(world, page)).flatten())
}

/// A word waits at the entry of the call's page alone, and a call without a lock has a turn or waits for a fetch.
fn calls(setup: &Setup, world: &World) -> Option<&'static str> {
    for node in world.nodes() {
        let entries = &node.entries[..world.pages as usize];
        let words = entries.iter().filter(|entry| entry.word).count();
        let is_lock = node.call.is_some_and(|call| fits(setup, &entries[call.page as usize], call));
        if words > 1 || words == 1 && !is_lock {
            return Some("a word that is not the call's");
        }
        if node.fetched() > setup.most_fetched as usize {
            return Some("more than K fetched");
        }
    }
    None
}

/// The word of the call waits at this entry, of its kind.
fn fits(setup: &Setup, entry: &Entry, call: Call) -> bool {
    let writes = matches!(entry.state, State::AwaitWrite | State::AwaitAcks);
    entry.word && entry.is_locked() && (call.write == writes || writes && setup.reads_join_writes)
}

/// The facts of each state of an entry.
fn entries(world: &World, page: u8) -> Option<&'static str> {
    for me in 0..world.many {
        let Entry { state, access, owner, copies, word, current, hop, .. } = *world.entry(me, page);
        let is_sound = match state {
            State::Idle if owner => (access == 2) == (copies == 0) && access > 0 && !has(copies, me),
            State::Idle => access < 2 && copies == 0,
            State::AwaitRead => access == 0 && !owner && copies == 0,
            State::AwaitWrite => access < 2 && !owner && copies == 0,
            State::AwaitAcks => access == 1 && owner && copies != 0 && !has(copies, me),
        };
        if !is_sound || word && state == State::Idle {
            return Some("an entry that is in no state");
        }
        if current != (access > 0) {
            return Some("bytes that are not the flat memory's");
        }
        if hop == me && !owner {
            return Some("a hop to itself");
        }
    }
    None
}

/// One owner, and no copy beside who may write.
fn exclusive(world: &World, page: u8) -> Option<&'static str> {
    let all = || (0..world.many).map(|me| world.entry(me, page));
    let owners = all().filter(|entry| entry.owner).count();
    let given = world.letters_of(page).filter(|letter| letter.kind == Kind::WriteRep).count();
    let writer = all().any(|entry| entry.access == 2);
    let readers = all().filter(|entry| entry.access > 0).count();
    let copies = world.letters_of(page).filter(|letter| letter.brings_page()).count();
    if owners + given != 1 {
        return Some("not one owner");
    }
    (writer && readers + copies > 1).then_some("a writer, and a copy elsewhere")
}

/// Each message is one that its origin waits for, by the state and the number of its entry.
fn letters(world: &World, page: u8) -> Option<&'static str> {
    for letter in world.letters_of(page) {
        let entry = world.entry(letter.origin, page);
        let Letter { from, at, origin, .. } = *letter;
        let fits = match letter.kind {
            Kind::ReadReq => entry.state == State::AwaitRead && at != origin,
            Kind::WriteReq => entry.state == State::AwaitWrite && at != origin,
            Kind::ReadRep => entry.state == State::AwaitRead && at == origin,
            Kind::WriteRep => {
                let is_other = !has(letter.copies, origin) && letter.copies >> world.many == 0;
                entry.state == State::AwaitWrite && at == origin && is_other
            }
            Kind::Inval => {
                let is_sent = from == origin || from == at;
                entry.state == State::AwaitAcks && is_sent && has(entry.copies, at)
            }
            Kind::InvalAck => entry.state == State::AwaitAcks && at == origin && has(entry.copies, from),
        };
        if !fits || letter.number != entry.number {
            return Some("a message that its origin does not wait for");
        }
        if letter.brings_page() && !letter.current {
            return Some("bytes under way that are not the flat memory's");
        }
    }
    None
}

/// Who answers for this message beside its origin: one of these is under way or put off at most.
fn key_of(letter: &Letter) -> (u8, u8) {
    match letter.kind {
        Kind::Inval => (letter.origin, letter.at),
        Kind::InvalAck => (letter.origin, letter.from),
        _ => (letter.origin, NOBODY),
    }
}

/// No two messages of one origin, and no two orders of one to the same node.
fn alone(world: &World, page: u8) -> Option<&'static str> {
    for (k, letter) in world.letters().iter().enumerate().filter(|(_, letter)| letter.page == page) {
        let mut before = world.letters()[..k].iter().filter(|other| other.page == page);
        if before.any(|other| key_of(other) == key_of(letter)) {
            return Some("two messages of one kind");
        }
    }
    None
}

/// Those that the owner counts are those that have a copy, get one, or gave it up.
fn counted(world: &World, page: u8) -> Option<&'static str> {
    let owner = (0..world.many).find(|me| world.entry(*me, page).owner);
    let given = world.letters_of(page).find(|letter| letter.kind == Kind::WriteRep);
    let (of, set) = match (owner, given) {
        (Some(me), _) => (me, world.entry(me, page).copies),
        (None, given) => given.map_or((NOBODY, 0), |letter| (letter.origin, letter.copies)),
    };
    for me in (0..world.many).filter(|me| *me != of) {
        let gets = world.letters_of(page).any(|letter| letter.kind == Kind::ReadRep && letter.at == me);
        let gave = world.letters_of(page).any(|letter| letter.kind == Kind::InvalAck && letter.from == me);
        let has_copy = world.entry(me, page).access > 0 || gets;
        if has_copy && gave || has(set, me) != (has_copy || gave) {
            return Some("a copy that the owner does not count, or one that is not there");
        }
    }
    None
}

/// Less than N are put off at an entry, and an order only where a copy is awaited.
fn put_off(world: &World, page: u8) -> Option<&'static str> {
    for me in 0..world.many {
        let entry = world.entry(me, page);
        let here = || world.letters_of(page).filter(|letter| letter.is_put_off() && letter.at == me);
        if here().count() >= world.many as usize {
            return Some("N put off at one entry");
        }
        if here().any(|letter| letter.kind == Kind::Inval) && entry.state != State::AwaitRead {
            return Some("an order put off where no copy is awaited");
        }
        if here().next().is_some() && !entry.is_locked() {
            return Some("put off at an idle entry");
        }
    }
    None
}

/// Whoever waits has its message, and it is under way or put off; something of the page is under way.
fn exists(world: &World, page: u8) -> Option<&'static str> {
    let under_way = world.letters_of(page).any(|letter| !letter.is_put_off());
    for me in 0..world.many {
        let entry = world.entry(me, page);
        let kinds = || world.letters_of(page).filter(|letter| letter.origin == me).map(|letter| letter.kind);
        let has_message = match entry.state {
            State::Idle => true,
            State::AwaitRead => kinds().any(|kind| matches!(kind, Kind::ReadReq | Kind::ReadRep)),
            State::AwaitWrite => kinds().any(|kind| matches!(kind, Kind::WriteReq | Kind::WriteRep)),
            State::AwaitAcks => told(world, page, me) == entry.copies,
        };
        if !has_message {
            return Some("a node waits and has no message");
        }
        if entry.is_locked() && !under_way {
            return Some("a page is waited for, and nothing of it is under way");
        }
    }
    None
}

/// Who has an order of this node, or answered it.
fn told(world: &World, page: u8, me: u8) -> Nodes {
    let of_me = world.letters_of(page).filter(|letter| letter.origin == me);
    let told = of_me.map(|letter| match letter.kind {
        Kind::Inval => bit(letter.at),
        Kind::InvalAck => bit(letter.from),
        _ => 0,
    });
    told.fold(0, |all, one| all | one)
}

/// Whether requests, copies under way and hints lead to lower nodes, by some heights.
fn is_lower(world: &World, page: u8) -> bool {
    let mut lower = [0u8; 8];
    for letter in world.letters_of(page) {
        match letter.kind {
            Kind::ReadReq | Kind::WriteReq => lower[letter.origin as usize] |= bit(letter.at),
            Kind::ReadRep => lower[letter.at as usize] |= bit(letter.from),
            Kind::WriteRep | Kind::Inval | Kind::InvalAck => {}
        }
    }
    for me in 0..world.many {
        let entry = world.entry(me, page);
        if !entry.owner && entry.state != State::AwaitWrite {
            lower[me as usize] |= bit(entry.hop);
        }
    }
    let mut left: u8 = (1 << world.many) - 1;
    for _ in 0..world.many {
        left = (0..world.many).filter(|me| has(left, *me) && lower[*me as usize] & left != 0).map(bit).sum();
    }
    left == 0
}

/// The claims of the fixed manager: who is asked for a page gets or has it.
fn managed(world: &World, page: u8) -> Option<&'static str> {
    let managing = world.managing[page as usize];
    let claims = |me: u8| world.entry(me, page).owner || world.entry(me, page).state == State::AwaitWrite;
    let keeps = !claims(managing);
    let kept = world.entry(managing, page).hop;
    let writes = || world.letters_of(page).filter(|letter| letter.kind == Kind::WriteReq);
    let asked = |me: u8| writes().filter(|letter| letter.at == me).count();
    let is_away = |me: u8| me == managing || claims(me) && asked(me) <= 1;
    if writes().any(|letter| !is_away(letter.at)) {
        return Some("a request to write at one who does not get the page");
    }
    if keeps && (kept == managing || !claims(kept) || asked(kept) > 0) {
        return Some("the owner kept gets no page");
    }
    let mut late = writes().filter(|letter| letter.at == managing);
    if late.any(|letter| asked(letter.origin) > 0 || keeps && kept == letter.origin) {
        return Some("a request at the managing node, and one at its origin");
    }
    let reads = world.letters_of(page).filter(|letter| letter.kind == Kind::ReadReq);
    let mut own = reads.filter(|letter| letter.origin == managing);
    own.any(|letter| letter.at != kept).then_some("a copy asked for at another one than the owner kept")
}

/// A world in a few lines.
pub fn text_of(world: &World) -> String {
    let names = |nodes| (0..world.many).filter(|i| has(nodes, *i)).collect::<Vec<u8>>();
    let mut text = String::new();
    for (me, node) in world.nodes().iter().enumerate() {
        text += &format!("  node {me}: call {:?}, records {}\n", node.call, node.records);
        for (page, entry) in node.entries[..world.pages as usize].iter().enumerate() {
            let owner = if entry.owner { ", owner" } else { "" };
            let word = if entry.is_fetch() { ", fetched" } else if entry.word { ", word" } else { "" };
            let (state, access, hop, number) = (entry.state, entry.access, entry.hop, entry.number);
            let copies = names(entry.copies);
            text += &format!(
                "    page {page}: {state:?}, access {access}, hop {hop}, copies {copies:?}, number {number}{owner}{word}\n"
            );
        }
    }
    for letter in world.letters() {
        text += &format!("  {}\n", letter_text(letter));
    }
    text
}

fn letter_text(letter: &Letter) -> String {
    let Letter { from, at, kind, origin, page, copies, number, .. } = letter;
    format!("{from} -> {at}: {kind:?} of {origin} for page {page}, copies {copies:b}, number {number}")
}

pub fn move_text(step: &Move) -> String {
    let to = |write: &bool| if *write { "write" } else { "read" };
    match step {
        Move::Begins { node, page, write } => format!("node {node} begins to {} page {page}", to(write)),
        Move::Tries { node } => format!("node {node} tries its call again"),
        Move::Fetches { node, page, write } => format!("node {node} fetches page {page} to {}", to(write)),
        Move::Comes(letter) => format!("comes {}", letter_text(letter)),
    }
}
