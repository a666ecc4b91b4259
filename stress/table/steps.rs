//! Steps between worlds, some of which end a round, and how many rounds can end.

/// Steps between worlds, by the number of the world at one of their ends.
pub struct Steps {
    pub begins: Vec<u32>,
    /// The number of the world at the other end; the uppermost bit where the step ends a round.
    pub others: Vec<u32>,
}

pub const ENDS_ROUND: u32 = 1 << 31;

impl Steps {
    fn at(&self, k: usize) -> &[u32] {
        &self.others[self.begins[k] as usize..self.begins[k + 1] as usize]
    }

    /// The same steps by their other ends.
    pub fn turned(&self) -> Steps {
        let many = self.begins.len() - 1;
        let mut begins = vec![0; many + 2];
        for other in &self.others {
            begins[(other & !ENDS_ROUND) as usize + 2] += 1;
        }
        for k in 2..begins.len() {
            begins[k] += begins[k - 1];
        }
        let mut others = vec![0; self.others.len()];
        for k in 0..many {
            for other in self.at(k) {
                let place = &mut begins[(other & !ENDS_ROUND) as usize + 1];
                others[*place as usize] = k as u32 | other & ENDS_ROUND;
                *place += 1;
            }
        }
        begins.pop();
        Steps { begins, others }
    }
}

/// How many rounds can end from each world on while the node waits, or nothing if there is no bound.
pub fn rounds(many: usize, steps: &Steps) -> Option<Vec<u8>> {
    let mut rounds = vec![0; many];
    let mut now: Vec<bool> = vec![true; many];
    loop {
        let next = leading(many, steps, &now);
        if !next.contains(&true) {
            return Some(rounds);
        }
        if next == now {
            return None;
        }
        for k in (0..many).filter(|k| next[*k]) {
            rounds[k] += 1;
        }
        now = next;
    }
}

/// The worlds from which steps lead to one of these by the end of a round, and on.
fn leading(many: usize, steps: &Steps, to: &[bool]) -> Vec<bool> {
    let mut next = vec![false; many];
    let mut found: Vec<u32> = Vec::new();
    let mut look = |k: usize, is_end: bool, found: &mut Vec<u32>| {
        for from in steps.at(k).iter().filter(|from| !is_end || **from & ENDS_ROUND != 0) {
            let from = from & !ENDS_ROUND;
            if !std::mem::replace(&mut next[from as usize], true) {
                found.push(from);
            }
        }
    };
    for k in (0..many).filter(|k| to[*k]) {
        look(k, true, &mut found);
    }
    while let Some(k) = found.pop() {
        look(k as usize, false, &mut found);
    }
    next
}
