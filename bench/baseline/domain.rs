//! Planning domains, the two kinds of domain files, and watching a domain under a log.

/// States, the actions between them with their costs, a start and goals.
pub trait Domain {
    fn width(&self) -> u32;
    fn action_count(&self) -> u8;
    fn goal_count(&self) -> u8;
    fn start(&self) -> u64;
    /// The state after the action, if it can run.
    fn step(&self, state: u64, action: u8) -> Option<u64>;
    fn cost(&self, action: u8) -> u32;
    /// Whether the console always logs the action.
    fn marked(&self, action: u8) -> bool;
    fn meets(&self, state: u64, goal: u8) -> bool;
    /// Whether a plan that ends here may count as whole.
    fn complete(&self, state: u64) -> bool;
}

pub struct Action {
    pub needs: u64,
    pub adds: u64,
    pub deletes: u64,
    pub cost: u16,
    pub marked: bool,
}

pub struct Card {
    pub fluents: u8,
    pub start: u64,
    pub actions: Vec<Action>,
    pub goals: Vec<u64>,
}

impl Domain for Card {
    fn width(&self) -> u32 {
        u32::from(self.fluents)
    }

    fn action_count(&self) -> u8 {
        self.actions.len() as u8
    }

    fn goal_count(&self) -> u8 {
        self.goals.len() as u8
    }

    fn start(&self) -> u64 {
        self.start
    }

    fn step(&self, state: u64, action: u8) -> Option<u64> {
        let action = &self.actions[usize::from(action)];
        (action.needs & !state == 0).then_some(state & !action.deletes | action.adds)
    }

    fn cost(&self, action: u8) -> u32 {
        u32::from(self.actions[usize::from(action)].cost)
    }

    fn marked(&self, action: u8) -> bool {
        self.actions[usize::from(action)].marked
    }

    fn meets(&self, state: u64, goal: u8) -> bool {
        self.goals[usize::from(goal)] & !state == 0
    }

    fn complete(&self, _state: u64) -> bool {
        true
    }
}

pub struct Move {
    pub from: u8,
    pub to: u8,
    pub cost: u16,
    pub marked: bool,
}

pub struct FieldMap {
    pub start: u8,
    pub moves: Vec<Move>,
    pub goals: Vec<u8>,
}

impl Domain for FieldMap {
    fn width(&self) -> u32 {
        6
    }

    fn action_count(&self) -> u8 {
        self.moves.len() as u8
    }

    fn goal_count(&self) -> u8 {
        self.goals.len() as u8
    }

    fn start(&self) -> u64 {
        u64::from(self.start)
    }

    fn step(&self, state: u64, action: u8) -> Option<u64> {
        let step = &self.moves[usize::from(action)];
        (u64::from(step.from) == state).then_some(u64::from(step.to))
    }

    fn cost(&self, action: u8) -> u32 {
        u32::from(self.moves[usize::from(action)].cost)
    }

    fn marked(&self, action: u8) -> bool {
        self.moves[usize::from(action)].marked
    }

    fn meets(&self, state: u64, goal: u8) -> bool {
        u64::from(self.goals[usize::from(goal)]) == state
    }

    fn complete(&self, _state: u64) -> bool {
        true
    }
}

/// A domain under a log: the bits above the width count the entries that were carried.
pub struct Watched<D> {
    pub domain: D,
    pub log: Vec<u8>,
}

impl<D: Domain> Watched<D> {
    fn split(&self, state: u64) -> (u64, usize) {
        let width = self.domain.width();
        (state & ((1 << width) - 1), (state >> width) as usize)
    }
}

impl<D: Domain> Domain for Watched<D> {
    fn width(&self) -> u32 {
        self.domain.width() + 5
    }

    fn action_count(&self) -> u8 {
        self.domain.action_count()
    }

    fn goal_count(&self) -> u8 {
        self.domain.goal_count()
    }

    fn start(&self) -> u64 {
        self.domain.start()
    }

    fn step(&self, state: u64, action: u8) -> Option<u64> {
        let (below, count) = self.split(state);
        let next = self.domain.step(below, action)?;
        if self.domain.marked(action) && !self.log.contains(&action) {
            return None;
        }
        let carried = count + usize::from(self.log.get(count) == Some(&action));
        Some(next | (carried as u64) << self.domain.width())
    }

    fn cost(&self, action: u8) -> u32 {
        self.domain.cost(action)
    }

    fn marked(&self, _action: u8) -> bool {
        false
    }

    fn meets(&self, state: u64, goal: u8) -> bool {
        self.domain.meets(self.split(state).0, goal)
    }

    fn complete(&self, state: u64) -> bool {
        let (below, count) = self.split(state);
        self.domain.complete(below) && count == self.log.len()
    }
}
