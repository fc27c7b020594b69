//! A partial placement, and the rules of one task more.

use crate::table::{PROCESSORS, Table, members};

#[derive(Clone, Copy)]
pub struct State {
    /// The tasks on each processor.
    pub on: [u32; PROCESSORS],
    /// The open tasks that each processor may still take. With step A no task that it cannot take is among them.
    pub may: [u32; PROCESSORS],
    /// The tasks that stand nowhere yet.
    pub open: u32,
    /// What is left of memory and of load.
    pub memory: [u64; PROCESSORS],
    pub load: [u64; PROCESSORS],
    /// What the placed tasks send over the network.
    pub traffic: u64,
}

impl Table {
    pub fn nothing_placed(&self) -> State {
        State {
            on: [0; PROCESSORS],
            may: [0; PROCESSORS],
            open: self.all_tasks(),
            memory: self.memory_room,
            load: self.load_room,
            traffic: 0,
        }
    }

    /// What this task on this processor would send to, and be sent from, tasks on other processors.
    fn traffic_with(&self, state: &State, task: usize, processor: usize) -> u64 {
        let elsewhere = !(state.open | state.on[processor]);
        let mut traffic = 0;
        for message in &self.messages {
            let sends = message.sender == task && elsewhere >> message.receiver & 1 == 1;
            let receives = message.receiver == task && elsewhere >> message.sender & 1 == 1;
            if sends || receives {
                traffic += message.amount;
            }
        }
        traffic
    }

    /// Whether the rules allow an open task on a processor.
    pub fn allows(&self, state: &State, task: usize, processor: usize) -> bool {
        self.residence[task] >> processor & 1 == 1
            && self.memory[task] <= state.memory[processor]
            && self.load[task] <= state.load[processor]
            && self.excluded[task] & state.on[processor] == 0
            && self.partners[task] & !state.open & !state.on[processor] == 0
            && (self.messages.is_empty()
                || state.traffic + self.traffic_with(state, task, processor) <= self.capacity)
    }

    /// The state with one task more. What each processor may take is left as it is.
    pub fn placed(&self, state: &State, task: usize, processor: usize) -> State {
        let mut next = *state;
        if !self.messages.is_empty() {
            next.traffic += self.traffic_with(state, task, processor);
        }
        next.on[processor] |= 1 << task;
        next.open &= !(1 << task);
        next.memory[processor] -= self.memory[task];
        next.load[processor] -= self.load[task];
        next
    }

    /// Whether an earlier processor can stand in for this one, so that a refutation there holds here too.
    pub fn has_twin(&self, state: &State, processor: usize) -> bool {
        state.on[processor] == 0 && (0..processor).any(|other| self.are_twins(state, processor, other))
    }

    /// Both are empty, and every set of open tasks fits the one just if it fits the other.
    fn are_twins(&self, state: &State, one: usize, other: usize) -> bool {
        if state.on[one] != 0 || state.on[other] != 0 {
            return false;
        }
        let (mut memory, mut load) = (0, 0);
        for task in members(state.open) {
            memory += self.memory[task];
            load += self.load[task];
            if (self.residence[task] >> one ^ self.residence[task] >> other) & 1 == 1 {
                return false;
            }
        }
        let alike = |rooms: &[u64; PROCESSORS], all: u64| {
            rooms[one] == rooms[other] || (all <= rooms[one] && all <= rooms[other])
        };
        alike(&self.memory_room, memory) && alike(&self.load_room, load)
    }
}
