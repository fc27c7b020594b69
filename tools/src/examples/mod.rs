//! Inputs whose answers are worked out by hand.

pub mod judging;
pub mod paper;
pub mod reading;
pub mod rounding;
pub mod searching;

use crate::model::{Message, Processor, Task};

pub fn processor(memory: u32, limit: u16) -> Processor {
    Processor { memory, limit }
}

/// C, T, D and priority; 10 of memory, on the first processor.
pub fn task(execution: u32, period: u32, deadline: u32, priority: u16) -> Task {
    Task { execution, period, deadline, memory: 10, priority, residence: 1 }
}

pub fn message(sender: u8, receiver: u8, amount: u32) -> Message {
    Message { sender, receiver, amount }
}
