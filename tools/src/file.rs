//! Writes table files record by record, faulty ones too.

use crate::model::{Message, Processor, Table, Task};

#[derive(Clone, Default)]
pub struct File {
    pub bytes: Vec<u8>,
}

impl File {
    pub fn new() -> File {
        File::default()
    }

    pub fn raw(mut self, bytes: &[u8]) -> File {
        self.bytes.extend_from_slice(bytes);
        self
    }

    pub fn network(self, capacity: u32) -> File {
        self.raw(b"NT").raw(&capacity.to_le_bytes())
    }

    pub fn processor(self, processor: Processor) -> File {
        self.raw(b"PR").raw(&processor.memory.to_le_bytes()).raw(&processor.limit.to_le_bytes())
    }

    pub fn task(self, task: Task) -> File {
        self.raw(b"TK")
            .raw(&task.execution.to_le_bytes())
            .raw(&task.period.to_le_bytes())
            .raw(&task.deadline.to_le_bytes())
            .raw(&task.memory.to_le_bytes())
            .raw(&task.priority.to_le_bytes())
            .raw(&task.residence.to_le_bytes())
    }

    pub fn co_resident(self, mask: u32) -> File {
        self.raw(b"CO").raw(&mask.to_le_bytes())
    }

    pub fn exclusive(self, mask: u32) -> File {
        self.raw(b"EX").raw(&mask.to_le_bytes())
    }

    pub fn message(self, message: Message) -> File {
        self.raw(b"MS").raw(&[message.sender, message.receiver]).raw(&message.amount.to_le_bytes())
    }
}

/// The table's records in order, each as its bytes.
pub fn records(table: &Table) -> Vec<Vec<u8>> {
    let mut records = vec![File::new().network(table.capacity)];
    records.extend(table.processors.iter().map(|&processor| File::new().processor(processor)));
    records.extend(table.tasks.iter().map(|&task| File::new().task(task)));
    records.extend(table.co_resident.iter().map(|&mask| File::new().co_resident(mask)));
    records.extend(table.exclusive.iter().map(|&mask| File::new().exclusive(mask)));
    records.extend(table.messages.iter().map(|&message| File::new().message(message)));
    records.into_iter().map(|file| file.bytes).collect()
}

/// The table as a file.
pub fn encode(table: &Table) -> Vec<u8> {
    records(table).concat()
}
