//! What the records of the scan and of the fine stage begin with: a call and what it is given.

use crate::record::Record;
use crate::signal::Signal;

#[derive(Clone, Copy)]
pub struct Call {
    pub kind: u8,
    answer: u8,
    count: u32,
    number: u64,
    place: u64,
    signal: Signal,
}

impl Call {
    pub fn new(kind: u8) -> Call {
        Call {
            kind,
            answer: 0,
            count: 0,
            number: 0,
            place: 0,
            signal: Signal::default(),
        }
    }

    pub fn answer(self, answer: u8) -> Call {
        Call { answer, ..self }
    }

    pub fn count(self, count: usize) -> Call {
        let count = count as u32;
        Call { count, ..self }
    }

    pub fn number(self, number: u64) -> Call {
        Call { number, ..self }
    }

    pub fn place(self, place: u64) -> Call {
        Call { place, ..self }
    }

    pub fn signal(self, signal: Signal, place: u64) -> Call {
        Call {
            signal,
            place,
            ..self
        }
    }

    /// 44 bytes.
    pub fn store(self, flags: u8, out: &mut Record) {
        out.u8(self.kind).u8(self.answer).u8(flags).u8(0);
        out.u32(self.count).u64(self.number).u64(self.place);
        self.signal.store(out);
    }
}
