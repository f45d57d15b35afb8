//! A buffer as a host lends it: guard elements stand on both sides, and what it held before a call is kept.

const GUARDS: usize = 8;

/// What the elements of a list stand for.
#[derive(Clone, Copy, PartialEq, Eq)]
pub enum Kind {
    Words,
    Singles,
    Doubles,
}

/// What a lent buffer is made of.
pub trait Plain: Copy {
    const KIND: Kind;
    /// Stands on both sides of a buffer: a pattern that no call writes by chance.
    const GUARD: Self;
    fn bits(self) -> u64;
    fn from(bits: u64) -> Self;
}

impl Plain for u64 {
    const KIND: Kind = Kind::Words;
    const GUARD: u64 = 0xa5c3_5a3c_96e1_7b2d;
    fn bits(self) -> u64 {
        self
    }
    fn from(bits: u64) -> u64 {
        bits
    }
}

/// The ring's samples go over as the patterns of f32.
impl Plain for u32 {
    const KIND: Kind = Kind::Singles;
    const GUARD: u32 = 0xa5c3_5a3c;
    fn bits(self) -> u64 {
        self as u64
    }
    fn from(bits: u64) -> u32 {
        bits as u32
    }
}

impl Plain for f32 {
    const KIND: Kind = Kind::Singles;
    const GUARD: f32 = f32::from_bits(0xa5c3_5a3c);
    fn bits(self) -> u64 {
        self.to_bits() as u64
    }
    fn from(bits: u64) -> f32 {
        f32::from_bits(bits as u32)
    }
}

impl Plain for f64 {
    const KIND: Kind = Kind::Doubles;
    const GUARD: f64 = f64::from_bits(0xa5c3_5a3c_96e1_7b2d);
    fn bits(self) -> u64 {
        self.to_bits()
    }
    fn from(bits: u64) -> f64 {
        f64::from_bits(bits)
    }
}

pub struct Lent<T> {
    cells: Vec<T>,
    before: Vec<T>,
    due: usize,
    given: usize,
}

impl<T: Plain> Lent<T> {
    pub fn new(due: usize, fill: T) -> Lent<T> {
        let mut cells = vec![T::GUARD; due + 2 * GUARDS];
        cells[GUARDS..GUARDS + due].fill(fill);
        Lent {
            before: cells.clone(),
            cells,
            due,
            given: due,
        }
    }

    pub fn of(cells: &[T]) -> Lent<T> {
        let mut lent = Lent::new(cells.len(), T::GUARD);
        lent.all_mut().copy_from_slice(cells);
        lent
    }

    /// What the buffer holds, whatever length is lent.
    pub fn all(&self) -> &[T] {
        &self.cells[GUARDS..GUARDS + self.due]
    }

    pub fn all_mut(&mut self) -> &mut [T] {
        &mut self.cells[GUARDS..GUARDS + self.due]
    }

    /// What the next call is lent.
    pub fn lent(&self) -> &[T] {
        &self.cells[GUARDS..GUARDS + self.given]
    }

    pub fn lent_mut(&mut self) -> &mut [T] {
        &mut self.cells[GUARDS..GUARDS + self.given]
    }

    /// What the buffer held when it was last kept.
    pub fn before(&self) -> &[T] {
        &self.before[GUARDS..GUARDS + self.due]
    }

    /// What the call was lent when the buffer was last kept.
    pub fn lent_before(&self) -> &[T] {
        &self.before[GUARDS..GUARDS + self.given]
    }

    /// What is lent is this, bit for bit, and what is not lent is as it was.
    pub fn holds(&self, expected: &[T]) -> bool {
        let rest = GUARDS + self.given;
        same(self.lent(), expected) && same(&self.cells[rest..], &self.before[rest..])
    }

    /// It begins with this, bit for bit, and holds behind it what it held before.
    pub fn begins(&self, head: &[T]) -> bool {
        let (begun, rest) = self.all().split_at(head.len());
        same(begun, head) && same(rest, &self.before()[head.len()..])
    }
}

/// Two lists, bit for bit.
pub fn same<T: Plain>(a: &[T], b: &[T]) -> bool {
    bytes(a) == bytes(b)
}

fn bytes<T: Plain>(list: &[T]) -> &[u8] {
    // Numbers without padding: every byte may be read.
    unsafe { std::slice::from_raw_parts(list.as_ptr().cast(), std::mem::size_of_val(list)) }
}

/// A NaN that says more than that it is one: it signals, or it carries a payload.
fn is_payload(kind: Kind, bits: u64) -> bool {
    let (all_but_sign, infinity, quiet) = match kind {
        Kind::Words => return false,
        Kind::Singles => (u32::MAX as u64 >> 1, 0x7f80_0000, 0x7fc0_0000),
        Kind::Doubles => (u64::MAX >> 1, 0x7ff << 52, 0xfff << 51),
    };
    let magnitude = bits & all_but_sign;
    magnitude > infinity && magnitude != quiet
}

/// A lent buffer of any element type.
pub trait Buffer {
    fn kind(&self) -> Kind;
    fn due(&self) -> usize;
    fn given(&self) -> usize;
    /// Lends this many elements from the next call on. More than are due come out of the guards behind.
    fn give(&mut self, len: usize);
    /// Remembers what is there.
    fn keep(&mut self);
    /// Whether no guard was written.
    fn intact(&self) -> bool;
    /// Whether nothing was written since `keep`, guards counted.
    fn unchanged(&self) -> bool;
    /// Whether a NaN that signals or carries a payload is lent.
    fn has_payload(&self) -> bool;
    fn bits(&self, at: usize) -> u64;
    fn set_bits(&mut self, at: usize, bits: u64);
}

impl<T: Plain> Buffer for Lent<T> {
    fn kind(&self) -> Kind {
        T::KIND
    }

    fn due(&self) -> usize {
        self.due
    }

    fn given(&self) -> usize {
        self.given
    }

    fn give(&mut self, len: usize) {
        assert!(len < self.due + GUARDS);
        self.given = len;
        self.cells[GUARDS + self.due..].fill(T::GUARD);
    }

    fn keep(&mut self) {
        self.before.copy_from_slice(&self.cells);
    }

    fn intact(&self) -> bool {
        let guards = [T::GUARD; GUARDS];
        let behind = &self.cells[GUARDS + self.due.max(self.given)..];
        same(&self.cells[..GUARDS], &guards) && same(behind, &guards[..behind.len()])
    }

    fn unchanged(&self) -> bool {
        same(&self.cells, &self.before)
    }

    fn has_payload(&self) -> bool {
        let payload = |found: bool, cell: &T| found | is_payload(T::KIND, cell.bits());
        self.lent().iter().fold(false, payload)
    }

    fn bits(&self, at: usize) -> u64 {
        self.all()[at].bits()
    }

    fn set_bits(&mut self, at: usize, bits: u64) {
        self.all_mut()[at] = T::from(bits);
    }
}
