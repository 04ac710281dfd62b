//! All numbers that a call answers or leaves behind.

/// How many numbers `out` has.
pub const OUT: usize = 8;

/// How many numbers a slot has: the offset and length of a name, and those of its value.
pub const SLOT: usize = 4;

/// What every lent number holds before the call; larger than any offset, length or count.
pub const UNTOUCHED: u64 = 0xA5A5_5A5A_A5A5_5A5A;

/// How many numbers stand on either side of the lent ones; no call may touch them.
const GUARD: usize = 4;

/// The answer of one call; two libraries agree if all of it is equal, the guards too.
#[derive(Clone, Default, PartialEq, Eq)]
pub struct Numbers {
    pub status: u32,
    pub out: Lent,
    pub slots: Lent,
}

impl Numbers {
    /// Makes everything ready for a call with this much room for headers.
    pub fn lend(&mut self, room: usize) {
        self.status = u32::MAX;
        self.out.renew(OUT);
        self.slots.renew(room);
    }
}

/// Numbers lent to a call, between their guards.
#[derive(Clone, Default, PartialEq, Eq)]
pub struct Lent {
    guarded: Vec<u64>,
}

impl Lent {
    /// This many numbers, untouched.
    pub fn of(count: usize) -> Lent {
        let mut lent = Lent::default();
        lent.renew(count);
        lent
    }

    fn renew(&mut self, count: usize) {
        self.guarded.resize(GUARD + count + GUARD, UNTOUCHED);
        self.guarded.fill(UNTOUCHED);
    }

    pub fn numbers(&self) -> &[u64] {
        &self.guarded[GUARD..self.guarded.len() - GUARD]
    }

    pub fn numbers_mut(&mut self) -> &mut [u64] {
        let end = self.guarded.len() - GUARD;
        &mut self.guarded[GUARD..end]
    }

    /// Where the lent numbers begin, for a library that might also write to the guards.
    pub fn pointer(&mut self) -> *mut u64 {
        self.guarded[..].as_mut_ptr().wrapping_add(GUARD)
    }

    pub fn guards_are_untouched(&self) -> bool {
        let (front, rest) = self.guarded.split_at(GUARD);
        let behind = &rest[rest.len() - GUARD..];
        front
            .iter()
            .chain(behind)
            .all(|&number| number == UNTOUCHED)
    }

    #[cfg(test)]
    pub fn with_guards_mut(&mut self) -> &mut [u64] {
        &mut self.guarded
    }
}
