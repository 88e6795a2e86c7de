//! The keys counted at the lock.

/// Every key counted since counting started. The list is kept whole; what it
/// says about a code is read off its end each time.
#[derive(Clone, Debug, Default)]
pub struct Counted(Vec<u8>);

impl Counted {
    /// No key yet.
    pub const NONE: Counted = Counted(Vec::new());

    /// The first bytes of a code, as if they had been counted one by one.
    pub fn first_of(code: &[u8], number: usize) -> Counted {
        Counted(code[..number].to_vec())
    }

    pub fn start_afresh(&mut self) {
        self.0.clear();
    }

    pub fn count(&mut self, key: u8) {
        self.0.push(key);
    }

    /// True when a code stands whole at the end of the list.
    pub fn end_with(&self, code: &[u8]) -> bool {
        self.0.ends_with(code)
    }

    /// How much of a code stands at the end of the list: the most of its first
    /// bytes that do. All of them are not asked for, since those would open.
    pub fn position(&self, code: &[u8]) -> usize {
        let mut shorter = (0..code.len()).rev();
        let longest = shorter.find(|&length| self.end_with(&code[..length]));
        longest.unwrap_or(0)
    }
}
