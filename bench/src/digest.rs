//! What a loop makes of the answers, so that every subject has to give the same ones.

/// In the pass that verifies (`WHOLE` true) every number and byte counts; in the runs that are measured
/// only what the calls return, so that the loop costs next to nothing.
pub struct Digest<const WHOLE: bool>(u64);

impl<const WHOLE: bool> Digest<WHOLE> {
    pub fn new() -> Self {
        Digest(0)
    }

    /// What a call returned.
    #[inline(always)]
    pub fn number(&mut self, number: u64) {
        self.0 = self.0.rotate_left(5) ^ number;
        if WHOLE {
            self.0 = self.0.wrapping_mul(0x9E37_79B9_7F4A_7C15);
        }
    }

    #[inline(always)]
    pub fn row(&mut self, row: &[u64]) {
        if WHOLE {
            row.iter().for_each(|&number| self.number(number));
        }
    }

    #[inline(always)]
    pub fn bytes(&mut self, bytes: &[u8]) {
        if WHOLE {
            bytes.iter().for_each(|&byte| self.number(u64::from(byte)));
        }
    }

    pub fn value(&self) -> u64 {
        self.0
    }
}
