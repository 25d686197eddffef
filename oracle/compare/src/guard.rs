//! Lent buffers with a guard zone on both sides.

use std::hint::black_box;

/// The values in each guard zone.
const ZONE: usize = 64;

/// Room for one lent buffer. It is laid out anew for each call, with the zones
/// right before and right after what is lent.
pub struct Guarded<T> {
    room: Vec<T>,
    mark: T,
}

impl<T: Copy + PartialEq> Guarded<T> {
    pub fn new(mark: T) -> Self {
        let mut guarded = Guarded {
            room: Vec::new(),
            mark,
        };
        guarded.lay_out(&[]);
        guarded
    }

    /// Lends a copy of `values`, with `mark` in both zones.
    pub fn lend_copy(&mut self, values: &[T], mark: T) -> &mut [T] {
        self.mark = mark;
        self.lay_out(values);
        self.lent_mut()
    }

    /// Lends `len` values that are all `fill`.
    pub fn lend(&mut self, len: usize, fill: T) -> &mut [T] {
        self.lay_out(&[]);
        let at = self.room.len() - ZONE;
        self.room.truncate(at);
        self.room.resize(at + len, fill);
        self.room.resize(at + len + ZONE, self.mark);
        self.lent_mut()
    }

    fn lay_out(&mut self, values: &[T]) {
        self.room.clear();
        self.room.resize(ZONE, self.mark);
        self.room.extend_from_slice(values);
        self.room.resize(ZONE + values.len() + ZONE, self.mark);
    }

    fn lent_mut(&mut self) -> &mut [T] {
        let end = self.room.len() - ZONE;
        &mut self.room[ZONE..end]
    }

    /// What is lent, as it stands now.
    pub fn lent(&self) -> &[T] {
        &black_box(&self.room)[ZONE..self.room.len() - ZONE]
    }

    /// Whether both zones are untouched.
    pub fn is_intact(&self) -> bool {
        let room = black_box(&self.room);
        let end = room.len() - ZONE;
        room[..ZONE]
            .iter()
            .chain(&room[end..])
            .all(|value| *value == self.mark)
    }
}

/// An error that names the first part that the call touched and should not have.
pub fn untouched(parts: &[(bool, &str)]) -> Result<(), String> {
    match parts.iter().find(|(intact, _)| !intact) {
        Some((_, what)) => Err(format!("the call touched {what}")),
        None => Ok(()),
    }
}

/// What stands around the answer must be untouched, and the returned number be the
/// answer's first.
pub fn answered(returned: u64, answer: &Guarded<u64>) -> Result<(), String> {
    untouched(&[(answer.is_intact(), "numbers around the answer")])?;
    let answer = answer.lent();
    if returned == answer[0] {
        Ok(())
    } else {
        Err(format!("returned {returned}, answer {answer:?}"))
    }
}

#[cfg(test)]
mod tests {
    use super::*;

    #[test]
    fn zones_are_watched() {
        let mut guarded = Guarded::new(7u8);
        assert_eq!(guarded.lend(3, 9), [9, 9, 9]);
        assert!(guarded.is_intact());
        guarded.room[ZONE - 1] = 0;
        assert!(!guarded.is_intact());
        assert_eq!(guarded.lend_copy(&[1, 2], 5), [1, 2]);
        assert!(guarded.is_intact());
        assert_eq!(guarded.lent(), [1, 2]);
        guarded.room[ZONE + 2] = 0;
        assert!(!guarded.is_intact());
    }
}
