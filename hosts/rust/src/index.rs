//! The index beside a text: where each line starts, and which lines name it.
use crate::{loaded, raw, Refusal};

const WORDS: usize = 5122;
const MOST_CALLERS: usize = 512;

/// The index of one text.
#[derive(Clone, PartialEq, Eq)]
pub struct Index([u16; WORDS]);

/// The numbers of the lines that name a line, rising, each once.
#[derive(Clone)]
pub struct Callers {
    lines: [u16; MOST_CALLERS],
    count: usize,
}

impl Callers {
    /// The numbers.
    pub fn lines(&self) -> &[u16] {
        &self.lines[..self.count]
    }
}

impl Index {
    /// The index of a text; one that does not load is refused, and one with more than 1,024 pairs of a line that is named and one that names it (109).
    pub fn of(text: &[u8]) -> Result<Self, Refusal> {
        let (mut index, mut verdict) = (Self([0; WORDS]), [0; crate::VERDICT]);
        // SAFETY: the text is a slice with its own length; index and verdict are as long as the header says.
        unsafe {
            raw::quernhem_index(
                text.as_ptr(),
                text.len(),
                index.0.as_mut_ptr(),
                verdict.as_mut_ptr(),
            )
        };
        loaded(verdict).map(|()| index)
    }

    /// The place in the text where the line with a number starts, if there is one.
    pub fn line(&self, number: u16) -> Option<usize> {
        let mut found = [0; 2];
        // SAFETY: index and what is found are as long as the header says.
        unsafe { raw::quernhem_line(self.0.as_ptr(), number, found.as_mut_ptr()) };
        (found[0] != 0).then_some(found[1] as usize)
    }

    /// The lines that name a line after GOTO, GOSUB, THEN, ELSE or RESTORE; the line itself need not be there.
    pub fn callers(&self, number: u16) -> Callers {
        let (mut lines, mut count) = ([0; MOST_CALLERS], 0);
        // SAFETY: index and callers are as long as the header says.
        unsafe { raw::quernhem_callers(self.0.as_ptr(), number, lines.as_mut_ptr(), &mut count) };
        Callers {
            lines,
            count: (count as usize).min(MOST_CALLERS),
        }
    }

    pub(crate) fn words(&self) -> &[u16] {
        &self.0
    }
}
