//! The precoder, the parity check and the sender.
use super::code::{Code, Symbol};

/// The trellis state and the differential number, between two symbols.
#[derive(Clone, Copy, Debug, Default, PartialEq, Eq)]
pub struct Place {
    pub state: u16,
    pub differential: u16,
}

impl Code {
    /// Whether a word has bits beyond the data bits of the code.
    pub fn too_wide(&self, word: u16) -> bool {
        u32::from(word) >= 1 << (self.width() - 1)
    }

    /// The label of a word that is not too wide, and the place after it.
    pub fn label(&self, place: Place, word: u16) -> (u16, Place) {
        // Data bit i-1 stands at label bit i; z0 is left to the parity check.
        let mut label = word << 1;
        let mut differential = place.differential;
        for (j, &bit) in self.differential().iter().enumerate() {
            differential += (label >> bit & 1) << j;
        }
        differential %= 1 << self.differential().len();
        for (j, &bit) in self.differential().iter().enumerate() {
            label = label & !(1 << bit) | (differential >> j & 1) << bit;
        }
        let numbers = self.numbers();
        let mut state = place.state;
        for j in 1..=numbers.checked as usize {
            if label >> j & 1 == 1 {
                state ^= numbers.h[j];
            }
        }
        if state % 2 == 1 {
            label |= 1;
            state ^= numbers.h[0];
        }
        (label, Place { state: state / 2, differential })
    }
}

/// An open burst.
#[derive(Clone, Copy, Debug)]
pub struct Burst {
    code: Code,
    place: Place,
    sent: u8,
}

impl Burst {
    /// Opens a burst and gives the reference symbol.
    pub fn begin(code: Code) -> (Burst, Symbol) {
        (Burst { code, place: Place::default(), sent: 0 }, code.symbol(0))
    }

    /// The symbol of a word, or 25 or 7; a refused word leaves the burst as it was.
    pub fn send(&mut self, word: u16) -> Result<Symbol, u8> {
        if self.sent == 255 {
            return Err(25);
        }
        if self.code.too_wide(word) {
            return Err(7);
        }
        let (label, place) = self.code.label(self.place, word);
        self.place = place;
        self.sent += 1;
        Ok(self.code.symbol(label))
    }

    /// Closes the burst and tells how many words were sent.
    pub fn end(self) -> u8 {
        self.sent
    }
}
