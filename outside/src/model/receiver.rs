//! The receiver: its calls, their refusals in order, and the data words of a path.
use super::code::{Code, Numbers};
use super::front::{Front, Kind, Scores};

pub const NO_FRONT: u8 = 253;
/// The most symbols of a block, whatever the cells.
pub const MOST: usize = 256;

/// The least path of a block: its worth, whether no other has it, and its labels from the first symbol on.
#[derive(Clone, Debug, PartialEq, Eq)]
pub struct Least {
    pub worth: u64,
    pub sole: bool,
    pub labels: Vec<u16>,
}

/// A way to find the least path.
pub trait Engine {
    /// Memory of so many cells, no block.
    fn made(cells: usize) -> Self;
    fn open(&mut self, code: Code);
    fn add(&mut self, scores: &Scores);
    /// The least worth and the sole mark, once a symbol is in.
    fn least(&self) -> (u64, bool);
    /// The least path, ties decided; none where no path ends anywhere.
    fn path(&self) -> Option<Least>;
}

#[derive(Clone, Copy, Debug, PartialEq, Eq)]
pub struct Told {
    pub count: u16,
    pub worth: u64,
    pub sole: bool,
}

#[derive(Clone, Copy, Debug, PartialEq, Eq)]
pub struct Delivered {
    pub count: u16,
    pub sole: bool,
}

/// A block: its code, the symbols it holds and those it has.
#[derive(Clone, Copy, Debug)]
struct Block {
    code: Code,
    capacity: usize,
    count: usize,
}

pub struct Receiver<E> {
    kind: Kind,
    cells: usize,
    block: Option<Block>,
    engine: E,
}

/// How many symbols a block of this memory holds.
pub fn capacity(cells: usize, memory: u8) -> usize {
    MOST.min((cells >> memory).saturating_sub(1))
}

impl<E: Engine> Receiver<E> {
    pub fn new(kind: Kind, cells: usize) -> Receiver<E> {
        Receiver { kind, cells, block: None, engine: E::made(cells) }
    }

    /// The code of the open block.
    pub fn code(&self) -> Option<&Code> {
        self.block.as_ref().map(|block| &block.code)
    }

    /// The symbols that are in.
    pub fn count(&self) -> usize {
        self.block.map_or(0, |block| block.count)
    }

    pub fn open(&mut self, numbers: Numbers) -> Result<u16, u8> {
        self.open_code(Code::new(numbers).map_err(|flaw| flaw.number)?)
    }

    /// The same for a code that was made before.
    pub fn open_code(&mut self, code: Code) -> Result<u16, u8> {
        let memory = code.numbers().memory;
        if self.cells < (usize::from(memory) + 2) << memory {
            return Err(20);
        }
        let capacity = capacity(self.cells, memory);
        self.block = Some(Block { code, capacity, count: 0 });
        self.engine.open(code);
        Ok(capacity as u16)
    }

    /// Takes a symbol's reading through the front of a number.
    pub fn take(&mut self, number: u8, reading: &[u16]) -> Result<(), u8> {
        let front = Front::numbered(number).filter(|front| front.kind() == self.kind).ok_or(NO_FRONT)?;
        self.take_through(&front, reading)
    }

    /// Takes a symbol's reading through any front of the receiver's kind.
    pub fn take_through(&mut self, front: &Front, reading: &[u16]) -> Result<(), u8> {
        let block = self.block.as_mut().ok_or(21)?;
        if block.count == block.capacity {
            return Err(22);
        }
        let numbers = block.code.numbers();
        let (places, phases) = (usize::from(numbers.places), usize::from(numbers.phases));
        let width = front.width(phases);
        if reading.len() != places * width {
            return Err(8);
        }
        if !reading.chunks_exact(width).all(|reading| front.fit(phases, reading)) {
            return Err(9);
        }
        let mut scores = Scores::default();
        for (scores, reading) in scores.iter_mut().zip(reading.chunks_exact(width)) {
            front.scores(reading, &mut scores[..phases]);
        }
        self.engine.add(&scores);
        block.count += 1;
        Ok(())
    }

    pub fn tell(&self) -> Result<Told, u8> {
        let block = self.block.as_ref().ok_or(21)?;
        let (worth, sole) = if block.count == 0 { (0, false) } else { self.engine.least() };
        Ok(Told { count: block.count as u16, worth, sole })
    }

    /// Writes the words of the least path from its second symbol on; the buffer beyond them stays.
    pub fn deliver(&self, buffer: &mut [u16]) -> Result<Delivered, u8> {
        let block = self.block.as_ref().ok_or(21)?;
        if block.count < 2 {
            return Err(23);
        }
        if buffer.len() < block.count - 1 {
            return Err(10);
        }
        let path = self.engine.path().ok_or(24)?;
        for (word, pair) in buffer.iter_mut().zip(path.labels.windows(2)) {
            *word = block.code.word(pair[0], pair[1]);
        }
        Ok(Delivered { count: (block.count - 1) as u16, sole: path.sole })
    }
}

impl Code {
    /// The number that the differential bits of a label form.
    fn differential_number(&self, label: u16) -> u16 {
        self.differential().iter().enumerate().map(|(j, &bit)| (label >> bit & 1) << j).sum()
    }

    /// The data word that led from one label to the next.
    pub fn word(&self, old: u16, new: u16) -> u16 {
        let difference = self.differential_number(new).wrapping_sub(self.differential_number(old));
        let mut label = new;
        for (j, &bit) in self.differential().iter().enumerate() {
            label = label & !(1 << bit) | (difference >> j & 1) << bit;
        }
        label >> 1
    }
}
