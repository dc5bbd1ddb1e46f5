//! The least path by the letter of its definition: every path is made and compared. For small codes and short blocks.
use super::code::Code;
use super::front::Scores;
use super::receiver::{Engine, Least};

/// The scores of all symbols so far.
pub struct Paths {
    code: Option<Code>,
    symbols: Vec<Scores>,
}

/// A path with its worth.
struct Path {
    labels: Vec<u16>,
    end: u16,
    worth: u64,
}

/// The exclusive or of the polynomials whose label bits are 1.
fn syndrome(code: &Code, label: u16) -> u16 {
    let numbers = code.numbers();
    let checked = 0..=usize::from(numbers.checked);
    checked.filter(|&j| label >> j & 1 == 1).fold(0, |sum, j| sum ^ numbers.h[j])
}

fn label_worth(code: &Code, scores: &Scores, label: u16) -> u64 {
    let symbol = code.symbol(label);
    (0..usize::from(symbol.places)).map(|place| u64::from(scores[place][usize::from(symbol.phases[place])])).sum()
}

impl Paths {
    /// All paths: from every start state, every label that the parity check allows, symbol by symbol.
    fn all(&self) -> Vec<Path> {
        let code = self.code.as_ref().expect("an open block");
        let starts = 0..1u16 << code.numbers().memory;
        let mut paths: Vec<Path> = starts.map(|state| Path { labels: Vec::new(), end: state, worth: 0 }).collect();
        for scores in &self.symbols {
            let mut longer = Vec::new();
            for label in 0..1u32 << code.width() {
                let label = label as u16;
                let worth = label_worth(code, scores, label);
                for path in &paths {
                    let checked = path.end ^ syndrome(code, label);
                    if checked % 2 == 0 {
                        let mut labels = path.labels.clone();
                        labels.push(label);
                        longer.push(Path { labels, end: checked / 2, worth: path.worth + worth });
                    }
                }
            }
            paths = longer;
        }
        paths
    }
}

impl Engine for Paths {
    fn made(_: usize) -> Paths {
        Paths { code: None, symbols: Vec::new() }
    }

    fn open(&mut self, code: Code) {
        self.code = Some(code);
        self.symbols.clear();
    }

    fn add(&mut self, scores: &Scores) {
        self.symbols.push(*scores);
    }

    fn least(&self) -> (u64, bool) {
        let path = self.path().expect("a path");
        (path.worth, path.sole)
    }

    fn path(&self) -> Option<Least> {
        let mut paths = self.all();
        let worth = paths.iter().map(|path| path.worth).min()?;
        paths.retain(|path| path.worth == worth);
        // The lower end state, then the lower last label, then the one before, back to the first.
        let order = |path: &Path| {
            let mut order = vec![path.end];
            order.extend(path.labels.iter().rev());
            order
        };
        let first = paths.iter().min_by_key(|path| order(path))?;
        Some(Least { worth, sole: paths.len() == 1, labels: first.labels.clone() })
    }
}
