//! Flat memory, and what a quiet store owes to it. Written apart from the
//! machine: it knows operations by document 01's sentences only.

use crate::parts::*;

/// 4m words, all 0 at first.
pub struct Flat(pub Vec<u32>);

impl Flat {
    pub fn new(m: u8) -> Flat {
        Flat(vec![0; 4 * usize::from(m)])
    }

    /// Does an operation and gives its value.
    pub fn feed(&mut self, op: Op, word: u8) -> u32 {
        let cell = &mut self.0[usize::from(word)];
        let former = *cell;
        match op {
            Op::Load => former,
            Op::Store(v) => {
                *cell = v;
                v
            }
            Op::Exchange(v) => {
                *cell = v;
                former
            }
            Op::Add(v) => {
                *cell = former.wrapping_add(v);
                former
            }
        }
    }
}

/// The valid lines of a lane that have the block.
fn copies(s: &Store, k: usize, block: usize) -> Vec<Line> {
    let lines = s.lanes[k].lines[..usize::from(s.c)].iter();
    lines.filter(|l| l.valid && usize::from(l.block) == block).copied().collect()
}

/// The four properties of a quiet store, and its words against flat memory.
pub fn check_quiet(s: &Store, flat: &Flat) -> Result<(), String> {
    if !s.quiet() {
        return Err("the store is not quiet".to_string());
    }
    (0..usize::from(s.m)).try_for_each(|a| {
        let told = check_block(s, a, &flat.0[4 * a..4 * a + 4]);
        told.map_err(|text| format!("block {a}: {text}"))
    })
}

fn check_block(s: &Store, a: usize, words: &[u32]) -> Result<(), String> {
    let (n, entry) = (usize::from(s.n), &s.blocks[a]);
    let held: Vec<Vec<Line>> = (0..n).map(|k| copies(s, k, a)).collect();
    let private = held.iter().flatten().find(|l| l.private);
    for k in 0..n {
        demand(held[k].len() <= 1, "two lines of one block")?;
        demand(!entry.present[k] || !held[k].is_empty(), "property 1")?;
        if held[k].iter().any(|l| l.private) {
            let mut others = (0..n).filter(|&j| j != k);
            demand(entry.present[k], "property 3, own PRESENT")?;
            demand(others.all(|j| held[j].is_empty() && !entry.present[j]), "property 3, others")?;
        }
        let mut shared = held[k].iter().filter(|l| !l.private);
        demand(shared.all(|l| l.words == entry.words), "property 4")?;
    }
    demand(!entry.modified || private.is_some(), "property 2")?;
    let shown = private.map_or(entry.words, |l| l.words);
    demand(shown == words, "its words are not flat memory's")
}

/// An error with the text, unless it holds.
pub fn demand(holds: bool, text: &str) -> Result<(), String> {
    match holds {
        true => Ok(()),
        false => Err(text.to_string()),
    }
}
