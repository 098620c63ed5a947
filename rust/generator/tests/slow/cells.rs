//! Cells of the slow run, what a group's threads did to them in an interval, and
//! what all groups did to the global ones.

use std::collections::BTreeSet;

use checker::op;

use super::rule::{Rule, Stores};

/// Some cells, with the accesses of one group since they were last forgotten.
pub struct Cells {
    pub words: Vec<u32>,
    readers: Vec<BTreeSet<usize>>,
    writers: Vec<BTreeSet<usize>>,
    adders: Vec<BTreeSet<usize>>,
    stores: Vec<Stores>,
}

impl Cells {
    pub fn new(words: &[u32]) -> Self {
        let nobody = vec![BTreeSet::new(); words.len()];
        Self {
            words: words.to_vec(),
            readers: nobody.clone(),
            writers: nobody.clone(),
            adders: nobody,
            stores: vec![Stores::default(); words.len()],
        }
    }

    /// An access that is let through.
    pub fn act(&mut self, rule: Rule, code: u8, t: usize, at: usize, word: u32) {
        match code {
            op::LOAD => {
                self.readers[at].insert(t);
            }
            op::STORE => {
                if rule == Rule::OneWriter {
                    self.writers[at].clear();
                }
                self.writers[at].insert(t);
                self.stores[at].values.push(word);
                self.words[at] = word;
            }
            _ => {
                self.adders[at].insert(t);
                self.words[at] = self.words[at].wrapping_add(word);
            }
        }
    }

    /// The lowest thread with which an access conflicts, and the kind.
    pub fn conflict(
        &self,
        rule: Rule,
        code: u8,
        t: usize,
        at: usize,
        word: u32,
    ) -> Option<(usize, String)> {
        let others = |them: &BTreeSet<usize>| -> BTreeSet<usize> {
            them.iter().copied().filter(|&other| other != t).collect()
        };
        let (read, added) = (others(&self.readers[at]), others(&self.adders[at]));
        let (wrote, stores) = (others(&self.writers[at]), &self.stores[at]);
        let mut met = wrote.clone();
        let let_through = match code {
            op::STORE => {
                let first = self.writers[at].first() == Some(&t);
                let apart = rule == Rule::FirstThreadOnly && !first;
                !apart && !stores.meet(rule, word, self.words[at])
            }
            op::LOAD => rule == Rule::LoadLetThrough && !stores.marked(rule),
            _ => rule == Rule::AddLetThrough && !stores.marked(rule),
        };
        if let_through {
            met.clear();
        }
        if let_through && rule == Rule::BesidesLetThrough && !wrote.is_empty() {
            return None;
        }
        let (shown, mine): (Vec<(char, &BTreeSet<usize>)>, char) = match code {
            op::LOAD => (vec![('w', &met), ('a', &added)], 'r'),
            op::STORE => (vec![('w', &met), ('a', &added), ('r', &read)], 'w'),
            _ => (vec![('w', &met), ('r', &read)], 'a'),
        };
        let other = *shown.iter().filter_map(|(_, them)| them.first()).min()?;
        let (mut letter, _) = *shown.iter().find(|(_, them)| them.contains(&other))?;
        if rule == Rule::ShownAsStore && wrote.contains(&other) {
            letter = 'w';
        }
        Some((other, format!("{letter}{mine}")))
    }

    /// A store that is refused sets nothing, unless by mistake.
    pub fn refuse(&mut self, rule: Rule, code: u8, at: usize, word: u32) {
        let stores = &mut self.stores[at].values;
        match rule {
            Rule::RefusedIsFirst if code == op::STORE => *stores = vec![word],
            Rule::RefusedMarks if code == op::STORE => stores.push(word),
            _ => {}
        }
    }

    /// Reader masks, writer masks, adder masks, first values and marks.
    pub fn log(&self, rule: Rule) -> [Vec<u32>; 5] {
        let masks = |log: &[BTreeSet<usize>]| log.iter().map(mask).collect();
        let firsts = self.stores.iter().map(|stores| stores.first(rule));
        let marks = (self.stores.iter()).map(|stores| u32::from(stores.marked(rule)));
        [
            masks(&self.readers),
            masks(&self.writers),
            masks(&self.adders),
            firsts.collect(),
            marks.collect(),
        ]
    }

    pub fn forget(&mut self) {
        for log in [&mut self.readers, &mut self.writers, &mut self.adders] {
            // Mostly nobody was there, which is seen faster than it is cleared.
            let entered = log.iter_mut().filter(|them| !them.is_empty());
            entered.for_each(BTreeSet::clear);
        }
        self.stores.iter_mut().for_each(Stores::forget);
    }
}

fn mask(them: &BTreeSet<usize>) -> u32 {
    them.iter().fold(0, |mask, &number| mask | 1 << number)
}

/// An access to a global cell, by any thread of a group.
struct Use {
    group: usize,
    /// Barriers that the group had passed.
    interval: usize,
    letter: char,
    word: u32,
}

/// All accesses to each global cell in the launch.
pub struct Uses(Vec<Vec<Use>>);

impl Uses {
    pub fn new(cells: usize) -> Self {
        Self((0..cells).map(|_| vec![]).collect())
    }

    pub fn enter(&mut self, group: usize, interval: usize, code: u8, at: usize, word: u32) {
        let letter = letter(code);
        self.0[at].push(Use {
            group,
            interval,
            letter,
            word,
        });
    }

    /// The lowest other group with which an access conflicts, and the kind.
    pub fn conflict(
        &self,
        rule: Rule,
        (group, interval, code): (usize, usize, u8),
        at: usize,
        word: u32,
    ) -> Option<(usize, String)> {
        let mine = letter(code);
        let agree = |used: &Use| match (used.letter, mine) {
            _ if rule == Rule::BarrierHoldsAll && used.interval != interval => true,
            ('r', 'r') => rule != Rule::LoadsAcrossRefused,
            ('a', 'a') => rule != Rule::AddsAcrossRefused,
            ('w', 'w') => rule == Rule::EqualAcrossLetThrough && used.word == word,
            _ => false,
        };
        let others = self.0[at].iter().filter(|used| used.group != group);
        let met: Vec<&Use> = others.filter(|used| !agree(used)).collect();
        let groups = met.iter().map(|used| used.group);
        let named = match rule {
            Rule::HighestGroup => groups.max()?,
            _ => groups.min()?,
        };
        let order = match rule {
            Rule::ReadShownFirst => ['r', 'a', 'w'],
            _ => ['w', 'a', 'r'],
        };
        let did = |letter: char| {
            met.iter()
                .any(|used| used.group == named && used.letter == letter)
        };
        let shown = order.into_iter().find(|&letter| did(letter))?;
        Some((named, format!("{shown}{mine}")))
    }

    /// Masks of the groups that read, wrote and added.
    pub fn masks(&self) -> [Vec<u32>; 3] {
        ['r', 'w', 'a'].map(|letter| {
            let of_cell = |uses: &Vec<Use>| {
                let groups = uses.iter().filter(|used| used.letter == letter);
                mask(&groups.map(|used| used.group).collect())
            };
            self.0.iter().map(of_cell).collect()
        })
    }

    pub fn forget(&mut self) {
        self.0.iter_mut().for_each(Vec::clear);
    }
}

fn letter(code: u8) -> char {
    match code {
        op::LOAD => 'r',
        op::STORE => 'w',
        _ => 'a',
    }
}
