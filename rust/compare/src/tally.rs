//! How many launches were compared, and what they came to.

use std::collections::BTreeMap;
use std::fmt;

use checker::Refusal;

use crate::PairAnswer;

/// What is compared.
#[derive(Clone, Copy, Debug, PartialEq, Eq, Hash, PartialOrd, Ord)]
pub enum Kind {
    /// A launch file.
    File,
    /// A bare launch.
    Bare,
    /// The report writer alone.
    Report,
}

/// Counts by kind and answer. Shown as two lines: the answers, then the sums.
#[derive(Clone, Debug, Default)]
pub struct Tally(BTreeMap<(Kind, String), u64>);

impl Tally {
    pub(crate) fn add(&mut self, kind: Kind, answer: String) {
        *self.0.entry((kind, answer)).or_default() += 1;
    }

    /// Launches of a kind.
    pub fn of(&self, kind: Kind) -> u64 {
        self.iter(kind).map(|(_, count)| count).sum()
    }

    /// Launches of a kind with one answer, such as `verdict=race` or `refused=11`.
    pub fn answered(&self, kind: Kind, answer: &str) -> u64 {
        self.iter(kind)
            .find_map(|(name, count)| (name == answer).then_some(count))
            .unwrap_or(0)
    }

    fn iter(&self, kind: Kind) -> impl Iterator<Item = (&str, u64)> {
        (self.0.iter())
            .filter(move |((of, _), _)| *of == kind)
            .map(|((_, name), count)| (name.as_str(), *count))
    }

    fn answers(&self, kind: Kind) -> String {
        let answers: Vec<String> = self
            .iter(kind)
            .map(|(name, count)| format!("{name} {count}"))
            .collect();
        answers.join(", ")
    }
}

impl fmt::Display for Tally {
    fn fmt(&self, f: &mut fmt::Formatter) -> fmt::Result {
        let kinds = [Kind::File, Kind::Bare, Kind::Report];
        let [of_files, of_bare, of_reports] = kinds.map(|kind| self.answers(kind));
        writeln!(
            f,
            "files: {of_files}; bare: {of_bare}; reports: {of_reports}"
        )?;
        let [files, bare, reports] = kinds.map(|kind| self.of(kind));
        let all = files + bare + reports;
        write!(
            f,
            "compared {all} launches: {files} files, {bare} bare, {reports} reports; 0 differ"
        )
    }
}

/// Counts by answer.
type Answers = BTreeMap<String, u64>;

/// Counts of pairs: by the filter's report, by the trigger's, and by both. Shown as two lines likewise.
#[derive(Clone, Debug, Default)]
pub struct PairTally {
    filters: Answers,
    triggers: Answers,
    pairs: Answers,
}

impl PairTally {
    pub(crate) fn add(&mut self, answer: PairAnswer) {
        let (both, reports) = match answer {
            PairAnswer::Reported(reports) => (passed(&reports).to_string(), Some(reports)),
            PairAnswer::Refused(refused) => (refused, None),
        };
        *self.pairs.entry(both).or_default() += 1;
        if let Some([filter, trigger]) = reports {
            *self.filters.entry(filter).or_default() += 1;
            *self.triggers.entry(trigger).or_default() += 1;
        }
    }

    /// Pairs with an answer, which is `both passed`, `one passed`, `none passed` or `refused=24`.
    pub fn answered(&self, answer: &str) -> u64 {
        self.pairs.get(answer).copied().unwrap_or(0)
    }

    /// Filter's reports and trigger's reports that begin with a line, such as `verdict=common` or `refused=37`.
    pub fn reported(&self, line: &str) -> [u64; 2] {
        [&self.filters, &self.triggers].map(|reports| reports.get(line).copied().unwrap_or(0))
    }
}

fn passed(reports: &[String; 2]) -> &'static str {
    match (reports.iter())
        .filter(|report| *report == "verdict=passed")
        .count()
    {
        0 => "none passed",
        1 => "one passed",
        _ => "both passed",
    }
}

impl fmt::Display for PairTally {
    fn fmt(&self, f: &mut fmt::Formatter) -> fmt::Result {
        let all = [&self.filters, &self.triggers, &self.pairs];
        let [filters, triggers, pairs] = all.map(|answers| {
            let answers: Vec<String> = (answers.iter())
                .map(|(name, count)| format!("{name} {count}"))
                .collect();
            answers.join(", ")
        });
        writeln!(
            f,
            "filters: {filters}; triggers: {triggers}; pairs: {pairs}"
        )?;
        let all: u64 = self.pairs.values().sum();
        let reported: u64 = self.filters.values().sum();
        let refused = all - reported;
        write!(
            f,
            "compared {all} pairs: {reported} reported, {refused} refused; 0 differ"
        )
    }
}

/// A refusal's name in the tally.
pub(crate) fn refused(refusal: Refusal) -> String {
    format!("refused={}", refusal.number)
}
