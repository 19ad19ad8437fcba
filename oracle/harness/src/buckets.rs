//! Which buckets a step reaches. This looks at the words and at the model's parts; it judges
//! nothing.

mod asks;
mod compiled;
mod fields;
mod links;
mod missing;
mod names;
mod numbers;
mod written;

use std::collections::BTreeMap;

use crate::case::Call;
use crate::compare::Step;
use crate::generate::spoil_names;
use crate::model::parts::{AbiSheet, ClassSheet, text_of_abi_words, text_of_class_words};

pub use names::{BUCKETS, Bucket};

/// One more than the largest number that refuses any call.
pub const ROWS: usize = 27;

/// Counts over a run.
pub struct Counts {
    pub calls: u64,
    /// By call (link, ask, missing slots, filling) and answer.
    pub rows: [[u64; ROWS]; 4],
    buckets: Vec<u64>,
    spoils: BTreeMap<&'static str, u64>,
}

impl Default for Counts {
    fn default() -> Self {
        let spoils = spoil_names().map(|name| (name, 0)).collect();
        Self { calls: 0, rows: [[0; ROWS]; 4], buckets: vec![0; BUCKETS.len()], spoils }
    }
}

/// The rows that a link, an ask, a question for a count and a filling can meet.
const LINK_ROWS: [u32; 14] = [0, 3, 4, 5, 6, 7, 8, 9, 10, 11, 12, 13, 14, 15];
const ASK_ROWS: [u32; 8] = [0, 3, 4, 5, 6, 7, 15, 16];
const MISSING_ROWS: [u32; 6] = [0, 3, 4, 5, 6, 15];
const FILL_ROWS: [u32; 4] = [0, 3, 4, 5];

impl Counts {
    /// Counts a step.
    pub fn observe(&mut self, step: &Step) {
        let mut hits = Vec::new();
        let refusal = step.answer.refusal;
        if let Some(spoiled) = step.case.spoiled {
            let led = match spoiled.as_bytes()[0] {
                row @ b'3'..=b'5' => refusal == u32::from(row - b'0'),
                b'k' => refusal == 0 || refusal > 5,
                _ => true,
            };
            *self.spoils.get_mut(spoiled).expect("every spoil is listed") += u64::from(led);
        }
        numbers::short(step, &mut hits);
        if refusal == 0 || refusal > 5 {
            let (text, abi_text) = (text_of_class_words(&step.before.set), text_of_abi_words(&step.case.abi));
            let view = View {
                step,
                sheet: ClassSheet { words: &step.before.set, text: &text, numbers: &step.before.numbers },
                abi: AbiSheet { words: &step.case.abi, text: &abi_text, numbers: &step.before.numbers },
                stubs: &step.case.stubs[step.call.stubs()],
            };
            match step.call {
                Call::Link { class, .. } => links::link(&view, class, &mut hits),
                Call::Ask { class, interface, .. } => asks::ask(&view, class, interface, &mut hits),
                Call::Missing { class } => missing::asked(&view, class, &mut hits),
                Call::Fill => numbers::filled(&view, &mut hits),
            }
        }
        self.calls += 1;
        let call = match step.call {
            Call::Link { .. } => 0,
            Call::Ask { .. } => 1,
            Call::Missing { .. } => 2,
            Call::Fill => 3,
        };
        self.rows[call][refusal as usize] += 1;
        for hit in hits {
            self.buckets[hit as usize] += 1;
        }
    }

    /// Every row, bucket and spoil with its count, in one order.
    fn lines(&self) -> Vec<(u64, String)> {
        let mut lines = Vec::new();
        let calls = [("link", &LINK_ROWS[..]), ("ask", &ASK_ROWS), ("missing slots", &MISSING_ROWS), ("filling", &FILL_ROWS)];
        for ((call, rows), counts) in calls.into_iter().zip(&self.rows) {
            for &row in rows {
                let what = if row == 0 { "accepted".to_owned() } else { format!("refused by row {row}") };
                lines.push((counts[row as usize], format!("{call} {what}")));
            }
        }
        lines.extend(BUCKETS.iter().zip(&self.buckets).map(|((_, name), count)| (*count, (*name).to_owned())));
        lines.extend(self.spoils.iter().map(|(name, count)| (*count, format!("spoiled, {name}"))));
        lines
    }

    /// The positions, in the order of the summary, of what was reached.
    pub fn reached(&self) -> Vec<usize> {
        let lines = self.lines().into_iter().enumerate();
        lines.filter(|(_, (count, _))| *count > 0).map(|(position, _)| position).collect()
    }

    /// Adds the counts of another run.
    pub fn add(&mut self, other: &Self) {
        self.calls += other.calls;
        for (row, more) in self.rows.iter_mut().flatten().zip(other.rows.iter().flatten()) {
            *row += more;
        }
        for (count, more) in self.buckets.iter_mut().zip(&other.buckets) {
            *count += more;
        }
        for (name, more) in &other.spoils {
            *self.spoils.entry(name).or_default() += more;
        }
    }

    /// The summary, and whether every bucket was reached.
    pub fn summary(&self) -> (String, bool) {
        let lines = self.lines();
        let missed = lines.iter().filter(|(count, _)| *count == 0).count();
        let shown = lines.iter().map(|(count, name)| format!("{count:>10}  {name}{}\n", if *count == 0 { "   NEVER REACHED" } else { "" }));
        let total = format!("{} calls, {} buckets, {missed} never reached", self.calls, lines.len());
        (shown.collect::<String>() + &total, missed == 0)
    }
}

/// A step with both sheets read.
struct View<'a> {
    step: &'a Step<'a>,
    sheet: ClassSheet<'a>,
    abi: AbiSheet<'a>,
    stubs: &'a [u32],
}

type Hits = Vec<Bucket>;

/// Adds a bucket if a condition holds.
fn hit(hits: &mut Hits, bucket: Bucket, condition: bool) {
    if condition {
        hits.push(bucket);
    }
}

/// Row 7's clauses but for walks, the same for both calls; `reads` are the classes whose
/// tables the call reads.
fn area_clauses(view: &View, reads: &[u32], hits: &mut Hits) {
    let area = &view.step.before.area;
    let Some(&next) = area.first() else {
        hits.push(Bucket::AreaEmpty);
        return;
    };
    hit(hits, Bucket::AreaZero, next == 0);
    hit(hits, Bucket::AreaBeyond, next as usize > area.len());
    if next == 0 || next as usize > area.len() {
        return;
    }
    let is_above = |class: u32| {
        let record = view.sheet.class(class);
        record.place != 0 && u64::from(record.place) + u64::from(record.slots) + 2 > u64::from(next)
    };
    let above: Vec<u32> = (1..=view.sheet.class_count()).filter(|&class| is_above(class)).collect();
    hit(hits, Bucket::AreaTable, !above.is_empty());
    hit(hits, Bucket::AreaOtherTable, !above.is_empty() && above.iter().all(|class| !reads.contains(class)));
}
