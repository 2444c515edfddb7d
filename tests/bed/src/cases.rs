//! Whole cases for the two programs: the files they read.

use crate::damage::*;
use crate::found::found;
use crate::frames::{reference_frames, unit_frame, unit_frames, Frame, HEAD_LINES};
use crate::model::UnitModel;
use crate::rng::Rng;
use crate::valid::unit_model;

/// What a program is given: two files for the listing, three for resuming.
#[derive(Clone, Debug, PartialEq, Eq)]
pub struct Files {
    pub reference: Vec<u8>,
    pub unit: Vec<u8>,
    pub found: Option<Vec<u8>>,
}

impl Files {
    /// What the program has to print.
    pub fn expected(&self) -> Vec<u8> {
        match &self.found {
            None => oracle::listing(&self.reference, &self.unit),
            Some(found) => oracle::resume(&self.reference, &self.unit, found),
        }
    }
}

/// Percent of units that are left in order.
const UNDAMAGED: u64 = 30;
/// Percent of units that are left in order when resuming is tried.
const UNDAMAGED_FOR_RESUMING: u64 = 60;

/// The unit and reference of one case of a run.
pub fn listing_case(seed: u64, case: u64) -> Files {
    let mut rng = Rng::for_case(seed, case);
    let model = unit_model(&mut rng);
    let steps = if rng.percent(UNDAMAGED) { Vec::new() } else { steps(&mut rng, &model) };
    written(&mut rng, model, &steps)
}

/// A unit, a reference, and what was found of a listing.
pub fn resume_case(seed: u64, case: u64) -> Files {
    // Other cases than those of the listing under the same seed.
    let mut rng = Rng::for_case(!seed, case);
    let model = unit_model(&mut rng);
    let steps = if rng.percent(UNDAMAGED_FOR_RESUMING) { Vec::new() } else { steps(&mut rng, &model) };
    let mut files = written(&mut rng, model, &steps);
    let listing = oracle::listing(&files.reference, &files.unit);
    files.found = Some(found(&mut rng, &files, &listing));
    if rng.percent(20) {
        damage_behind_the_pairs(&mut rng, &mut files.unit);
    }
    files
}

/// A unit in order, written down.
pub fn valid_case(seed: u64, case: u64) -> (UnitModel, Files) {
    let mut rng = Rng::for_case(seed, case);
    let model = unit_model(&mut rng);
    let files = written(&mut rng, model.clone(), &[]);
    (model, files)
}

/// The steps at which damage can be done, in the order in which a unit is written down.
#[derive(Clone, Copy, PartialEq, Eq, PartialOrd, Ord)]
enum Step {
    Model,
    Unit,
    Frame,
    /// A cut of the frame that other damage goes to: is a fault seen before the end is missed?
    Cut,
    Reference,
    Lines,
    Line,
    File,
}

/// One step mostly; two or three show which refusal comes first.
fn steps(rng: &mut Rng, model: &UnitModel) -> Vec<Step> {
    let count = match rng.below(100) {
        0..=54 => 1,
        55..=84 => 2,
        _ => 3,
    };
    let mut steps: Vec<Step> = (0..count).map(|_| step(rng)).collect();
    // Splices and deletions have more that can be wrong with the unit as its author means it than other blocks.
    if model.class().has_splices() && rng.percent(90) {
        steps[0] = Step::Model;
    }
    steps.sort();
    steps
}

fn step(rng: &mut Rng) -> Step {
    match rng.below(100) {
        0..=47 => Step::Model,
        48..=52 => Step::Unit,
        53..=66 => Step::Frame,
        67..=74 => Step::Cut,
        75..=78 => Step::Reference,
        79..=84 => Step::Lines,
        85..=94 => Step::Line,
        _ => Step::File,
    }
}

/// Writes a unit down and does the damage on the way.
fn written(rng: &mut Rng, mut model: UnitModel, steps: &[Step]) -> Files {
    let times = |step| steps.iter().filter(|other| **other == step).count();
    let focus = rng.index(model.records.len().max(1));
    for _ in 0..times(Step::Model) {
        damage_model(rng, &mut model, focus);
    }
    let mut frames = unit_frames(&model);
    for _ in 0..times(Step::Unit) {
        // The records stay as the author meant them.
        let mut unit = model.unit.clone();
        damage_unit(rng, &mut unit);
        frames[0] = unit_frame(&unit);
    }
    for _ in 0..times(Step::Frame) {
        let at = some_line(rng, frames.len(), focus);
        damage_frame(rng, &model.unit, &mut frames[at]);
    }
    // A fault in a record is often met together with a cut behind it.
    let also_cut = times(Step::Model) > 0 && rng.percent(20);
    for _ in 0..times(Step::Cut) + usize::from(also_cut) {
        let at = (HEAD_LINES + focus).min(frames.len() - 1);
        cut_frame(rng, &mut frames[at]);
    }
    let mut reference = reference_frames(rng, &model.reference);
    for _ in 0..times(Step::Reference) {
        damage_reference(rng, &model.unit, &mut reference);
    }
    let mut unit = Text::of(&frames);
    let mut reference = Text::of(&reference);
    if times(Step::Reference) > 0 && rng.percent(25) {
        // No line at all behind the others, whose counts may be at their limits.
        let spoilt: [&[u8]; 4] = [b"zz\n", b"0\n", b"07ZZ\n", b"0700"];
        reference.lines.push(spoilt[rng.index(spoilt.len())].to_vec());
    }
    for step in steps {
        // Now and then it is the reference's text that is damaged.
        let text = if rng.percent(12) { &mut reference } else { &mut unit };
        text.damage(rng, *step, focus);
    }
    Files { reference: reference.file(), unit: unit.file(), found: None }
}

/// The unit line, a pair line, the line of the record that other damage goes to, or any.
fn some_line(rng: &mut Rng, lines: usize, focus: usize) -> usize {
    match rng.below(10) {
        0 => 0,
        1..=3 => rng.index(lines.min(HEAD_LINES)),
        4..=7 if HEAD_LINES + focus < lines => HEAD_LINES + focus,
        _ => rng.index(lines),
    }
}

/// A file as lines, with what is done to it as a whole kept for the end.
struct Text {
    lines: Vec<Vec<u8>>,
    whole: Option<Vec<u8>>,
}

impl Text {
    fn of(frames: &[Frame]) -> Text {
        Text { lines: frames.iter().map(Frame::line).collect(), whole: None }
    }

    fn damage(&mut self, rng: &mut Rng, step: Step, focus: usize) {
        match step {
            Step::Lines => damage_lines(rng, &mut self.lines),
            Step::Line if !self.lines.is_empty() => {
                let at = some_line(rng, self.lines.len(), focus);
                damage_line(rng, &mut self.lines[at]);
            }
            Step::File => {
                let mut whole = self.whole.take().unwrap_or_else(|| self.lines.concat());
                damage_file(rng, &mut whole);
                self.whole = Some(whole);
            }
            _ => {}
        }
    }

    fn file(self) -> Vec<u8> {
        self.whole.unwrap_or_else(|| self.lines.concat())
    }
}

/// Damages record lines after the listing was made: resuming passes over some of them by their 0A only.
fn damage_behind_the_pairs(rng: &mut Rng, unit: &mut Vec<u8>) {
    let mut lines: Vec<Vec<u8>> = unit.split_inclusive(|byte| *byte == b'\n').map(<[u8]>::to_vec).collect();
    if lines.len() <= HEAD_LINES {
        return;
    }
    let mut records = lines.split_off(HEAD_LINES);
    match rng.below(4) {
        0 => records.truncate(rng.index(records.len())),
        1 => damage_lines(rng, &mut records),
        2 => {
            let at = rng.index(records.len());
            damage_line(rng, &mut records[at]);
        }
        _ => {
            let mut joined = records.concat();
            damage_file(rng, &mut joined);
            records = vec![joined];
        }
    }
    lines.extend(records);
    *unit = lines.concat();
}
