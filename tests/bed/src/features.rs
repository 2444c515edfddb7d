//! What a unit in order can have in it, so that a run can say what it has covered.

use crate::model::*;
use crate::valid::DELTA_MAX;
use oracle::limits::{EDITS_MAX, PIECES_MAX, READ_LENGTH_MAX, RECORDS_MAX, REFERENCE_MAX, SPLICED_RCOMP_MAX};
use oracle::Class;

pub struct Feature {
    pub name: String,
    pub is_in: Box<dyn Fn(&UnitModel) -> bool>,
}

fn feature(name: impl Into<String>, is_in: impl Fn(&UnitModel) -> bool + 'static) -> Feature {
    Feature { name: name.into(), is_in: Box::new(is_in) }
}

/// Everything that the generator of valid units is meant to bring about.
pub fn features() -> Vec<Feature> {
    let mut features = kinds_of_unit();
    features.extend(pair_codes());
    features.extend(reads());
    features.extend(edits());
    features.extend(deletions());
    features.extend(clips());
    features.extend(positions());
    features.extend(references());
    features.extend(record_counts());
    if Class::I.has_splices() {
        features.extend(splices());
        features.extend(splices_and_edits());
        features.extend(splices_and_deletions());
        features.extend(splices_and_places());
    }
    features
}

fn kinds_of_unit() -> Vec<Feature> {
    let mut features = Vec::new();
    for class in Class::ALL {
        for alphabet in 0..2 {
            for segments in 1..=2 {
                if class == Class::HM && segments == 1 {
                    continue;
                }
                features.push(feature(
                    format!("class {class:?}, alphabet {alphabet}, template segments {segments}"),
                    move |model| {
                        model.class() == class
                            && model.unit.alphabet == alphabet
                            && model.unit.template_segments == segments
                            && !model.records.is_empty()
                    },
                ));
            }
        }
    }
    features
}

fn pair_codes() -> Vec<Feature> {
    let mut features = Vec::new();
    for code in 0..7 {
        features.push(feature(format!("pair code {code}, aligned"), move |model| {
            model.class() != Class::U && codes(model).any(|taken| taken == code)
        }));
        features.push(feature(format!("pair code {code}, class U"), move |model| {
            model.class() == Class::U && codes(model).any(|taken| taken == code)
        }));
    }
    features.push(feature("class U with a sequence id that is no u16", |model| {
        model.class() == Class::U
            && model.symbols[4].iter().chain(&model.symbols[5]).any(|value| *value > u32::from(u16::MAX))
    }));
    features.push(feature("mate at delta 0", |model| deltas(model).any(|value| value >> 1 == 0)));
    features.push(feature("mate at the greatest delta", |model| {
        deltas(model).any(|value| u64::from(value >> 1) == DELTA_MAX)
    }));
    features.push(feature("read1First 0 by the low bit", |model| deltas(model).any(|value| value & 1 == 1)));
    features.push(feature("HM with an odd value", |model| {
        model.class() == Class::HM && model.symbols[1].iter().any(|value| value & 1 == 1)
    }));
    features
}

/// The pair codes of all records: each one's first symbol of subsequence 0.
fn codes(model: &UnitModel) -> impl Iterator<Item = u32> + '_ {
    let paired = model.unit.template_segments == 2 && model.class() != Class::HM;
    let records = model.records.iter().filter(move |_| paired);
    records.filter_map(|record| model.symbols[0].get(usize::from(record.before[0])).copied())
}

/// The values of subsequence 1 that say how far behind the mate lies: of a record of two aligned segments the first.
fn deltas(model: &UnitModel) -> impl Iterator<Item = u32> + '_ {
    let records = model.records.iter().filter(|_| !matches!(model.class(), Class::HM | Class::U));
    records
        .filter(|record| record.blocks.len() == 2)
        .filter_map(|record| model.symbols[1].get(usize::from(record.before[1])).copied())
}

fn blocks(model: &UnitModel) -> impl Iterator<Item = &BlockModel> {
    model.records.iter().flat_map(|record| &record.blocks)
}

fn aligned(model: &UnitModel) -> impl Iterator<Item = &AlignedModel> {
    blocks(model).filter_map(|block| match block {
        BlockModel::Aligned(block) => Some(block),
        BlockModel::Unaligned(_) => None,
    })
}

fn any_aligned(name: &str, holds: impl Fn(&AlignedModel) -> bool + 'static) -> Feature {
    feature(name, move |model| aligned(model).any(&holds))
}

fn reads() -> Vec<Feature> {
    let length = |block: &BlockModel| match block {
        BlockModel::Aligned(block) => block.length,
        BlockModel::Unaligned(block) => block.length,
    };
    vec![
        feature("an aligned read of one base", |model| aligned(model).any(|block| block.length == 1)),
        feature("an aligned read of the longest length", |model| {
            aligned(model).any(|block| block.length == READ_LENGTH_MAX)
        }),
        feature("an unaligned read of one base", move |model| {
            model.class() == Class::U && blocks(model).any(|block| length(block) == 1)
        }),
        feature("an unaligned read of the longest length", move |model| {
            model.class() == Class::U && blocks(model).any(|block| length(block) == READ_LENGTH_MAX)
        }),
        any_aligned("rcomp 1", |block| block.rcomp == 1),
    ]
}

/// Two neighbouring edits of these types, the second so many bases behind the first.
fn neighbours(name: &str, first: u8, second: u8, behind: u16) -> Feature {
    any_aligned(name, move |block| {
        block
            .edits
            .windows(2)
            .any(|two| two[0].kind == first && two[1].kind == second && two[1].offset == two[0].offset + behind)
    })
}

fn edits() -> Vec<Feature> {
    vec![
        any_aligned("no edit", |block| block.edits.is_empty()),
        any_aligned("as many edits as there may be", |block| block.edits.len() == usize::from(EDITS_MAX)),
        any_aligned("a substitution of the first base", |block| {
            block.edits.first().is_some_and(|edit| edit.kind == SUBSTITUTION && edit.offset == 0)
        }),
        any_aligned("a substitution of the last base", |block| {
            block
                .edits
                .last()
                .is_some_and(|edit| edit.kind == SUBSTITUTION && u64::from(edit.offset) + 1 == block.mapped())
        }),
        any_aligned("insertions only, nothing taken", |block| block.taken() == 0),
        neighbours("substitutions side by side", SUBSTITUTION, SUBSTITUTION, 1),
        neighbours("insertions that join", INSERTION, INSERTION, 1),
        neighbours("insertions one base apart", INSERTION, INSERTION, 2),
        neighbours("deletions that join", DELETION, DELETION, 0),
        neighbours("deletions one base apart", DELETION, DELETION, 1),
        neighbours("deletion, substitution at its offset", DELETION, SUBSTITUTION, 0),
        neighbours("deletion, insertion at its offset", DELETION, INSERTION, 0),
        neighbours("insertion, deletion behind it", INSERTION, DELETION, 1),
        neighbours("substitution, deletion behind it", SUBSTITUTION, DELETION, 1),
        feature("a substitution by the letter of index 15", |model| {
            aligned(model).any(|block| block.edits.iter().any(|edit| edit.kind == SUBSTITUTION && edit.symbol == 15))
        }),
    ]
}

/// A read that has a match or a substitution, and what of it matters for where deletions may stand.
struct Ends<'a> {
    block: &'a AlignedModel,
    mapped: u64,
    /// The first and the last base that is a match or a substitution.
    first: u64,
    last: u64,
    borders: Vec<u64>,
    /// How many bases before each offset are inserted.
    inserted_before: Vec<u64>,
}

impl Ends<'_> {
    fn of(block: &AlignedModel) -> Option<Ends<'_>> {
        let mapped = block.mapped();
        let (first, last) = block.aligned_ends()?;
        let mut inserted_before = vec![0; mapped as usize + 1];
        for edit in block.edits.iter().filter(|edit| edit.kind == INSERTION) {
            inserted_before[usize::from(edit.offset) + 1] = 1;
        }
        for offset in 1..inserted_before.len() {
            inserted_before[offset] += inserted_before[offset - 1];
        }
        Some(Ends { block, mapped, first, last, borders: block.borders(), inserted_before })
    }

    /// The offsets at which something is deleted.
    fn deletions(&self) -> impl Iterator<Item = u64> + '_ {
        self.block.edits.iter().filter(|edit| edit.kind == DELETION).map(|edit| u64::from(edit.offset))
    }

    fn is_substituted(&self, offset: u64) -> bool {
        self.block.edits.iter().any(|edit| edit.kind == SUBSTITUTION && u64::from(edit.offset) == offset)
    }

    /// Whether there are bases from one offset to another, all of them inserted.
    fn is_inserted(&self, from: u64, to: u64) -> bool {
        from < to && self.inserted_before[to as usize] - self.inserted_before[from as usize] == to - from
    }

    /// Right behind the first base that is not inserted, or right in front of the last.
    fn behind_first(&self, at: u64) -> bool {
        at == self.first + 1
    }

    fn before_last(&self, at: u64) -> bool {
        at == self.last
    }

    fn at_border(&self, at: u64) -> bool {
        self.borders.contains(&at)
    }
}

/// Whether this holds of some deletion of the block, told its offset.
fn has_deletion(block: &AlignedModel, holds: impl Fn(&Ends, u64) -> bool) -> bool {
    Ends::of(block).is_some_and(|read| read.deletions().any(|at| holds(&read, at)))
}

fn any_deletion(name: &str, holds: impl Fn(&Ends, u64) -> bool + 'static) -> Feature {
    any_aligned(name, move |block| has_deletion(block, &holds))
}

/// As near to the ends of a read as deletions may stand.
fn deletions() -> Vec<Feature> {
    vec![
        any_deletion("a deletion right behind the first base", |r, at| r.behind_first(at) && r.first == 0),
        any_deletion("a deletion right in front of the last base", |r, at| r.before_last(at) && r.last + 1 == r.mapped),
        any_deletion("a deletion behind a substituted first base", |r, at| r.behind_first(at) && r.is_substituted(0)),
        any_deletion("a deletion in front of a substituted last base", |r, at| {
            r.before_last(at) && r.is_substituted(r.mapped - 1)
        }),
        any_deletion("a deletion with insertions and one base before it", |r, at| r.behind_first(at) && r.first > 0),
        any_deletion("a deletion with one base and insertions behind it", |r, at| {
            r.before_last(at) && r.last + 1 < r.mapped
        }),
        any_deletion("a deletion with one base and insertions before it", |r, at| r.is_inserted(r.first + 1, at)),
        any_deletion("a deletion with insertions and one base behind it", |r, at| r.is_inserted(at, r.last)),
        any_deletion("a deletion between the only two bases", |r, at| r.behind_first(at) && r.before_last(at)),
        any_deletion("a deletion behind a soft clip and one base", |r, at| r.block.clips[0] > 0 && r.behind_first(at)),
        any_deletion("a deletion in front of one base and a soft clip", |r, at| {
            r.block.clips[2] > 0 && r.before_last(at)
        }),
        any_aligned("deletions behind the first base and in front of the last", |block| {
            has_deletion(block, |r, at| r.behind_first(at) && !r.before_last(at))
                && has_deletion(block, |r, at| r.before_last(at) && !r.behind_first(at))
        }),
        any_aligned("two bases and as many edits as there may be", |block| {
            block.mapped() == 2 && block.edits.len() == usize::from(EDITS_MAX)
        }),
        feature("a deletion right behind the first base, class HM", |model| {
            model.class() == Class::HM && aligned(model).any(|block| has_deletion(block, |r, at| r.behind_first(at)))
        }),
        feature("a deletion right in front of the last base, second segment", |model| {
            let second = |record: &RecordModel| match record.blocks.get(1) {
                Some(BlockModel::Aligned(block)) => has_deletion(block, |r, at| r.before_last(at)),
                _ => false,
            };
            model.records.iter().any(second)
        }),
    ]
}

fn clips() -> Vec<Feature> {
    vec![
        any_aligned("left soft clip alone", |block| block.clips[0] > 0 && block.clips[1] == 0),
        any_aligned("left hard clip alone", |block| block.clips[0] == 0 && block.clips[1] > 0),
        any_aligned("left soft and hard clip", |block| block.clips[0] > 0 && block.clips[1] > 0),
        any_aligned("right soft clip alone", |block| block.clips[2] > 0 && block.clips[3] == 0),
        any_aligned("right hard clip alone", |block| block.clips[2] == 0 && block.clips[3] > 0),
        any_aligned("right soft and hard clip", |block| block.clips[2] > 0 && block.clips[3] > 0),
        any_aligned("soft clips on both sides", |block| block.clips[0] > 0 && block.clips[2] > 0),
        any_aligned("a hard clip of five digits", |block| block.clips[0] == 0 && block.clips[1] == u16::MAX),
        any_aligned("soft clips that leave one base", |block| block.length > 1 && block.mapped() == 1),
    ]
}

/// A first segment with its record's position, in a unit of aligned class.
fn first_segments(model: &UnitModel) -> impl Iterator<Item = (u64, &AlignedModel)> {
    model.records.iter().filter_map(|record| match record.blocks.first() {
        Some(BlockModel::Aligned(block)) => Some((u64::from(record.pos), block)),
        _ => None,
    })
}

fn positions() -> Vec<Feature> {
    vec![
        feature("a segment at position 0", |model| first_segments(model).any(|(pos, _)| pos == 0)),
        feature("a segment at the last position of all", |model| {
            first_segments(model).any(|(pos, _)| pos == u64::from(u32::MAX))
        }),
        feature("AU end at the last position of all", |model| model.unit.au_end == u32::MAX),
        feature("a unit of one position", |model| model.unit.au_start == model.unit.au_end),
        feature("a unit over all positions", |model| model.unit.au_start == 0 && model.unit.au_end == u32::MAX),
        feature("a segment that ends at AU end", |model| {
            first_segments(model).any(|(pos, block)| pos + block.reach() == u64::from(model.unit.au_end) + 1)
        }),
    ]
}

fn references() -> Vec<Feature> {
    let first = |model: &UnitModel| u64::from(model.unit.first);
    let end = move |model: &UnitModel| first(model) + model.reference.len() as u64;
    vec![
        feature("an empty reference", |model| model.reference.is_empty()),
        feature("the longest reference", |model| model.reference.len() == REFERENCE_MAX),
        feature("a reference that starts late", |model| {
            !model.reference.is_empty() && model.unit.first > model.unit.au_start
        }),
        feature("a reference that starts before the unit", |model| {
            !model.reference.is_empty() && model.unit.first < model.unit.au_start
        }),
        feature("a reference that ends early", move |model| {
            !model.reference.is_empty() && end(model) <= u64::from(model.unit.au_end)
        }),
        feature("a reference past the last position of all", move |model| end(model) > u64::from(u32::MAX) + 1),
        feature("a segment over the start of the reference", move |model| {
            !model.reference.is_empty()
                && first_segments(model).any(|(pos, block)| pos < first(model) && first(model) < pos + block.taken())
        }),
        feature("a segment over the end of the reference", move |model| {
            !model.reference.is_empty()
                && first_segments(model).any(|(pos, block)| pos < end(model) && end(model) < pos + block.taken())
        }),
    ]
}

fn record_counts() -> Vec<Feature> {
    vec![
        feature("no record", |model| model.records.is_empty()),
        feature("one record", |model| model.records.len() == 1),
        feature("more than 60 records", |model| model.records.len() > 60),
        feature("as many records as there may be", |model| model.records.len() == usize::from(RECORDS_MAX)),
    ]
}

/// Blocks of several pieces.
fn spliced(model: &UnitModel) -> impl Iterator<Item = &AlignedModel> {
    aligned(model).filter(|block| block.is_spliced())
}

fn any_spliced(name: impl Into<String>, holds: impl Fn(&AlignedModel) -> bool + 'static) -> Feature {
    feature(name, move |model| spliced(model).any(&holds))
}

/// The symbols of a block from one subsequence.
fn symbols_of<'a>(model: &'a UnitModel, block: &'a AlignedModel, from: usize) -> impl Iterator<Item = u32> + 'a {
    let places = block.splices.iter().filter(move |place| place.subsequence == from);
    places.map(move |place| model.symbols[from][place.index])
}

fn any_symbol(name: &str, from: usize, holds: impl Fn(u32) -> bool + 'static) -> Feature {
    feature(name, move |model| spliced(model).any(|block| symbols_of(model, block, from).any(&holds)))
}

fn splices() -> Vec<Feature> {
    let greatest = 2 * DELTA_MAX as u32;
    let mut features: Vec<Feature> = (2..=PIECES_MAX)
        .map(|number| any_spliced(format!("{number} pieces"), move |block| block.piece_count == number))
        .collect();
    for class in [Class::I, Class::HM] {
        for rcomp in 0..=SPLICED_RCOMP_MAX {
            features.push(feature(format!("class {class:?}, a splice of rcomp {rcomp}"), move |model| {
                model.class() == class && spliced(model).any(|block| block.rcomp == rcomp)
            }));
        }
    }
    features.extend([
        any_aligned("one piece with rcomp 2", |block| !block.is_spliced() && block.rcomp == 2),
        feature("two spliced segments in a record", |model| {
            let is_spliced = |block: &BlockModel| matches!(block, BlockModel::Aligned(block) if block.is_spliced());
            model.records.iter().any(|record| record.blocks.len() == 2 && record.blocks.iter().all(is_spliced))
        }),
        feature("one template segment, spliced", |model| {
            model.unit.template_segments == 1 && spliced(model).next().is_some()
        }),
        feature("pair code 2 and a splice by position", |model| {
            model.class() == Class::I
                && codes(model).any(|code| code == 2)
                && spliced(model).any(|block| symbols_of(model, block, 3).next().is_some())
        }),
        any_symbol("a splice by position", 3, |_| true),
        any_symbol("a distance with plus", 1, |value| value & 1 == 0 && value > 0),
        any_symbol("a distance with minus", 1, |value| value & 1 == 1 && value > 1),
        any_symbol("a distance of plus 0", 1, |value| value == 0),
        any_symbol("a distance of minus 0", 1, |value| value == 1),
        any_symbol("the greatest distance", 1, move |value| value == greatest),
        feature("both codes in a read", |model| {
            spliced(model).any(|block| [1, 3].iter().all(|from| symbols_of(model, block, *from).next().is_some()))
        }),
    ]);
    features
}

/// Edits of one type at an offset beside a border: so many bases behind where a piece begins.
fn beside_a_border(name: &str, kind: u8, behind: i64) -> Feature {
    any_spliced(name, move |block| {
        let borders = block.borders();
        let at = |edit: &EditModel| borders.iter().any(|border| i64::from(edit.offset) == *border as i64 + behind);
        block.edits.iter().any(|edit| edit.kind == kind && at(edit))
    })
}

/// Two edits of one type that would be one run but for the border between them.
fn over_a_border(name: &str, kind: u8) -> Feature {
    any_spliced(name, move |block| {
        let has = |offset: u64| block.edits.iter().any(|edit| edit.kind == kind && u64::from(edit.offset) == offset);
        block.borders().iter().any(|border| has(border - 1) && has(*border))
    })
}

fn splices_and_edits() -> Vec<Feature> {
    vec![
        beside_a_border("an insertion in front of a splice", INSERTION, -1),
        beside_a_border("an insertion behind a splice", INSERTION, 0),
        beside_a_border("a deletion right at a border", DELETION, 0),
        beside_a_border("a deletion one base in front of a border", DELETION, -1),
        beside_a_border("a substitution in front of a splice", SUBSTITUTION, -1),
        beside_a_border("a substitution behind a splice", SUBSTITUTION, 0),
        over_a_border("insertions on both sides of a splice", INSERTION),
        over_a_border("substitutions on both sides of a splice", SUBSTITUTION),
        any_spliced("two deletions right at a border", |block| {
            let joined =
                |two: &[EditModel]| two.iter().all(|edit| edit.kind == DELETION) && two[0].offset == two[1].offset;
            let borders = block.borders();
            block.edits.windows(2).any(|two| joined(two) && borders.contains(&u64::from(two[0].offset)))
        }),
        any_spliced("a spliced read without edits", |block| block.edits.is_empty()),
        any_spliced("a first piece of insertions only", |block| block.taken_by_pieces().first() == Some(&0)),
        any_spliced("a last piece of insertions only", |block| block.taken_by_pieces().last() == Some(&0)),
        any_spliced("a piece of insertions only", |block| block.taken_by_pieces().contains(&0)),
        any_spliced("a piece that takes more than its read bases", |block| {
            block.taken_by_pieces().iter().zip(&block.pieces).any(|(taken, length)| *taken > u64::from(*length))
        }),
        any_spliced("a piece that takes less than its read bases", |block| {
            block.taken_by_pieces().iter().zip(&block.pieces).any(|(taken, length)| *taken < u64::from(*length))
        }),
        any_spliced("left soft clip of a spliced read", |block| block.clips[0] > 0),
        any_spliced("right soft clip of a spliced read", |block| block.clips[2] > 0),
        any_spliced("hard clips on both sides of a spliced read", |block| {
            block.clips[0] == 0 && block.clips[2] == 0 && block.clips[1] > 0 && block.clips[3] > 0
        }),
        any_spliced("a left soft clip that leaves a piece one base", |block| {
            block.clips[0] > 0 && block.clips[0] + 1 == block.pieces[0]
        }),
        any_spliced("a right soft clip that leaves a piece one base", |block| {
            block.clips[2] > 0 && block.pieces.last().is_some_and(|length| block.clips[2] + 1 == *length)
        }),
    ]
}

fn any_spliced_deletion(name: &str, holds: impl Fn(&Ends, u64) -> bool + 'static) -> Feature {
    any_spliced(name, move |block| has_deletion(block, &holds))
}

/// The base before a deletion, or the one behind it, lies in another piece, or the only one does.
fn splices_and_deletions() -> Vec<Feature> {
    let first_border = |r: &Ends| r.borders.first().copied().unwrap_or(0);
    let last_border = |r: &Ends| r.borders.last().copied().unwrap_or(0);
    vec![
        any_spliced_deletion("a deletion right behind the first base of a spliced read", |r, at| r.behind_first(at)),
        any_spliced_deletion("a deletion right in front of the last base of a spliced read", |r, at| r.before_last(at)),
        any_spliced_deletion("a deletion at a border behind a first piece of one base", |r, at| {
            r.at_border(at) && r.behind_first(at) && r.first == 0
        }),
        any_spliced_deletion("a deletion at a border behind a first piece of insertions and one base", move |r, at| {
            at == first_border(r) && r.behind_first(at) && r.first > 0
        }),
        any_spliced_deletion(
            "a deletion at a border in front of a last piece of one base and insertions",
            move |r, at| at == last_border(r) && r.before_last(at) && r.last + 1 < r.mapped,
        ),
        any_spliced_deletion("a deletion behind a first piece of insertions and a base of the second", move |r, at| {
            r.first == first_border(r) && r.behind_first(at)
        }),
        any_spliced_deletion("a deletion in front of a base and a last piece of insertions", move |r, at| {
            r.last + 1 == last_border(r) && r.before_last(at)
        }),
        any_spliced_deletion("a deletion with only insertions before it in its own piece", |r, at| {
            r.borders.iter().any(|border| r.is_inserted(*border, at))
        }),
        any_spliced_deletion("a deletion with only insertions behind it in its own piece", |r, at| {
            r.borders.iter().any(|border| r.is_inserted(at, *border))
        }),
        any_spliced_deletion("a deletion at a border between the only two bases", |r, at| {
            r.at_border(at) && r.behind_first(at) && r.before_last(at)
        }),
    ]
}

/// What the splices of a block count.
fn counts(block: &AlignedModel) -> impl Iterator<Item = u64> + '_ {
    let taken = block.taken_by_pieces();
    block.starts.windows(2).zip(taken).map(|(two, taken)| two[1] - two[0] - taken)
}

/// The pieces behind the first of first segments: where each starts and where it ends.
fn later_pieces(model: &UnitModel) -> impl Iterator<Item = (u64, u64)> + '_ {
    first_segments(model).flat_map(|(pos, block)| {
        let pieces = block.starts.iter().zip(block.taken_by_pieces());
        let places: Vec<_> = pieces.skip(1).map(|(start, taken)| (pos + start, pos + start + taken)).collect();
        places
    })
}

fn splices_and_places() -> Vec<Feature> {
    let first = |model: &UnitModel| u64::from(model.unit.first);
    let end = move |model: &UnitModel| first(model) + model.reference.len() as u64;
    vec![
        any_spliced("a splice that counts 1", |block| counts(block).any(|count| count == 1)),
        any_spliced("a splice of five digits or more", |block| counts(block).any(|count| count >= 10_000)),
        any_spliced("a splice of ten digits", |block| counts(block).any(|count| count >= 1_000_000_000)),
        any_spliced("a read over all that there is", |block| block.reach() > 4_200_000_000),
        feature("a later piece that ends at AU end", |model| {
            later_pieces(model).any(|(_, end)| end == u64::from(model.unit.au_end) + 1)
        }),
        feature("a later piece inside the lent reference", move |model| {
            later_pieces(model).any(|(from, to)| first(model) <= from && from < to && to <= end(model))
        }),
        feature("a later piece over the start of the reference", move |model| {
            later_pieces(model).any(|(from, to)| from < first(model) && first(model) < to)
        }),
        feature("a later piece over the end of the reference", move |model| {
            later_pieces(model).any(|(from, to)| from < end(model) && end(model) < to)
        }),
        feature("a later piece outside the reference", move |model| {
            later_pieces(model).any(|(from, to)| from < to && (to <= first(model) || end(model) <= from))
        }),
    ]
}
