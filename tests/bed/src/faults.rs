//! What can be wrong with the splices and the deletions of a read, so that a run can say what its damage has reached.

use oracle::{Bare, Fault, Refusal};

/// Everything that damage is meant to bring about, by name; of splices nothing where the format has none.
pub fn names() -> Vec<String> {
    let has_splices = oracle::Class::I.has_splices();
    let spliced = if has_splices { &[false, true][..] } else { &[false] };
    let mut names: Vec<String> =
        spliced.iter().flat_map(|spliced| bare().map(|bare| bare_name(bare, *spliced))).collect();
    if has_splices {
        names.extend(of_splices().into_iter().map(name));
    }
    names.sort();
    names
}

/// The name of a refusal that is told apart.
pub fn of(refusal: Refusal) -> Option<String> {
    match refusal {
        Refusal::Splices(fault) => Some(name(fault)),
        Refusal::Deletion { bare, spliced } => Some(bare_name(bare, spliced)),
        _ => None,
    }
}

fn bare() -> [Bare; 6] {
    [Bare::Front, Bare::BehindInsertions, Bare::Back, Bare::BeforeInsertions, Bare::BothEnds, Bare::NoBase]
}

fn bare_name(bare: Bare, spliced: bool) -> String {
    let what = match bare {
        Bare::Front => "a deletion at the front",
        Bare::BehindInsertions => "a deletion behind insertions only",
        Bare::Back => "a deletion at the back",
        Bare::BeforeInsertions => "a deletion in front of insertions only",
        Bare::BothEnds => "deletions at both ends",
        Bare::NoBase => "deletions and insertions only",
    };
    let read = if spliced { "a spliced read" } else { "a read in one piece" };
    format!("{:>2}, {what}, {read}", Refusal::Deletion { bare, spliced }.number())
}

fn of_splices() -> Vec<Fault> {
    let reserved = [1, 3, 4, 5, 6, 7].map(Fault::Code);
    let others = [
        Fault::Rcomp,
        Fault::NoPiece,
        Fault::TooManyPieces,
        Fault::EmptyPiece,
        Fault::LengthsBelow,
        Fault::LengthsAbove,
        Fault::NoCode,
        Fault::NoDistance,
        Fault::NoPosition,
        Fault::Distance,
        Fault::LeftClip,
        Fault::RightClip,
        Fault::BelowZero,
        Fault::PastAll,
        Fault::BeforeUnit,
        Fault::BehindUnit,
        Fault::EndsBehindUnit,
        Fault::NoSplice,
        Fault::NegativeSplice,
        Fault::Reference,
    ];
    others.into_iter().chain(reserved).collect()
}

/// The refusal number and what is wrong. Codes that no table has go under one name.
pub fn name(fault: Fault) -> String {
    let what = match fault {
        Fault::Rcomp => "an rcomp without a sign".into(),
        Fault::NoPiece => "no piece".into(),
        Fault::TooManyPieces => "too many pieces".into(),
        Fault::EmptyPiece => "a length of 0".into(),
        Fault::LengthsBelow => "lengths that add up to less".into(),
        Fault::LengthsAbove => "lengths that add up to more".into(),
        Fault::NoCode => "no code left in subsequence 0".into(),
        Fault::NoDistance => "no distance left in subsequence 1".into(),
        Fault::NoPosition => "no position left in subsequence 3".into(),
        Fault::Code(code @ ..=6) => format!("reserved code {code}"),
        Fault::Code(_) => "reserved code above 6".into(),
        Fault::Distance => "a distance that is no u16".into(),
        Fault::LeftClip => "the left clip reaches the first piece's length".into(),
        Fault::RightClip => "the right clip reaches the last piece's length".into(),
        Fault::BelowZero => "a piece starts below 0".into(),
        Fault::PastAll => "a piece starts past the last position of all".into(),
        Fault::BeforeUnit => "a piece starts before the unit".into(),
        Fault::BehindUnit => "a piece starts behind the unit".into(),
        Fault::EndsBehindUnit => "a piece ends behind the unit".into(),
        Fault::NoSplice => "a splice counts 0".into(),
        Fault::NegativeSplice => "a splice counts less than 0".into(),
        Fault::Reference => "a bad reference byte under a later piece".into(),
    };
    format!("{:>2}, {what}", fault.refusal().number())
}
