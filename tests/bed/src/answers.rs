//! What a listing or a resume says in its last line.

/// How an output ends.
#[derive(Clone, Copy, Debug, PartialEq, Eq, PartialOrd, Ord)]
pub enum Ending {
    /// 06: everything listed.
    Complete,
    /// 05: the refusal number.
    Refused(u8),
    /// Nothing that a listing can end with; resuming believes such lines.
    Other,
}

/// The end of a listing, or of what resuming printed.
pub fn ending(output: &[u8]) -> Ending {
    let last = output.strip_suffix(b"\n").unwrap_or(output).rsplit(|byte| *byte == b'\n').next().unwrap_or_default();
    match (last.get(..2), last.len()) {
        (Some(b"06"), 6) => Ending::Complete,
        (Some(b"05"), 8) => number(&last[6..]).map_or(Ending::Other, Ending::Refused),
        _ => Ending::Other,
    }
}

/// The number of a refused resume, which stands alone under ffff.
pub fn resume_refusal(output: &[u8]) -> Option<u8> {
    number(output.strip_prefix(b"05ffff")?.strip_suffix(b"\n")?)
}

fn number(digits: &[u8]) -> Option<u8> {
    u8::from_str_radix(std::str::from_utf8(digits).ok()?, 16).ok()
}
