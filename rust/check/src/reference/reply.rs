//! What a call replies: section 6's numbers.

/// A refusal's number; 13 also has its place.
#[derive(Clone, Copy, PartialEq, Eq, Debug)]
pub struct Refusal {
    pub number: u32,
    pub place: Option<usize>,
}

/// Accepted: begin's number, the value of read and lookup (absent is `None`), list's count; nothing for the others.
pub type Reply = Result<Option<u64>, Refusal>;

/// One test of section 6; a call makes its tests in the order given there.
pub fn refuse(number: u32, applies: bool) -> Result<(), Refusal> {
    if applies {
        return Err(Refusal { number, place: None });
    }
    Ok(())
}
