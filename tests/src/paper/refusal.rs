//! Document 01, 'Turned away'.

/// A refusal's number; 8 has the place of the first bad run as well, the others have 0.
#[derive(Clone, Copy, Debug, PartialEq)]
pub struct Refusal {
    pub number: u32,
    pub place: u32,
}

/// The conditions that an operation can meet are tested in the order given: the first one's number, or none.
pub fn first_met(conditions: &[(u32, bool)]) -> Result<(), Refusal> {
    match conditions.iter().find(|(_, met)| *met) {
        Some((number, _)) => Err(Refusal {
            number: *number,
            place: 0,
        }),
        None => Ok(()),
    }
}
