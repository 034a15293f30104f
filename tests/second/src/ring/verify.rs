//! Verify (1 to 6, 10 by inspection): change request K8.

use super::inspect::inspect;
use super::recording::whole_recording;
use super::Refusal;

#[derive(Clone, Copy, Debug, PartialEq, Eq)]
pub enum Verified {
    Same,
    /// The first place that differs, in bytes from the recording's first one, which is 0.
    DiffersAt(usize),
}

/// Whether a recording is the one that the ring gives, whole. It may be any bytes, and nothing is asked of them but whether they
/// are the same.
pub fn verify(ring: &[u8], recording: &[u8]) -> Result<Verified, Refusal> {
    inspect(ring)?;
    let given = whole_recording(ring)?;
    Ok(first_difference(&given, recording).map_or(Verified::Same, Verified::DiffersAt))
}

/// Behind its end a recording has no byte. So where one only goes on longer, the first place that differs is the shorter length.
fn first_difference(one: &[u8], other: &[u8]) -> Option<usize> {
    (0..one.len().max(other.len())).find(|place| one.get(*place) != other.get(*place))
}

#[cfg(test)]
mod tests;
