//! State bytes: what the state table says of a point.
//!
//! Follows document 01, "Moving points": a code from 1 to 14 for a point that
//! moved, or 0 for one that did not; and request F-8 of document 02, "Mark
//! points that lie on the skin unmoved": a point "with label zero from the
//! start" has 15. Its place is its own, and it is no move.

/// The state byte of a point that lies on the skin unmoved: its label is zero
/// from the start, as its sample is zero or in the band. The largest byte that
/// can be believed: "9 begins above 15".
pub const ON_SKIN: u8 = 15;

/// Whether a state byte is a move: "M now counts codes 1 to 14".
pub const fn is_move(code: u8) -> bool {
    matches!(code, 1..=14)
}

/// M of a state table: how many points moved.
pub fn count_moves(state: &[u8]) -> usize {
    state.iter().filter(|&&code| is_move(code)).count()
}

#[cfg(test)]
mod tests {
    use super::*;

    #[test]
    fn fourteen_bytes_are_moves() {
        let bytes: Vec<u8> = (0..=255).collect();
        let moves: Vec<u8> = bytes.iter().copied().filter(|&b| is_move(b)).collect();
        assert_eq!(moves, [1, 2, 3, 4, 5, 6, 7, 8, 9, 10, 11, 12, 13, 14]);
        assert_eq!(count_moves(&bytes), 14);
        assert!(!is_move(ON_SKIN) && is_move(ON_SKIN - 1));
    }
}
