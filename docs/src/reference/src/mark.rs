//! Marks, for the fast filling: the nearest of the cuts that violate a point,
//! as one number. Not to be mixed up with the mark of a point on the skin,
//! which is a state byte ([`crate::state::ON_SKIN`]).
//!
//! A mark is the cut's squared distance times 16, plus the code that names it
//! at the point. So the least of several marks is that of the nearest cut and,
//! if several are as near, the one of the lowest code (request F-2 of document
//! 02). Which bytes violate is hard to foresee, so marks come out of a table
//! instead of branches; the table is made by the test of violation.

use crate::cut::{violation, End};

/// The mark of a point that no cut violates; above all others.
pub const UNMARKED: u32 = u32::MAX;

/// The mark of a cut byte at code n + 1, for n from 0 to 13.
pub static MARKS: [[u32; 256]; 14] = table_of_marks();

const fn table_of_marks() -> [[u32; 256]; 14] {
    let mut marks = [[UNMARKED; 256]; 14];
    let mut n = 0;
    while n < 14 {
        let end = if n < 7 { End::Start } else { End::Far };
        let mut t = 0;
        while t < 256 {
            if let Some(distance) = violation(t as u8, n % 7, end) {
                marks[n][t] = distance << 4 | (n as u32 + 1);
            }
            t += 1;
        }
        n += 1;
    }
    marks
}

/// The code in a mark, if a cut violates the point.
pub fn code_of_mark(mark: u32) -> Option<u8> {
    (mark != UNMARKED).then_some(mark as u8 & 15)
}

#[cfg(test)]
mod tests {
    use super::*;

    #[test]
    fn marks_hold_distance_and_code() {
        assert_eq!(code_of_mark(UNMARKED), None);
        for (n, row) in MARKS.iter().enumerate() {
            let end = if n < 7 { End::Start } else { End::Far };
            for (t, &mark) in row.iter().enumerate() {
                let distance = violation(t as u8, n % 7, end);
                assert_eq!(code_of_mark(mark), distance.map(|_| n as u8 + 1));
                assert_eq!((mark != UNMARKED).then_some(mark >> 4), distance);
            }
        }
    }
}
