//! What a one-point test must say of the margins of its point.

use crate::faces;
use crate::lent::Lent;
use hornherder::raw::Placing;
use second::region::CLOSED;

/// The greatest margin; the least is its negative.
pub const MOST_MARGIN: i64 = 12_884_770_816;

/// The margin of the point to each face of an accepted call.
pub fn all(lent: &Lent) -> Vec<i64> {
    let faces = lent.faces();
    let margin = |face| faces::margin(face, &lent.point);
    faces.iter().map(margin).collect()
}

/// Asks of a refusal that its other numbers are 0, and of a done answer that the point is inside exactly if each margin is above 0,
/// or 0 at a closed face, and that the margin told is the least.
pub fn hold(lent: &Lent, answer: Placing) {
    if answer.code != 0 {
        let told = (answer.inside, answer.measured, answer.face, answer.margin);
        assert_eq!(told, (0, 0, 0, 0), "refusal of {lent:?}");
        return;
    }
    let margins = all(lent);
    let above = |(margin, mark): (&i64, &u8)| *margin > 0 || *margin == 0 && *mark == CLOSED;
    let inside = margins.iter().zip(&lent.marks).all(above);
    assert_eq!(answer.inside, u8::from(inside), "inside of {lent:?}");
    if margins.is_empty() {
        let told = (answer.measured, answer.face, answer.margin);
        assert_eq!(told, (0, 0, 0), "no faces of {lent:?}");
    } else {
        hold_least(lent, answer, &margins);
    }
}

/// Asks that the margin told is that of the face named, that no face has less, and that none before it has as little.
fn hold_least(lent: &Lent, answer: Placing, margins: &[i64]) {
    let (face, least) = (usize::from(answer.face), answer.margin);
    assert_eq!(answer.measured, 1, "measured of {lent:?}");
    assert_eq!(margins.get(face), Some(&least), "margin of {lent:?}");
    let no_less = margins.iter().all(|margin| *margin >= least);
    assert!(no_less, "a face has less than {least} of {lent:?}");
    let first = margins[..face].iter().all(|margin| *margin > least);
    assert!(first, "a face before {face} has as little of {lent:?}");
    let range = -MOST_MARGIN..=MOST_MARGIN;
    assert!(range.contains(&least), "the range of {lent:?}");
}
