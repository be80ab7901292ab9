//! Explaining positions by the library, written in Rattle, against the model.

#[macro_use]
mod common;
mod library;

use library::{calls, Library};
use ruffarmoire_model::explain::Unexplained;

explain_suite!(Library);

/// The explanation as an enum, which says itself in a sentence.
#[test]
fn explained_in_sentences() {
    let pattern = [0x06, 0x06, 0x18, 0x06, 0x06];
    let text = [0x06, 0x06, 0x18, 0x06, 0x06, 0x06, 0x18, 0x06, 0x06];
    let (mut order, mut delta2) = ([0; 6], [0; 6]);
    let (mut delta1, mut delta3) = ([0; 256 * 5], [0; 5]);
    let mut explained = |position| {
        let (order, delta2) = (&mut order, &mut delta2);
        let (delta1, delta3) = (&mut delta1, &mut delta3);
        calls::explained(position, &pattern, &text, order, delta2, delta1, delta3)
    };
    let mut said = |position| explained(position).map(|explained| explained.to_string());
    assert_eq!(
        said(0).as_deref(),
        Ok("Listed: the motif is found at chain place 0.")
    );
    assert_eq!(
        said(1).as_deref(),
        Ok(
            "Passed over (after a find): at chain place 0 the motif was found, and from there it \
             was shifted past chain place 1. The earliest look that rules place 1 out was at chain \
             place 3: its card is not that of motif place 2."
        )
    );
    assert_eq!(
        said(3).as_deref(),
        Ok(
            "Tried: the motif was laid at chain place 3, and the look at motif place 3 differed: \
             chain place 6 has another card."
        )
    );
    assert_eq!(
        said(7).as_deref(),
        Ok(
            "Tried: the motif was laid at chain place 7, and the look at motif place 4 differed: \
             chain place 11 (card number 2, over the seam) has another card."
        )
    );
    assert_eq!(
        said(8).as_deref(),
        Ok(
            "Passed over (last card): at chain place 7 the motif differed in its last card, and from \
             there it was shifted past chain place 8. The earliest look that rules place 8 out was at \
             chain place 11 (card number 2, over the seam): its card is not that of motif place 3."
        )
    );
    assert_eq!(said(9), Err(Unexplained::Refused(10)));
    assert_eq!(said(10), Err(Unexplained::Refused(10)));
    assert_eq!(said(u32::MAX), Err(Unexplained::Refused(10)));
}
