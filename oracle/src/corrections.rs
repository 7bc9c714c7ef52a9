//! Corrections that the port makes on purpose, in front of the original.
//!
//! Document 02, No. 3: `{sh home}` gives 93, the code of CLR, where the original
//! gives 53. Everything else in such a text is still compared: the original is
//! given the same text with `$93` in the name's place.

/// The name whose code differs.
const NAME: &str = "sh home";

/// What the original takes for the same byte, and what it takes for the other
/// one: as long as the name, so that nothing else of the text moves.
const AS_BEFORE: &str = "  $53  ";
const CORRECTED: &str = "  $93  ";

/// The text with `$93` in the place of each `sh home` that the original resolves
/// as an escape; nothing if it resolves none.
///
/// Whether it does is asked of the original itself: with `$53` in the name's
/// place the image stays what it was if the name is resolved there. In a remark,
/// in DATA, outside strings or in an unknown escape the bytes themselves come
/// out, and they differ.
pub fn with_clear<F>(text: &str, image: &[u8], crunched: F) -> Option<String>
where
    F: Fn(&str) -> Option<Vec<u8>>,
{
    let mut corrected = text.to_owned();
    for (at, _) in text.to_ascii_lowercase().match_indices(NAME) {
        let place = at..at + NAME.len();
        let mut asked = text.to_owned();
        asked.replace_range(place.clone(), AS_BEFORE);
        if crunched(&asked).as_deref() == Some(image) {
            corrected.replace_range(place, CORRECTED);
        }
    }
    (corrected != text).then_some(corrected)
}
