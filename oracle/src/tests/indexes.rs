//! The model of the line index.

use crate::indexes;

/// Line 10 without a jump, and line 20 with `GOTO 1 0,,30`.
const IMAGE: [u8; 27] = [
    0x01, 0x08, 0x07, 0x08, 10, 0, 0x99, 0, 0x18, 0x08, 20, 0, 0x89, b' ', b'1', b' ', b'0', b',',
    b',', b'3', b'0', b':', 0x80, 0x80, 0, 0, 0,
];

#[test]
fn an_index_is_read_back() {
    let index = indexes::index(&IMAGE).expect("the image has no fault");
    assert_eq!(index.len(), (16 + 2 * 32 + 2 * 29_usize).div_ceil(8));
    assert_eq!(indexes::line_entry(1, &index), Some((10, 2)));
    assert_eq!(indexes::line_entry(2, &index), Some((20, 8)));
    assert_eq!(indexes::line_entry(3, &index), None);
    assert_eq!(indexes::jump_entry(1, &index), Some((2, 10)));
    assert_eq!(indexes::jump_entry(2, &index), Some((2, 30)));
    assert_eq!(indexes::jump_entry(3, &index), None);
    assert_eq!(indexes::look_up(20, &index), Some((2, 8)));
    assert_eq!(indexes::look_up(30, &index), None);
}

#[test]
fn a_report_has_the_jumps_with_no_target() {
    let report = indexes::report(&IMAGE).expect("the image has no fault");
    // 13 bits of 2, 16 bits of 30, three zero bits
    assert_eq!(report, [0x00, 0x10, 0x00, 0xF0]);
}
