//! Marks as bits: where each lies, and what marking and clearing leave.

use manik::marks;

#[test]
fn the_room_is_the_length_divided_by_8_rounded_up() {
    let rooms = [(0, 0), (4, 1), (8, 1), (12, 2), (16, 2), (20, 3), (65_532, 8_192)];
    for (length, room) in rooms.into_iter().chain([(65_536, 8_192), (usize::MAX, 1 << 61)]) {
        assert_eq!(marks::room(length), room, "{length}");
    }
}

#[test]
fn the_lowest_address_is_in_the_lowest_bit() {
    for address in 0..16 {
        let mut slice = [0; 2];
        marks::mark(&mut slice, address..address + 1);
        assert_eq!(u16::from_le_bytes(slice), 1 << address);
        assert!((0..16).all(|other| marks::is_marked(&slice, other) == (other == address)));
        let mut slice = [0xff; 2];
        marks::clear(&mut slice, address..address + 1);
        assert_eq!(u16::from_le_bytes(slice), !(1 << address));
        assert!((0..16).all(|other| marks::is_marked(&slice, other) == (other != address)));
    }
}

#[test]
fn others_keep_their_marks() {
    let mut slice = [0x01, 0, 0x80];
    marks::mark(&mut slice, 5..18);
    assert_eq!(slice, [0xe1, 0xff, 0x83]);
    marks::clear(&mut slice, 6..17);
    assert_eq!(slice, [0x21, 0, 0x82]);
    marks::mark(&mut slice, 4..4);
    marks::clear(&mut slice, 0..0);
    assert_eq!(slice, [0x21, 0, 0x82]);
}

#[test]
#[should_panic(expected = "out of bounds")]
fn an_address_without_a_bit_has_no_mark() {
    marks::is_marked(&[0xff], 8);
}
