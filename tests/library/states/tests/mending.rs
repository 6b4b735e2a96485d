//! What is wanted of a mending, in numbers: which bytes and rows it sets, and that a refusal sets none.

use states::state::*;
use states::wanted::wanted_mending;

/// An opening, a length of 0, a page call, and a byte that is left.
const FILE: [u8; 15] = [4, 0, 1, 0, 2, 0, 0, 0, 4, 0, 3, 0, 1, 0, 4];
const KEPT: [u8; 12] = [4, 0, 1, 0, 2, 0, 4, 0, 3, 0, 1, 0];
const DROPS: [Row; 2] = [[6, 2, 9], [14, 1, 7]];

/// Rooms of these sizes, with numbers in the rows that only 64 bits hold.
fn rooms(places: usize, rows: usize) -> Rooms {
    Rooms { room: vec![8; places], rows: vec![[u64::MAX; 3]; rows] }
}

#[test]
fn the_first_places_are_set() {
    for (places, rows) in [(12, 2), (13, 2), (12, 3), (15, 8), (20, 20)] {
        let lent = rooms(places, rows);
        let Mending { reply, rooms } = wanted_mending(&FILE, &lent);
        assert_eq!(reply, MendReply { kept: 12, drops: 2, refusal: 0 });
        assert_eq!(rooms.room, [&KEPT[..], &lent.room[12..]].concat());
        assert_eq!(rooms.rows, [&DROPS[..], &lent.rows[2..]].concat());
    }
}

#[test]
fn a_room_that_is_short_stays() {
    for (places, rows) in [(11, 2), (12, 1), (11, 1), (15, 1), (11, 8), (0, 0)] {
        let lent = rooms(places, rows);
        let reply = MendReply { kept: 0, drops: 0, refusal: 12 };
        assert_eq!(wanted_mending(&FILE, &lent), Mending { reply, rooms: lent });
    }
}

#[test]
fn no_bytes_need_no_room() {
    for lent in [rooms(0, 0), rooms(3, 2)] {
        let reply = MendReply::default();
        assert_eq!(wanted_mending(&[], &lent), Mending { reply, rooms: lent });
    }
}
