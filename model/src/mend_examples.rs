//! Damaged files in the lines of `text`, with what is kept of them and what is dropped, worked out by
//! hand from K7 of document 02. An opening, a page call and a turn have 6 bytes, an entry call 10.

pub struct Example {
    pub name: &'static str,
    pub file: &'static str,
    pub kept: &'static str,
    pub dropped: &'static str,
}

pub const EXAMPLES: [Example; 49] = [
    Example { name: "no bytes", file: "", kept: "", dropped: "" },
    // The days of document 01.
    Example {
        name: "day A",
        file: include_str!("../../samples/a.txt"),
        kept: "open 1\nentry 1 7\nturn 1 x3\npage 1\nturn 1 x2",
        dropped: "dropped 6 at 52 refused 4\n",
    },
    Example {
        name: "day B",
        file: include_str!("../../samples/b.txt"),
        kept: include_str!("../../samples/b.txt"),
        dropped: "",
    },
    Example {
        name: "day C",
        file: include_str!("../../samples/c.txt"),
        kept: include_str!("../../samples/c.txt"),
        dropped: "",
    },
    Example {
        name: "day D",
        file: include_str!("../../samples/d.txt"),
        kept: include_str!("../../samples/d.txt"),
        dropped: "",
    },
    Example {
        name: "day E",
        file: include_str!("../../samples/e.txt"),
        kept: "open 8",
        dropped: "",
    },
    Example {
        name: "day F",
        file: include_str!("../../samples/f.txt"),
        kept: "",
        dropped: "dropped 6 at 0 refused 1\ndropped 6 at 6 refused 1\n",
    },
    Example {
        name: "day G",
        file: include_str!("../../samples/g.txt"),
        kept: "open 2",
        dropped: "dropped 6 at 6 refused 2\ndropped 6 at 12 refused 2\n",
    },
    Example {
        name: "day H",
        file: include_str!("../../samples/h.txt"),
        kept: include_str!("../../samples/h.txt"),
        dropped: "",
    },
    Example {
        name: "day J",
        file: include_str!("../../samples/j.txt"),
        kept: "open 1\npage 1\nturn 1 x2",
        dropped: "dropped 6 at 18 refused 3\ndropped 10 at 24 refused 3\n",
    },
    // Its small examples of 7, 8 and 9.
    Example { name: "one byte", file: "raw 04", kept: "", dropped: "dropped 1 at 0 refused 7\n" },
    Example {
        name: "kind 9, length 4",
        file: "raw 04 00 09 00 01 00",
        kept: "",
        dropped: "dropped 6 at 0 refused 8\n",
    },
    Example {
        name: "kind 2, length 4",
        file: "raw 04 00 02 00 01 00",
        kept: "",
        dropped: "dropped 6 at 0 refused 9\n",
    },
    // 8, and reading goes on behind it.
    Example {
        name: "an unknown kind of length 4",
        file: "open 1\nraw 04 00 09 00 01 00\npage 1\nturn 1 x2",
        kept: "open 1\npage 1\nturn 1 x2",
        dropped: "dropped 6 at 6 refused 8\n",
    },
    Example {
        name: "an unknown kind of length 5",
        file: "open 1\nraw 05 00 00 00 01 00 09\npage 1\nturn 1 x2",
        kept: "open 1\npage 1\nturn 1 x2",
        dropped: "dropped 7 at 6 refused 8\n",
    },
    Example {
        name: "an unknown kind of length 8",
        file: "open 1\npage 1\nraw 08 00 05 00 01 00 07 00 00 00\nturn 1 x2",
        kept: "open 1\npage 1\nturn 1 x2",
        dropped: "dropped 10 at 12 refused 8\n",
    },
    // 9 for the kind.
    Example {
        name: "an entry call of length 4",
        file: "open 2\npage 1\nraw 04 00 02 00 01 00\nturn 1",
        kept: "open 2\npage 1\nturn 1",
        dropped: "dropped 6 at 12 refused 9\n",
    },
    Example {
        name: "a turn of length 8 that has its bytes",
        file: "open 1\npage 1\nraw 08 00 04 00 01 00 04 00 04 00\nturn 1",
        kept: "open 1\npage 1\nturn 1",
        dropped: "dropped 10 at 12 refused 9\n",
    },
    // The length takes 04 00 04 00 from the next turn, and 01 00 is left of it; then 01 00 takes 04,
    // and 00 04 says 1,024.
    Example {
        name: "a turn of length 8 that takes the bytes of the next",
        file: "open 1\npage 1\nraw 08 00 04 00 01 00\nturn 1 x2",
        kept: "open 1\npage 1",
        dropped:
            "dropped 10 at 12 refused 9\ndropped 3 at 22 refused 9\ndropped 5 at 25 refused 9\n",
    },
    // 9 for a length outside 4 to 8.
    Example {
        name: "length 0",
        file: "open 1\nraw 00 00\npage 1",
        kept: "open 1\npage 1",
        dropped: "dropped 2 at 6 refused 9\n",
    },
    Example {
        name: "length 0 twice",
        file: "open 1\nraw 00 00 00 00\npage 1",
        kept: "open 1\npage 1",
        dropped: "dropped 2 at 6 refused 9\ndropped 2 at 8 refused 9\n",
    },
    Example {
        name: "lengths 1, 2 and 3",
        file: "open 1\nraw 01 00 aa\nraw 02 00 aa bb\nraw 03 00 aa bb cc\npage 1",
        kept: "open 1\npage 1",
        dropped: "dropped 3 at 6 refused 9\ndropped 4 at 9 refused 9\ndropped 5 at 13 refused 9\n",
    },
    Example {
        name: "length 9",
        file: "open 1\nraw 09 00 04 00 04 00 01 00 04 00 04\npage 1",
        kept: "open 1\npage 1",
        dropped: "dropped 11 at 6 refused 9\n",
    },
    // The page call and 04 00 04 of the turn; 00 01 says 256.
    Example {
        name: "length 9 before records",
        file: "open 1\nraw 09 00\npage 1\nturn 1",
        kept: "open 1",
        dropped: "dropped 11 at 6 refused 9\ndropped 3 at 17 refused 9\n",
    },
    Example {
        name: "a length that skips two turns",
        file: "open 1\npage 1\nraw 0c 00\nturn 1 x2\nturn 1",
        kept: "open 1\npage 1\nturn 1",
        dropped: "dropped 14 at 12 refused 9\n",
    },
    Example {
        name: "length 65,534, all there",
        file: "open 1\nraw fe ff\nraw 04 x65534\npage 1",
        kept: "open 1\npage 1",
        dropped: "dropped 65536 at 6 refused 9\n",
    },
    Example {
        name: "length 65,535, all there",
        file: "open 1\nraw ff ff\nraw 04 x65535\npage 1",
        kept: "open 1\npage 1",
        dropped: "dropped 65537 at 6 refused 9\n",
    },
    // "or all that is left if fewer"
    Example {
        name: "length 65,535, one byte missing",
        file: "open 1\nraw ff ff\nraw 04 x65534",
        kept: "open 1",
        dropped: "dropped 65536 at 6 refused 9\n",
    },
    Example {
        name: "length 65,535, three records left",
        file: "open 1\nraw ff ff\npage 1\nturn 1 x2",
        kept: "open 1",
        dropped: "dropped 20 at 6 refused 9\n",
    },
    Example {
        name: "a length of just what is left",
        file: "open 1\nraw 0c 00\nturn 1 x2",
        kept: "open 1",
        dropped: "dropped 14 at 6 refused 9\n",
    },
    Example {
        name: "a length of one more",
        file: "open 1\nraw 0d 00\nturn 1 x2",
        kept: "open 1",
        dropped: "dropped 14 at 6 refused 9\n",
    },
    Example {
        name: "a length of one fewer",
        file: "open 1\nraw 0b 00\nturn 1 x2",
        kept: "open 1",
        dropped: "dropped 13 at 6 refused 9\ndropped 1 at 19 refused 7\n",
    },
    Example {
        name: "length 3, two bytes left",
        file: "open 1\nraw 03 00 aa bb",
        kept: "open 1",
        dropped: "dropped 4 at 6 refused 9\n",
    },
    Example {
        name: "length 1, none left",
        file: "open 1\nraw 01 00",
        kept: "open 1",
        dropped: "dropped 2 at 6 refused 9\n",
    },
    // "on 7 drop the rest"
    Example {
        name: "a stray byte at the end",
        file: "open 1\npage 1\nraw 00",
        kept: "open 1\npage 1",
        dropped: "dropped 1 at 12 refused 7\n",
    },
    Example {
        name: "two stray bytes at the end",
        file: "open 1\npage 1\nraw 04 00",
        kept: "open 1\npage 1",
        dropped: "dropped 2 at 12 refused 7\n",
    },
    Example {
        name: "an entry call without its last byte",
        file: "open 1\nraw 08 00 02 00 01 00 07 00 00",
        kept: "open 1",
        dropped: "dropped 9 at 6 refused 7\n",
    },
    Example {
        name: "an unknown kind whose body is short",
        file: "open 1\nraw 05 00 09 00 01 00",
        kept: "open 1",
        dropped: "dropped 6 at 6 refused 7\n",
    },
    Example {
        name: "a turn for one call too few, and a byte",
        file: "open 1\nturn 1\nraw 08",
        kept: "open 1",
        dropped: "dropped 6 at 6 refused 4\ndropped 1 at 12 refused 7\n",
    },
    // "Run the records that remain, and drop each one refused."
    Example {
        name: "desks that are not there",
        file: "open 2\npage 3\nentry 0 7\nturn 2",
        kept: "open 2",
        dropped:
            "dropped 6 at 6 refused 2\ndropped 10 at 12 refused 2\ndropped 6 at 22 refused 4\n",
    },
    Example {
        name: "the opening lost",
        file: "page 1\nturn 1 x2\nentry 1 7",
        kept: "",
        dropped: "dropped 6 at 0 refused 10\ndropped 6 at 6 refused 10\n\
            dropped 6 at 12 refused 10\ndropped 10 at 18 refused 10\n",
    },
    Example {
        name: "a byte of the opening lost",
        file: "raw 00 01 00 02 00\npage 1\nturn 1 x2",
        kept: "",
        dropped: "dropped 23 at 0 refused 9\n",
    },
    Example {
        name: "a second opening",
        file: "open 2\npage 1\nopen 2\nturn 1",
        kept: "open 2\npage 1\nturn 1",
        dropped: "dropped 6 at 12 refused 10\n",
    },
    Example {
        name: "a second opening for 9",
        file: "open 2\nopen 9",
        kept: "open 2",
        dropped: "dropped 6 at 6 refused 10\n",
    },
    Example {
        name: "an opening behind one that is refused",
        file: "open 9\npage 1\nopen 1\npage 1",
        kept: "open 1\npage 1",
        dropped: "dropped 6 at 0 refused 1\ndropped 6 at 6 refused 10\n",
    },
    // What is dropped is not run.
    Example {
        name: "an entry call with another kind, and its turns",
        file: "open 1\nraw 08 00 02 01 01 00 07 00 00 00\nturn 1 x3\npage 1\nturn 1 x2",
        kept: "open 1\npage 1\nturn 1 x2",
        dropped: "dropped 10 at 6 refused 8\ndropped 6 at 16 refused 4\n\
            dropped 6 at 22 refused 4\ndropped 6 at 28 refused 4\n",
    },
    Example {
        name: "a turn with another kind, and the next call",
        file: "open 1\npage 1\nturn 1\nraw 04 00 06 00 01 00\npage 1\nturn 1",
        kept: "open 1\npage 1\nturn 1 x2",
        dropped: "dropped 6 at 18 refused 8\ndropped 6 at 24 refused 3\n",
    },
    // The word is 07 00 00 04, with a byte of the turn, of which 00 04 then says 1,024.
    Example {
        name: "a byte of a word lost",
        file: "open 1\nraw 08 00 02 00 01 00 07 00 00\nturn 1 x3",
        kept: "open 1\nentry 1 67108871",
        dropped: "dropped 17 at 16 refused 9\n",
    },
    Example {
        name: "a byte of a word changed",
        file: "open 1\nraw 08 00 02 00 01 00 07 ff 00 00\nturn 1 x3",
        kept: "open 1\nentry 1 65287\nturn 1 x3",
        dropped: "",
    },
];
