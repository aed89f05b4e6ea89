//! Document 01's sample tape with W1's places, its other examples and the tape
//! reader.

use reference::machine;
use reference::parts::*;
use reference::tape::{self, SAMPLE_TAPE};

const SAMPLE_LINES: &str = "0 open
1 wait
2 step
3 done 0 7 1
4 wait
5 step
6 step
7 step
8 done 1 7 2
9 wait
10 wait
11 refused 11
12 step
13 step
14 step
15 step
16 done 1 7 3
17 step
18 done 0 0 4
end 19
";

fn hex(text: &str) -> Vec<u8> {
    let digits: Vec<&str> = text.split([' ', '/']).filter(|part| !part.is_empty()).collect();
    digits.iter().map(|pair| u8::from_str_radix(pair, 16).expect("two digits")).collect()
}

fn prints(tape: &str, lines: &str) {
    assert_eq!(tape::print(&hex(tape)), lines, "tape {tape}");
}

#[test]
fn the_sample_tape() {
    let text = "00 02 01 02 / 02 00 05 07 00 00 00 / 05 00 / 07 00 / 01 01 05 / 05 01 / 07 00 / \
                06 00 / 07 01 / 04 01 05 01 00 00 00 / 01 00 00 / 05 00 / 05 01 / 07 00 / 06 00 / \
                06 00 / 07 01 / 05 00 / 07 00";
    assert_eq!(hex(text), SAMPLE_TAPE);
    assert_eq!(tape::print(&SAMPLE_TAPE), SAMPLE_LINES);
}

#[test]
fn the_empty_tape() {
    assert_eq!(tape::print(&[]), "end 0\n");
}

#[test]
fn openings() {
    for n in 0..=255u8 {
        assert_eq!(machine::open(n, 1, 1).is_ok(), (2..=8).contains(&n));
        assert_eq!(machine::open(2, n, 1).is_ok(), (1..=8).contains(&n));
        assert_eq!(machine::open(2, 1, n).is_ok(), (1..=64).contains(&n));
    }
    for (n, c, m) in [(1, 1, 1), (9, 1, 1), (2, 0, 1), (2, 1, 65)] {
        assert_eq!(machine::open(n, c, m), Err(5));
    }
    for (n, c, m) in [(2, 1, 1), (8, 8, 64)] {
        let s = machine::open(n, c, m).expect("in range");
        assert_eq!((s.n, s.c, s.m, s.limit, s.completed), (n, c, m, 1, 0));
        assert_eq!(s.slots, [None; SLOTS]);
        assert!(s.quiet() && !machine::corrupt(&s));
        for lane in s.lanes {
            assert_eq!(lane.order, [0, 1, 2, 3, 4, 5, 6, 7]);
            assert_eq!(lane.lines, [Line::default(); 8]);
            assert_eq!((lane.returns.length, lane.down.length, lane.waiting), (0, 0, None));
        }
        assert_eq!(s.blocks, [Block::default(); 64]);
    }
}

#[test]
fn words_of_one_block() {
    prints("00 02 01 01 / 01 00 03", "0 open\n1 wait\nend 2\n");
    prints("00 02 01 01 / 01 00 04", "0 open\n1 refused 7\nend 2\n");
    prints("00 02 01 40 / 01 00 ff", "0 open\n1 wait\nend 2\n");
    prints("00 02 01 3f / 01 00 fc", "0 open\n1 refused 7\nend 2\n");
}

#[test]
fn add_wraps() {
    prints(
        "00 02 01 01 / 02 00 00 ff ff ff ff / 05 00 / 07 00 / 04 00 00 01 00 00 00 / 01 00 00",
        "0 open\n1 wait\n2 step\n3 done 0 4294967295 1\n4 done 0 4294967295 2\n5 done 0 0 3\nend 6\n",
    );
}

#[test]
fn exchange_gives_the_former_word() {
    prints(
        "00 02 01 01 / 03 01 02 05 01 00 00 / 05 01 / 07 01 / 03 01 02 09 00 00 00 / 01 01 02",
        "0 open\n1 wait\n2 step\n3 done 1 0 1\n4 done 1 261 2\n5 done 1 9 3\nend 6\n",
    );
}

#[test]
fn not_open_and_already_open() {
    prints("05 00 / 01 09 ff", "0 refused 3\n1 refused 3\nend 2\n");
    prints(
        "00 01 01 01 / 05 00 / 00 02 00 01 / 00 02 01 41 / 00 02 01 01 / 00 02 01 01 / 00 00 00 00 / 05 00",
        "0 refused 5\n1 refused 3\n2 refused 5\n3 refused 5\n4 open\n5 refused 4\n6 refused 4\n7 refused 9\nend 8\n",
    );
}

#[test]
fn truncated_records() {
    for (kind, length) in [3, 2, 6, 6, 6, 1, 1, 1, 4].into_iter().enumerate() {
        let kind = kind as u8;
        assert_eq!(tape::body_length(kind), Some(length));
        for kept in 0..length {
            let mut truncated = vec![kind];
            truncated.resize(1 + kept, 0);
            assert_eq!(tape::print(&truncated), "0 refused 1\nend 1\n", "kind {kind} kept {kept}");
            let opened = [vec![0, 2, 1, 1], truncated].concat();
            assert_eq!(tape::print(&opened), "0 open\n1 refused 1\nend 2\n");
        }
    }
}

#[test]
fn unknown_kinds_end_the_tape() {
    for kind in 9..=255u8 {
        assert_eq!(tape::print(&[kind]), "0 refused 2\nend 1\n");
        let tape = [0, 2, 1, 1, kind, 5, 0, 5, 0, 5, 0];
        assert_eq!(tape::print(&tape), "0 open\n1 refused 2\nend 2\n");
    }
}

#[test]
fn longest_tape() {
    let mut tape = vec![5; 65_536];
    let lines = tape::print(&tape);
    assert!(lines.starts_with("0 refused 3\n1 refused 3\n"));
    assert!(lines.ends_with("\n32767 refused 3\nend 32768\n"));
    tape.push(5);
    assert_eq!(tape::print(&tape), "refused 13\n");
    tape.truncate(65_535);
    assert!(tape::print(&tape).ends_with("\n32767 refused 1\nend 32768\n"));
}

#[test]
fn two_stores_to_one_word() {
    // Settled by hand in six steps: serve 0, deliver 0, serve 1, deliver 0,
    // return 0, deliver 1.
    prints(
        "00 02 01 01 / 02 00 00 05 00 00 00 / 02 01 00 06 00 00 00 / \
         05 00 / 07 00 / 05 01 / 07 00 / 06 00 / 07 01 / 01 01 00",
        "0 open\n1 wait\n2 wait\n3 step\n4 done 0 5 1\n5 step\n6 step\n7 step\n8 done 1 6 2\n9 done 1 6 3\nend 10\n",
    );
}

#[test]
fn exclude_overtaken_by_purge() {
    // Both lanes share the block and want it alone; lane 1 is served first.
    // Lane 0's copy is purged, so its grant has words: 0 + 6 is seen.
    prints(
        "00 02 01 01 / 01 00 00 / 05 00 / 07 00 / 01 01 00 / 05 01 / 07 01 / \
         04 00 00 05 00 00 00 / 04 01 00 06 00 00 00 / 05 01 / 07 00 / 06 00 / 07 01 / \
         05 00 / 07 01 / 06 01 / 07 00 / 01 00 00",
        "0 open\n1 wait\n2 step\n3 done 0 0 1\n4 wait\n5 step\n6 done 1 0 2\n7 wait\n8 wait\n\
         9 step\n10 step\n11 step\n12 done 1 0 3\n13 step\n14 step\n15 step\n16 done 0 6 4\n\
         17 done 0 11 5\nend 18\n",
    );
}
