//! The Setup walk: the guide's table, the shape of the walk, and the walk program's text.

use lyra2_reference::walk::SetupWalk;
use lyra2_reference::{walk, walk_program};

#[test]
fn rows_of_the_guides_table() {
    let row1 = [
        1, 0, 3, 2, 1, 0, 3, 6, 1, 4, 7, 2, 5, 0, 5, 10, 15, 4, 9, 14, 3, 8, 13, 2, 7,
    ];
    for (row0, row1) in (3..).zip(row1) {
        assert_eq!(walk(16_384, row0), Ok(row1), "row0 {row0}");
        assert_eq!(walk(row0 + 1, row0), Ok(row1), "row0 {row0}");
    }
}

#[test]
fn each_window_is_visited_once_over() {
    let mut variables = SetupWalk::start();
    let mut seen = Vec::new();
    for (row0, row1) in steps_of_the_largest_matrix() {
        let wnd = variables.wnd();
        seen.push(row1);
        variables.advance(row0);
        if variables.wnd() != wnd {
            seen.sort_unstable();
            // The first window has one step only, that of row 3.
            let complete: Vec<_> = if wnd == 2 {
                vec![1]
            } else {
                (0..wnd).collect()
            };
            assert_eq!(seen, complete, "window {wnd}");
            seen.clear();
        }
    }
    assert_eq!(variables.wnd(), 16_384);
}

fn steps_of_the_largest_matrix() -> Vec<(usize, usize)> {
    let number = |word: &str| word.parse().unwrap();
    let lines = text("16384\n");
    let pairs = lines.lines().map(|line| line.split_once(' ').unwrap());
    pairs
        .map(|(row0, row1)| (number(row0), number(row1)))
        .collect()
}

fn text(input: &str) -> String {
    String::from_utf8(walk_program(input.as_bytes())).unwrap()
}

#[test]
fn program_prints_the_steps() {
    assert_eq!(text("8\n"), "3 1\n4 0\n5 3\n6 2\n7 1\n");
    assert_eq!(text("3\n"), "");
    assert_eq!(text("4\n"), "3 1\n");
}

#[test]
fn program_and_question_agree() {
    let steps = steps_of_the_largest_matrix();
    assert_eq!(steps.len(), 16_381);
    for (place, (row0, row1)) in steps.into_iter().enumerate() {
        assert_eq!(row0, place + 3);
        assert_eq!(walk(16_384, row0 as u64), Ok(row1 as u64));
    }
}

#[test]
fn program_refuses_anything_else() {
    let inputs = [
        "",
        "\n",
        "8",
        "8\n\n",
        "8\r\n",
        " 8\n",
        "8 \n",
        "+8\n",
        "-8\n",
        "08\n",
        "00008\n",
        "0\n",
        "1\n",
        "2\n",
        "16385\n",
        "99999\n",
        "016384\n",
        "100000\n",
        "8\n8\n",
        "8\n ",
        "\n8\n",
        "8\0\n",
        "0x8\n",
        "8.0\n",
        "a\n",
        "\u{0968}\n",
        "18446744073709551624\n",
    ];
    for input in inputs {
        assert_eq!(text(input), "refused 5\n", "{input:?}");
    }
    assert_eq!(walk_program(&[0xff, b'\n']), b"refused 5\n");
    assert_eq!(walk_program(&vec![b'9'; 1 << 20]), b"refused 5\n");
}
