//! Tests of the client over the program that the variable DESK_PROGRAM of the environment names. What is due is worked out by
//! hand, from docs/SCRIPT.md.

use std::path::{Path, PathBuf};

use desk_client::{Desk, Fault};

fn program() -> PathBuf {
    PathBuf::from(std::env::var_os("DESK_PROGRAM").expect("DESK_PROGRAM names the program desk"))
}

/// A desk of this size, without a menu bar.
fn desk_of(width: usize, height: usize) -> Desk {
    let mut desk = Desk::open(program(), None).unwrap();
    assert_eq!(desk.ask(&format!("desk {width} {height} 0")).unwrap(), "ok");
    desk
}

/// Another program in place of the desk's: a shell that runs this.
fn other(text: &str) -> Desk {
    let path = Path::new(env!("CARGO_MANIFEST_DIR")).join("tests").join("other");
    Desk::open(path, Some(Path::new(text))).unwrap()
}

fn refusal(fault: Fault) -> (u8, String) {
    match fault {
        Fault::Refused { number, name } => (number, name),
        other => panic!("{other:?} in place of a refusal"),
    }
}

#[test]
fn lines_are_answered() {
    let mut desk = desk_of(9, 9);
    for (line, due) in [
        ("window plain 2 2 4 3 1 0 \"\"", "ok 1"),
        ("find 5 4", "ok 3 1"),
        ("find 6 4", "ok 0 1"),
        ("find 8 8\r", "ok 0 0"),
        ("info 1", "ok 2 2 4 3 1 1"),
    ] {
        assert_eq!(desk.ask(line).unwrap(), due, "{line}");
    }
    assert_eq!(desk.close().unwrap().code(), Some(0));
}

#[test]
fn refusals_have_a_number_and_a_name() {
    let mut desk = desk_of(9, 9);
    let long = "x".repeat(1025);
    for (line, number, name) in [
        ("close 7", 2, "NoSuchWindow"),
        ("windw", 15, "BadSyntax"),
        (long.as_str(), 10, "TooLong"),
        ("desk 8 8 0", 11, "Busy"),
    ] {
        assert_eq!(refusal(desk.ask(line).unwrap_err()), (number, name.to_string()), "{line}");
    }
    assert_eq!(desk.ask("frontwin").unwrap(), "ok 0");
}

/// Bytes that a text has no sign for are hex digits, in a line and in an answer.
#[test]
fn texts_are_edited() {
    let mut desk = Desk::open(program(), None).unwrap();
    for (line, due) in [
        ("version 3", "ok"),
        ("desk 64 32 0", "ok"),
        ("window plain 1 1 60 28 1 0 \"\"", "ok 1"),
        ("text 1 2 2 50 2 2 50 20 0 1", "ok 1"),
        ("tset 1 1 610D62", "ok"),
        ("tkey 1 1 99", "ok"),
        ("tget 1 1", "ok 610D6263"),
        ("tinfo 1 1", "ok 4 4 0 1 4 2 2 2"),
        ("tclick 1 1 4 15 2", "ok 1"),
        ("tend 4 15", "ok 2 4"),
        ("tcut 1 1", "ok"),
        ("scrap", "ok \"bc\""),
    ] {
        assert_eq!(desk.ask(line).unwrap(), due, "{line}");
    }
    assert_eq!(refusal(desk.ask("tget 1 2").unwrap_err()), (21, "NoSuchText".to_string()));
}

#[test]
fn what_has_no_answer_is_not_given() {
    let mut desk = desk_of(9, 9);
    for line in ["", "\r", "# desk", "find 1 1\nfind 2 2"] {
        assert!(matches!(desk.ask(line), Err(Fault::BadLine)), "{line:?}");
    }
    assert_eq!(desk.ask("find 1 1").unwrap(), "ok 0 0");
}

#[test]
fn the_screen_has_its_pixels() {
    let mut desk = desk_of(8, 8);
    desk.ask("window plain 1 1 6 6 1 0 \"\"").unwrap();
    desk.ask("draw 1 fill 2 2 4 4 patCopy black").unwrap();
    let rows = ["11111111", "10000001", "10000001", "10011001", "10011001", "10000001", "10000001", "11111111"];
    let image = desk.image().unwrap();
    assert_eq!((image.width, image.height), (8, 8));
    for (v, row) in rows.iter().enumerate() {
        let found: String = (0..8).map(|h| if image.is_black(h, v) { '1' } else { '0' }).collect();
        assert_eq!(found, *row, "row {v}");
    }
}

/// A desktop alone is gray: every other pixel is black, the first one among them. A row of 71 takes two lines.
#[test]
fn screens_of_all_sizes_are_whole() {
    for (width, height) in [(70, 8), (71, 9), (1024, 1024)] {
        let image = desk_of(width, height).image().unwrap();
        let due: Vec<bool> = (0..height).flat_map(|v| (0..width).map(move |h| (h + v) % 2 == 0)).collect();
        assert_eq!((image.width, image.height), (width, height));
        assert!(image.pixels == due, "{width} by {height}");
    }
}

#[test]
fn a_program_that_ends_is_told() {
    let mut desk = other("read line; echo ok; exit 3");
    assert_eq!(desk.ask("desk 8 8 0").unwrap(), "ok");
    assert!(matches!(desk.ask("image"), Err(Fault::Ended)));
    assert!(matches!(desk.ask("image"), Err(Fault::Ended)));
    assert_eq!(desk.close().unwrap().code(), Some(3));
    let mut desk = other("read line; printf 'P1\\n2 2\\n10\\n0'");
    assert!(matches!(desk.image(), Err(Fault::Ended)));
}

#[test]
fn what_is_no_answer_is_told() {
    let texts =
        ["P1\\n8\\n", "P1\\n0 8\\n", "P1\\n8 32768\\n", "P1\\n2 1\\n12\\n", "P1\\n2 1\\n101\\n", "refused x\\n", "ok\\n"];
    for text in texts {
        let mut desk = other(&format!("read line; printf '{text}'; read line"));
        assert!(matches!(desk.image(), Err(Fault::Strange)), "{text}");
        assert!(matches!(desk.ask("frontwin"), Err(Fault::Ended)), "{text}");
    }
}

#[test]
fn a_program_or_font_that_is_not_there_is_told() {
    assert!(matches!(Desk::open("/no/such/desk", None), Err(Fault::System(_))));
    let mut desk = Desk::open(program(), Some(Path::new("/no/such/font"))).unwrap();
    assert!(matches!(desk.ask("desk 8 8 0"), Err(Fault::Ended)));
    assert_eq!(desk.close().unwrap().code(), Some(1));
}

#[test]
fn several_desks_know_nothing_of_each_other() {
    let works = |side: usize| {
        let mut desk = desk_of(side, side);
        for number in 1..=16 {
            assert_eq!(desk.ask("window plain 1 1 4 4 1 0 \"\"").unwrap(), format!("ok {number}"));
        }
        desk.image().unwrap().width
    };
    let threads: Vec<_> = (8..12).map(|side| std::thread::spawn(move || works(side))).collect();
    let widths: Vec<usize> = threads.into_iter().map(|it| it.join().unwrap()).collect();
    assert_eq!(widths, [8, 9, 10, 11]);
}
