//! The panel's language, line by line.

mod common;

use common::{card_bytes, CARD_LISTING, CARD_PAGE};
use reference::{console, file};
use std::fs;
use std::path::PathBuf;

/// A folder of its own for each test, with the card in it.
fn folder(name: &str) -> PathBuf {
    let folder = std::env::temp_dir().join(format!("reference-{}-{name}", std::process::id()));
    let _ = fs::remove_dir_all(&folder);
    fs::create_dir_all(&folder).unwrap();
    fs::write(folder.join("card.bin"), card_bytes()).unwrap();
    folder
}

fn answers(name: &str, input: &[u8]) -> String {
    let folder = folder(name);
    let mut output = Vec::new();
    console::run(&mut &input[..], &mut output, &folder).unwrap();
    fs::remove_dir_all(&folder).unwrap();
    String::from_utf8_lossy(&output).into_owned()
}

#[test]
fn the_card_at_work() {
    let input = b"# the card\n\nload card.bin\nshow\nbar 2 2\nshow\nunbar 2 2\nlimit 1 180\nshow\n\
        rating 2 1 20\nshow\npoints 6 3 1 0\nexport out.bin\nload out.bin\nshow";
    let expected = format!(
        "ok\n{CARD_LISTING}ok\n1 2\n2 1\nbenefit 8250000\nceiling 8250000\nsteps 0 0 0\n\
         ok\nok\n1 2\n2 2\nbenefit 8750000\nceiling 8750000\nsteps 0 0 0\n\
         ok\n1 2\n2 0\nbenefit 5250000\nceiling 5250000\nsteps 0 0 0\n\
         points 7\nok 87\nok\n1 2\n2 0\nbenefit 5250000\nceiling 5250000\nsteps 0 0 0\n"
    );
    assert_eq!(answers("card", input), expected);
}

#[test]
fn a_page_shows_what_is_held_and_changes_nothing() {
    let barred = CARD_PAGE.replace("130", " 60").replace("100", " 60").replace("8250000", "5250000");
    let barred = barred.replace(" 1        3000000        40", " 0              0         0");
    let expected = format!("ok\n{CARD_PAGE}{CARD_LISTING}{CARD_PAGE}ok\nok\n{barred}");
    assert_eq!(answers("page", b"load card.bin\npage\nshow\npage\nlimit 1 60\nbar 2 1\npage\n"), expected);
}

#[test]
fn a_fresh_unit() {
    let input = b"show\nbar 1 1\nlimit 1 5\nlimit 2 5\nlimit 1 1000000000\nrating 1 1 0\n";
    let expected = "benefit 0\nceiling 0\nsteps 0 0 0\nrefused 6\nok\nrefused 7\nrefused 8\nrefused 6\n";
    assert_eq!(answers("fresh", input), expected);
}

/// All nine answers of `why`, its refusals, and that it leaves the unit alone.
#[test]
fn reasons() {
    let folder = folder("reasons");
    fs::write(folder.join("demands"), file::encode(&reference::reasons::demands())).unwrap();
    fs::write(folder.join("limits"), file::encode(&reference::reasons::limits())).unwrap();
    fs::write(folder.join("led"), file::encode(&reference::reasons::led())).unwrap();
    let input = b"why 1 1\nload led\nwhy 2 1\nload demands\nwhy 1 2\nwhy 1 8\n\
        why 1 6\nwhy 1 7\nwhy 2 9\nload limits\nwhy 1 4\nwhy 2 7\n\
        why 2 8\nwhy 3 9\nwhy 3 0\nwhy 1 0\nwhy 1 11\nwhy 01 18446744073709551615\nshow\n";
    let expected =
        "refused 6\nok\nthe leader has nothing\nok\nin the programme\nbarred\nminimum rating missed: distress 2, year 2\n\
        overall requirement missed\nbenefit not above 0\nok\nover limit 2 alone\nover limit 2 beside the others\n\
        fits, but the total would be no greater\nrefused 6\nrefused 6\nrefused 7\nrefused 7\nrefused 7\n\
        1 1\n2 1\nbenefit 400000\nceiling 520000\nsteps 7 0 1\n";
    let mut output = Vec::new();
    console::run(&mut &input[..], &mut output, &folder).unwrap();
    assert_eq!(String::from_utf8(output).unwrap(), expected);
    fs::remove_dir_all(&folder).unwrap();
}

/// Setting a leader, its refusals, and the length of both forms of a file.
#[test]
fn leaders() {
    let input = b"leader 1 0\nload card.bin\nleader 2 1\nshow\nexport led.bin\nbar 1 1\nbar 1 2\nshow\nleader 2 2\n\
        leader 3 3\nleader 1 1\nleader 2 256\nload led.bin\nshow\nleader 02 00\nexport card2.bin\n";
    let expected = format!(
        "refused 6\nok\nok\n{CARD_LISTING}ok 89\nok\nok\n1 0\n2 0\nbenefit 0\nceiling 3500000\nsteps 0 0 0\n\
         refused 14\nrefused 6\nrefused 14\nrefused 14\nok\n{CARD_LISTING}ok\nok 87\n"
    );
    assert_eq!(answers("leaders", input), expected);
}

/// Records, their refusals, and points with the last marker; all that is no
/// record leaves the window.
#[test]
fn records() {
    let input = b"roughness\nlost\nindex 2147483648\nroughness\nmarker 2143294004\nroughness\n\
        index 1082654720\nroughness\nload card.bin\nbar 1 1\nindex 1090519040\nindex 2143294004\nlost\nroughness\n\
        index 00000000001082654720\nindex 0\nroughness\nmarker 4294967295\nindex 4294967295\nroughness\n\
        index 1080033280\nroughness\nshow\n";
    let expected = "refused 13\nok\nok\npoints 50 marker 0\nok\nrefused 13\n\
        ok\npoints 5 marker 2143294004\nok\nok\nrefused 12\nrefused 12\nok\npoints 5 marker 2143294004\n\
        ok\nok\npoints 40 marker 2143294004\nok\nrefused 12\nrefused 13\n\
        ok\npoints 5 marker 4294967295\n1 2\n2 1\nbenefit 8250000\nceiling 8438555\nsteps 1 0 0\n";
    assert_eq!(answers("records", input), expected);
}

/// The office that later lines name, any number at all; what is refused for one
/// that there is not, what is said before that, and what makes no call.
#[test]
fn offices() {
    let nothing = "benefit 0\nceiling 0\nsteps 0 0 0\n";
    let input = b"load card.bin\noffice 2\nshow\nlimit 1 7\noffice 1\nshow\noffice 02\nload card.bin\nlimit 1 60\nbar 2 1\nshow\n\
        index 0\nroughness\noffice 1\nshow\nroughness\n";
    let expected = format!(
        "ok\nok\n{nothing}ok\nok\n{CARD_LISTING}ok\nok\nok\nok\n1 2\n2 0\nbenefit 5250000\nceiling 5250000\nsteps 0 0 0\n\
         ok\npoints 50 marker 0\nok\n{CARD_LISTING}refused 13\n"
    );
    assert_eq!(answers("offices", input), expected);
    for number in ["0", "3", "257", "4294967297", "4294967298", "18446744073709551615"] {
        let input = format!(
            "office {number}\nload card.bin\nexport out\nbar 9 9\nunbar 1 1\nlimit 9 9\nrating 1 1 1\nleader 1 1\nshow\npage\n\
             why 1 1\nindex 1\nmarker 1\nlost\nroughness\nload none\nload .\npoints 6 3 1 0\nindex 4294967296\nbar 1\n# x\n\
             office 1\nload out\nshow\n"
        );
        let said = "cannot open none\ncannot read .\npoints 7\nunknown command\nunknown command\n";
        let expected = format!("ok\n{}{said}ok\ncannot open out\n{nothing}", "refused 16\n".repeat(14));
        assert_eq!(answers("no-office", input.as_bytes()), expected);
    }
}

/// Edits that wait at consoles, for the office that was named when they came; steps,
/// whatever office is named; and what is refused on arrival, in its order.
#[test]
fn consoles() {
    let nothing = "1 0\n2 0\nbenefit 0\nceiling 0\nsteps 0 0 0\n";
    let input = b"step\nload card.bin\nqueue 2 limit 1 0\nshow\noffice 2\nload card.bin\nqueue 01 bar 3 1\nqueue 2 leader 2 2\n\
        queue 2 rating 2 1 20\noffice 3\nstep\nstep\noffice 1\nshow\nstep\nstep\nstep\noffice 2\nshow\n";
    let raised = "1 2\n2 0\nbenefit 5250000\nceiling 5250000\nsteps 0 0 0\n";
    let expected = format!(
        "idle\nok\nok\n{CARD_LISTING}ok\nok\nok\nok\nok\nok\nconsole 1 refused 6\nconsole 2 ok\nok\n{nothing}\
         console 2 refused 14\nconsole 2 ok\nidle\nok\n{raised}"
    );
    assert_eq!(answers("consoles", input), expected);
    // Eight wait; a wrong office, then a wrong console, then a full queue.
    let full = "queue 4 unbar 9 9\n".repeat(9);
    let input = format!(
        "{full}queue 5 unbar 9 9\nqueue 3 unbar 9 9\noffice 0\nqueue 4 bar 1 1\nqueue 5 bar 1 1\nqueue 1 bar 1\nstep\nstep\nstep\n\
         office 2\nqueue 4 bar 1 1\nqueue 4 bar 1 1\nqueue 4 bar 1 1\n"
    );
    let steps = "console 3 refused 6\nconsole 4 refused 6\nconsole 4 refused 6\n";
    let expected = format!(
        "{}refused 21\nrefused 20\nok\nok\nrefused 16\nrefused 16\nunknown command\n{steps}ok\nok\nok\nrefused 21\n",
        "ok\n".repeat(8)
    );
    assert_eq!(answers("full", input.as_bytes()), expected);
    for number in ["0", "5", "257", "4294967297", "18446744073709551615"] {
        assert_eq!(answers("no-console", format!("queue {number} bar 1 1\n").as_bytes()), "refused 20\n");
    }
}

/// Blocks of as many parts as there are resources, whether or not they are followed, as
/// many as a line has room for; and what an office that there is not is answered.
#[test]
fn blocks() {
    let in_blocks = CARD_LISTING.replace("steps 1", "steps 0");
    let input = b"blocks\nload card.bin\nblocks 1 1 60 / 2 2 40\nshow\nlimit 1 99\nlimit 1 130\nshow\nblocks 1 2 131\nshow\n\
        blocks 1 1 60 / 2 2 40\nblocks\nshow\nblocks 1 1 60 / 2 2 40\nload card.bin\nshow\noffice 3\nblocks\nblocks 1 2 3\n\
        blocks 1 2\nblocks 1 2 3 4\n";
    let expected = format!(
        "ok\nok\nok\n{in_blocks}ok\nok\n{in_blocks}ok\n{CARD_LISTING}ok\nok\n{CARD_LISTING}ok\nok\n{CARD_LISTING}\
         ok\nrefused 16\nrefused 16\nunknown command\nunknown command\n"
    );
    assert_eq!(answers("blocks", input), expected);
    let many =
        |count: usize| format!("blocks {}\n", vec!["18446744073709551615 0 00000000000000000009"; count].join(" / "));
    for count in [1, 4, 5, 24, 25, 80] {
        assert_eq!(answers("many_blocks", many(count).as_bytes()), "ok\n");
    }
    // 510 blocks in a line of 4,096 bytes, and of one more.
    let longest = |zeros: usize| format!("blocks {}0 0 0{}\n", "0 0 0 / ".repeat(509), "0".repeat(zeros));
    assert_eq!(longest(12).len(), 4_096 + 1);
    assert_eq!(answers("longest", longest(12).as_bytes()), "ok\n");
    assert_eq!(answers("longer", longest(13).as_bytes()), "unknown command\n");
    // Sixteen resources: four blocks of them are a line of more than 512 bytes. A fifth is read, and no plan follows.
    let folder = folder("sixteen");
    fs::write(folder.join("sixteen"), file::encode(&reference::counties::sixteen())).unwrap();
    let quarters = reference::counties::quarters();
    let block = |at: usize| quarters[18 * at..18 * at + 18].iter().map(u32::to_string).collect::<Vec<_>>().join(" ");
    let blocks = [0, 1, 2, 3].map(block).join(" / ");
    let fifth = block(3);
    let input =
        format!("load sixteen\nblocks {blocks}\nshow\nblocks {blocks} / {fifth}\nshow\nblocks {blocks} {fifth}\n");
    assert!(blocks.len() > 512);
    let mut output = Vec::new();
    console::run(&mut input.as_bytes(), &mut output, &folder).unwrap();
    let text = String::from_utf8(output).unwrap();
    let answers: Vec<&str> = text.lines().collect();
    assert_eq!(answers[..6], ["ok", "ok", "1 1", "2 1", "3 1", "4 1"]);
    assert_eq!(answers[8..14], ["steps 0 1 0", "ok", "1 1", "2 1", "3 1", "4 1"]);
    assert_eq!(answers[16..], ["steps 0 0 0", "unknown command"]);
    fs::remove_dir_all(&folder).unwrap();
}

#[test]
fn refusals_and_failures() {
    let folder = folder("failures");
    fs::create_dir(folder.join("there")).unwrap();
    fs::write(folder.join("cut"), &card_bytes()[..50]).unwrap();
    let long = [card_bytes(), vec![0; 5_000]].concat();
    fs::write(folder.join("long"), long).unwrap();
    fs::write(folder.join("old"), b"old").unwrap();
    let input = b"load none\nload there\nload cut\nload long\nexport there\nexport none/out\nexport old\nshow\n";
    let mut output = Vec::new();
    console::run(&mut &input[..], &mut output, &folder).unwrap();
    let expected = "cannot open none\ncannot read there\nrefused 1\nrefused 5\ncannot write there\n\
        cannot write none/out\nok 44\nbenefit 0\nceiling 0\nsteps 0 0 0\n";
    assert_eq!(String::from_utf8(output).unwrap(), expected);
    assert_eq!(fs::read(folder.join("old")).unwrap().len(), 44);
    assert!(!folder.join("there.new").exists() && !folder.join("old.new").exists());
    fs::remove_dir_all(&folder).unwrap();
}

#[test]
fn numbers() {
    let ones = ["1", "01", "00000000000000000001"];
    let too_large = ["18446744073709551615", "999999999999999999"];
    let wrong = [
        "18446744073709551616",
        "99999999999999999999",
        "000000000000000000001",
        "-1",
        "+1",
        "",
        "1.",
        "x",
        "1\t",
        "0x1",
    ];
    for word in ones {
        assert_eq!(answers("one", format!("limit {word} 5\n").as_bytes()), "ok\n");
    }
    for word in too_large {
        assert_eq!(answers("large", format!("limit {word} 5\n").as_bytes()), "refused 7\n");
    }
    for word in wrong {
        assert_eq!(answers("wrong", format!("limit {word} 5\n").as_bytes()), "unknown command\n");
    }
}

#[test]
fn lines_that_are_no_commands() {
    for line in [
        "load",
        "load ",
        "export",
        "export ",
        "show ",
        " show",
        "Show",
        "show 1",
        "bar",
        "bar 1",
        "bar 1 1 1",
        "bar  1 1",
        "bar 1 1 ",
        "bar 1\t1",
        "limit 1",
        "points 1 1 1",
        "rating 1 1",
        "why",
        "why 1",
        "why 1 1 1",
        "why 1 x",
        "whys 1 1",
        "index",
        "index ",
        "index x",
        "index -1",
        "index 1.0",
        "index 0 0",
        "index 4294967296",
        "index 18446744073709551615",
        "index 18446744073709551616",
        "index 000000000000000000000",
        "Index 0",
        "indexes 0",
        "marker",
        "marker 4294967296",
        "marker 9223372036854775808",
        "marker 0 0",
        "marker  0",
        "leader",
        "leader 1",
        "leader 1 0 0",
        "leader  1 0",
        "leader 1 x",
        "leader 1 -1",
        "Leader 1 0",
        "leaders 1 0",
        "office",
        "office ",
        "office 1 2",
        "office  1",
        "office x",
        "office -1",
        "office 18446744073709551616",
        "Office 1",
        "offices 1",
        "queue",
        "queue ",
        "queue 1",
        "queue 1 ",
        "queue 1 1 1",
        "queue bar 1 1",
        "queue 1 bar",
        "queue 1 bar 1",
        "queue 1 bar 1 1 1",
        "queue 1 bar 1 1 ",
        "queue 1 bar 1 x",
        "queue 1 bar  1 1",
        "queue 1  bar 1 1",
        "queue  1 bar 1 1",
        "queue 1\tbar 1 1",
        "queue 1 Bar 1 1",
        "queue x bar 1 1",
        "queue -1 bar 1 1",
        "queue 18446744073709551616 bar 1 1",
        "queue 000000000000000000001 bar 1 1",
        "queue 5 bar 1",
        "queue 1 rating 1 1",
        "queue 1 show",
        "queue 1 step",
        "queue 1 lost",
        "queue 1 points 1 1 1 0",
        "queue 1 office 1",
        "queue 1 load card.bin",
        "queue 1 queue 1 bar 1 1",
        "Queue 1 bar 1 1",
        "queues 1 bar 1 1",
        "queue 1 blocks",
        "blocks ",
        " blocks",
        "Blocks",
        "block",
        "blocks /",
        "blocks 1",
        "blocks 1 1",
        "blocks 1 1 1 1",
        "blocks 1 1 1 ",
        "blocks  1 1 1",
        "blocks 1 1 x",
        "blocks 1 1 -1",
        "blocks 1 1 18446744073709551616",
        "blocks 1 1 1 /",
        "blocks / 1 1 1",
        "blocks 1 1 1 / ",
        "blocks 1 1 1 / 1",
        "blocks 1 1 1 // 2 2 1",
        "blocks 1 1 1 / / 2 2 1",
        "blocks 1 1 1/2 2 1",
        "blocks 1 1 1 /2 2 1",
        "blocks 1 1 1 2 2 1",
        "blocks 1 / 1 / 1",
        "step 1",
        "step ",
        " step",
        "Step",
        "steps",
        "step\r",
        "lost 1",
        "lost ",
        " lost",
        "lost\r",
        "roughness 1",
        "roughness ",
        "Roughness",
        "rough",
        "quit",
        " # x",
        "show\r",
        "page ",
        " page",
        "page 1",
        "pages",
        "Page",
        "load a\0b",
    ] {
        assert_eq!(answers("unknown", format!("{line}\n").as_bytes()), "unknown command\n", "{line:?}");
    }
    for line in ["", " ", "\t", "\r", " \t\r ", "#", "# show", "#\0"] {
        assert_eq!(answers("blank", format!("{line}\n").as_bytes()), "", "{line:?}");
    }
}

#[test]
fn long_lines() {
    let line = |byte: u8, length: usize| [vec![byte; length], b"\nlimit 1 1\n".to_vec()].concat();
    assert_eq!(answers("4096", &line(b' ', 4_096)), "ok\n");
    assert_eq!(answers("4097", &line(b' ', 4_097)), "unknown command\nok\n");
    assert_eq!(answers("many", &line(b'x', 300_000)), "unknown command\nok\n");
    assert_eq!(answers("remark", &line(b'#', 300_000)), "ok\n");
    let load = |length: usize| [b"load ".to_vec(), vec![b'p'; length]].concat();
    assert_eq!(answers("255", &load(255)), format!("cannot open {}\n", "p".repeat(255)));
    assert_eq!(answers("256", &load(256)), "unknown command\n");
}

#[test]
fn any_bytes() {
    let input: Vec<u8> = (0..=255).rev().chain(0..=255).collect();
    assert_eq!(answers("bytes", &input), "unknown command\n".repeat(3));
}

#[test]
fn paths_may_hold_blanks() {
    let input = b"load card.bin\nexport a b \nload a b \nload a b\n";
    assert_eq!(answers("blanks", input), "ok\nok 87\nok\ncannot open a b\n");
}
