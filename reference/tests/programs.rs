//! The programs themselves, run as a user would.

mod common;

use common::{card_bytes, CARD_LISTING, CARD_PAGE};
use reference::calls::{encode, Call};
use reference::frames;
use std::io::Write;
use std::process::{Command, Stdio};

fn output_of(program: &str, arguments: &[&str], input: &[u8]) -> Vec<u8> {
    let mut child = Command::new(program).args(arguments).stdin(Stdio::piped()).stdout(Stdio::piped()).spawn().unwrap();
    let (mut stdin, input) = (child.stdin.take().unwrap(), input.to_vec());
    // Input and output may both be more than a pipe holds. A program may end before it has read everything.
    let writer = std::thread::spawn(move || drop(stdin.write_all(&input)));
    let output = child.wait_with_output().unwrap().stdout;
    writer.join().unwrap();
    output
}

#[test]
fn plan_prints_the_card() {
    let plan = env!("CARGO_BIN_EXE_plan");
    assert_eq!(output_of(plan, &[], &card_bytes()), CARD_LISTING.as_bytes());
    assert_eq!(output_of(plan, &[], b""), b"refused 1\n");
    let more = [card_bytes(), vec![0; 10_000]].concat();
    assert_eq!(output_of(plan, &[], &more[..88]), b"refused 5\n");
}

#[test]
fn page_prints_the_card() {
    let page = env!("CARGO_BIN_EXE_page");
    assert_eq!(output_of(page, &[], &card_bytes()), CARD_PAGE.as_bytes());
    assert_eq!(output_of(page, &[], b""), b"refused 1\n");
    let more = [card_bytes(), vec![0; 10_000]].concat();
    assert_eq!(output_of(page, &[], &more[..88]), b"refused 5\n");
}

/// Up, down, refused both ways, and what lies behind 4,096 bytes is not looked at.
#[test]
fn up_and_down_turn_the_card() {
    let [up, down] = [env!("CARGO_BIN_EXE_up"), env!("CARGO_BIN_EXE_down")];
    let turned = output_of(up, &[], &card_bytes());
    assert_eq!((turned.len(), turned[2]), (89, 8));
    assert_eq!(output_of(down, &[], &turned), card_bytes());
    assert_eq!(output_of(up, &[], &turned), b"refused 2\n");
    assert_eq!(output_of(down, &[], &card_bytes()), b"refused 2\n");
    let mut led = turned.clone();
    led[84] = 1;
    assert_eq!(output_of(down, &[], &led), b"refused 15\n");
    for (program, file) in [(up, card_bytes()), (down, turned), (down, led)] {
        assert_eq!(output_of(program, &[], b""), b"refused 1\n");
        assert_eq!(output_of(program, &[], &[&file[..], &[0]].concat()), b"refused 5\n");
        let long = [file, vec![0; 4_100]].concat();
        assert_eq!(output_of(program, &[], &long[..4_096]), b"refused 5\n");
    }
}

/// The report's example, what lies far behind it, and an input without any card.
#[test]
fn deck_prints_the_example() {
    let deck = env!("CARGO_BIN_EXE_deck");
    let example = reference::example::deck();
    let printed = String::from_utf8(output_of(deck, &[], &example)).unwrap();
    assert!(printed.starts_with("counts 15 8 10 6 2\n1 453 26 1 100 100\n2 1232 28 1 100 100\n"));
    assert!(printed.ends_with(
        "11 902 26 1 100 100\n12 564 26 1 100 100\n13 932 26 1 100 100\n14 667 20 2 100 100\n15 744 20 2 100 100\n"
    ));
    assert_eq!(printed.lines().count(), 16);
    let more = [example, vec![7; 60_000]].concat();
    assert_eq!(output_of(deck, &[], &more), printed.as_bytes());
    assert_eq!(output_of(deck, &[], b""), b"refused 19\n");
    assert_eq!(output_of(deck, &[], &[b' '; 65_536]), b"refused 19\n");
}

/// A text and back, a complaint, a refusal, and what is read of a long input.
#[test]
fn pack_and_unpack_answer() {
    let [pack, unpack] = [env!("CARGO_BIN_EXE_pack"), env!("CARGO_BIN_EXE_unpack")];
    let text = output_of(unpack, &[], &card_bytes());
    assert!(text.starts_with(b"district 2 2 2 1 1 1 # segments, strategies, ") && text.ends_with(b"\nend\n"));
    assert_eq!(output_of(pack, &[], &text), card_bytes());
    assert_eq!(output_of(pack, &[], b""), b"line 1: the end is missing ('district' is due)\n");
    let ends = b"refused 1\nrecord 1 (district): the file ends within it\n";
    assert_eq!(output_of(unpack, &[], b""), ends);
    let long = [&text[..], &[b' '; 70_000]].concat();
    assert_eq!(output_of(pack, &[], &long[..65_536]), card_bytes());
    for length in [65_537, 70_000] {
        assert_eq!(output_of(pack, &[], &long[..length]), b"the text is longer than 65536 bytes\n");
    }
    let long = [card_bytes(), vec![0; 10_000]].concat();
    assert_eq!(output_of(unpack, &[], &long), b"refused 5\n4009 bytes follow the end\n");
    // A complaint is no file, and a refusal no text.
    let complaint = output_of(pack, &[], b"x");
    assert_eq!(output_of(unpack, &[], &complaint), b"refused 2\nrecord 1: kind 25966 stands where 1 is due\n");
    assert_eq!(output_of(pack, &[], ends), b"line 1: 'refused' is not the word due ('district')\n");
}

#[test]
fn panel_answers() {
    let panel = env!("CARGO_BIN_EXE_panel");
    assert_eq!(output_of(panel, &[], b"points 7 2 3 2\nbar 1 1\nx"), b"points 15\nrefused 6\nunknown command\n");
}

#[test]
fn codec_answers_frames() {
    let card = card_bytes();
    let frame = |bytes: &[u8]| [&(bytes.len() as u32).to_le_bytes(), bytes].concat();
    let input = [frame(&card), frame(b""), frame(&card[..10]), frame(&card)].concat();
    let accepted = [&[0][..], &frame(&card)].concat();
    let expected = [&accepted[..], &[1, 1], &accepted].concat();
    assert_eq!(output_of(env!("CARGO_BIN_EXE_codec"), &[], &input), expected);
    assert_eq!(output_of(env!("CARGO_BIN_EXE_codec"), &[], b""), b"");
}

#[test]
fn vectors_answers_lists_of_calls() {
    let vectors = env!("CARGO_BIN_EXE_vectors");
    let load = encode(&[Call::Load(card_bytes())]);
    let lists = [
        load.clone(),
        encode(&[Call::Load(card_bytes()), Call::Bar(3, 1)]),
        encode(&[Call::Load(card_bytes()), Call::Bar(3, 1), Call::Show]),
        encode(&[Call::Load(card_bytes()), Call::Why(2, 3)]),
        encode(&[Call::Load(card_bytes()), Call::Why(2, 2)]),
        encode(&[Call::Index(u32::MAX), Call::Load(card_bytes()), Call::Roughness]),
        encode(&[Call::Index(0), Call::Load(card_bytes()), Call::Index(1)]),
        encode(&[Call::Index(0), Call::Load(card_bytes()), Call::Roughness]),
        encode(&[Call::Load(card_bytes()), Call::Marker(u32::MAX), Call::Lost]),
        encode(&[Call::Load(card_bytes()), Call::SetLeader(2, 2)]),
        encode(&[Call::Load(card_bytes()), Call::SetLeader(3, 3)]),
        encode(&[Call::Load(card_bytes()), Call::SetLeader(2, 1)]),
        // No whole call is left: the load, then nothing.
        [&load[..], &[2, 2, 0, 0, 0, 2]].concat(),
        load[..load.len() - 1].to_vec(),
    ];
    let mut input = Vec::new();
    lists.iter().for_each(|list| frames::put(&mut input, list));
    let nothing = "benefit 0\nceiling 0\nsteps 0 0 0\n";
    let expected =
        [CARD_LISTING, "refused 6\n", CARD_LISTING, "refused 7\n", CARD_LISTING, "refused 13\n", "refused 12\n"]
            .concat()
            + &[CARD_LISTING, CARD_LISTING, "refused 14\n", "refused 6\n"].concat()
            + &[CARD_LISTING, CARD_LISTING, nothing].concat();
    assert_eq!(String::from_utf8(output_of(vectors, &[], &input)).unwrap(), expected);
}

/// Every refusal that a list of calls can end with, and work in each phase.
#[test]
fn stored_lists_cover_refusals_and_phases() {
    let input = output_of(env!("CARGO_BIN_EXE_generate"), &["vectors"], b"");
    let printed = String::from_utf8(output_of(env!("CARGO_BIN_EXE_vectors"), &[], &input)).unwrap();
    for number in (1..=9).chain(11..=14).chain([16, 17, 20, 21]) {
        assert!(printed.contains(&format!("refused {number}\n")));
    }
    for phase in 1..=3 {
        let worked = |line: &str| line.starts_with("steps") && line.split(' ').nth(phase) != Some("0");
        assert!(printed.lines().filter(|line| worked(line)).count() > 10);
    }
}

#[test]
fn example_has_a_plan() {
    let bytes = output_of(env!("CARGO_BIN_EXE_generate"), &["example"], b"");
    let district = reference::file::decode(&bytes).unwrap();
    assert_eq!(district.segments.len(), 15);
    assert_eq!(district.limits.len(), 16);
    let listing = String::from_utf8(output_of(env!("CARGO_BIN_EXE_plan"), &[], &bytes)).unwrap();
    assert_eq!(listing.lines().count(), 18);
}

#[test]
fn generated_frames_are_the_same_each_time() {
    let generate = env!("CARGO_BIN_EXE_generate");
    let frames = output_of(generate, &["frames", "--count", "50", "--seed", "5"], b"");
    assert_eq!(frames, output_of(generate, &["frames", "--count", "50", "--seed", "5"], b""));
    assert_ne!(frames, output_of(generate, &["frames", "--count", "50", "--seed", "6"], b""));
}

/// The comparison agrees with its own programs and finds a wrong one.
#[test]
fn compare_agrees_and_disagrees() {
    let compare = env!("CARGO_BIN_EXE_compare");
    let work = std::env::temp_dir().join(format!("reference-{}-compare", std::process::id()));
    let work = work.to_str().unwrap();
    let kinds = ["--plan", "--page", "--panel", "--codec", "--vectors", "--up", "--down"];
    let [plan, page, panel, codec, vectors, up, down] = [
        env!("CARGO_BIN_EXE_plan"),
        env!("CARGO_BIN_EXE_page"),
        env!("CARGO_BIN_EXE_panel"),
        env!("CARGO_BIN_EXE_codec"),
        env!("CARGO_BIN_EXE_vectors"),
        env!("CARGO_BIN_EXE_up"),
        env!("CARGO_BIN_EXE_down"),
    ];
    let run = |programs: [&str; 7]| {
        let arguments: Vec<&str> =
            kinds.into_iter().zip(programs).flat_map(|(kind, program)| [kind, program]).collect();
        let output = Command::new(compare).args(arguments).args(["--count", "60", "--work", work]).output().unwrap();
        (output.status.success(), String::from_utf8(output.stdout).unwrap())
    };
    let (fine, text) = run([plan, page, panel, codec, vectors, up, down]);
    assert!(fine && text.ends_with("compared 60 cases, 0 differences\n"), "{text}");
    // One of them exchanged for another.
    for programs in [
        [panel, page, panel, codec, vectors, up, down],
        [plan, plan, panel, codec, vectors, up, down],
        [plan, page, plan, codec, vectors, up, down],
        [plan, page, panel, plan, vectors, up, down],
        [plan, page, panel, codec, plan, up, down],
        [plan, page, panel, codec, vectors, down, down],
        [plan, page, panel, codec, vectors, up, up],
    ] {
        let (fine, text) = run(programs);
        assert!(!fine && text.contains("difference: "), "{text}");
        assert!(!text.ends_with(" 0 differences\n"));
    }
    std::fs::remove_dir_all(work).unwrap();
}

/// The stored files of `up` and `down` are run too, and a wrong program is found by them.
#[test]
fn compare_runs_the_stored_files() {
    let compare = env!("CARGO_BIN_EXE_compare");
    let turned = concat!(env!("CARGO_MANIFEST_DIR"), "/turned.txt");
    let work = std::env::temp_dir().join(format!("reference-{}-turned", std::process::id()));
    let run = |up: &str, down: &str| {
        let programs =
            ["--up", up, "--down", down, "--turned", turned, "--count", "0", "--work", work.to_str().unwrap()];
        let output = Command::new(compare).args(programs).output().unwrap();
        (output.status.success(), String::from_utf8(output.stdout).unwrap())
    };
    let [up, down] = [env!("CARGO_BIN_EXE_up"), env!("CARGO_BIN_EXE_down")];
    let (fine, text) = run(up, down);
    assert!(fine && text.ends_with(" cases, 0 differences\n") && !text.contains("compared 0 "), "{text}");
    for (up, down) in [(down, down), (up, up)] {
        let (fine, text) = run(up, down);
        assert!(!fine && text.contains(", line "), "{text}");
    }
}

/// Generated and stored texts and files through `pack` and `unpack`, and a wrong
/// program is found by either.
#[test]
fn compare_runs_texts() {
    let compare = env!("CARGO_BIN_EXE_compare");
    let texts = concat!(env!("CARGO_MANIFEST_DIR"), "/texts.txt");
    let work = std::env::temp_dir().join(format!("reference-{}-texts", std::process::id()));
    let work = work.to_str().unwrap();
    let run = |pack: &str, unpack: &str, more: &[&str]| {
        let programs = ["--pack", pack, "--unpack", unpack, "--work", work];
        let output = Command::new(compare).args(programs).args(more).output().unwrap();
        (output.status.success(), String::from_utf8(output.stdout).unwrap())
    };
    let [pack, unpack, up] = [env!("CARGO_BIN_EXE_pack"), env!("CARGO_BIN_EXE_unpack"), env!("CARGO_BIN_EXE_up")];
    for more in [&["--count", "40"][..], &["--count", "0", "--texts", texts]] {
        let (fine, text) = run(pack, unpack, more);
        assert!(fine && text.ends_with(" cases, 0 differences\n") && !text.contains("compared 0 "), "{text}");
        for (pack, unpack) in [(unpack, unpack), (pack, pack), (up, unpack), (pack, up)] {
            let (fine, text) = run(pack, unpack, more);
            assert!(!fine && text.contains("difference: ") && !text.ends_with(" 0 differences\n"), "{text}");
        }
    }
    std::fs::remove_dir_all(work).unwrap();
}
