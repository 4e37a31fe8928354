//! `second-house --picture`: the drawing is well formed and leaves nothing out.

use std::process::Command;

use second::house::House;
use second::picture::{draw, MOST_EVENTS};
use second::scripts::generate;

const FIRST: &str = "sites 1\nbegin 1\nwrite 1 4294967297 5 700 0\ncommit 4294967297\nmerge 1\n\
                     install 1\nmerge 1\nemit\nreplay 1\nvalue 1 5\n";

/// Site 2 joins; the ABORT that tells it of the end is never taken.
const ABANDONED: &str = "sites 2\nbegin 1\nenlist 4294967297 2\ntake 1 2\ntake 2 1\n\
                         abandon 4294967297\nvalue 3 5\n";

/// Elements of the class, by their titles.
fn titles<'a>(picture: &'a str, class: &str) -> Vec<&'a str> {
    let opening = format!("<g class=\"{class}\"><title>");
    let titles = picture.split(opening.as_str()).skip(1);
    titles.map(|rest| rest.split_once("</title>").unwrap().0).collect()
}

/// Every element that opens closes, attributes are quoted, and `&` begins an entity.
fn assert_well_formed(picture: &str) {
    let mut open: Vec<&str> = Vec::new();
    let body = picture.strip_prefix("<?xml version=\"1.0\" encoding=\"UTF-8\"?>\n").unwrap();
    for piece in body.split('<').skip(1) {
        let (tag, text) = piece.split_once('>').expect("a tag ends");
        assert!(!text.contains('>'), "a bare > in {text}");
        for entity in piece.split('&').skip(1) {
            let name = entity.split_once(';').expect("an entity ends").0;
            assert!(matches!(name, "amp" | "lt" | "gt" | "quot"), "&{name};");
        }
        if let Some(name) = tag.strip_prefix('/') {
            assert_eq!(open.pop(), Some(name));
            continue;
        }
        let name = tag.split([' ', '/']).next().unwrap();
        assert_attributes(tag.strip_prefix(name).unwrap().trim_end_matches('/'));
        if !tag.ends_with('/') {
            open.push(name);
        }
        assert!(!open.is_empty(), "{name} stands outside");
    }
    assert!(open.is_empty(), "{open:?} stay open");
}

fn assert_attributes(mut rest: &str) {
    let mut names = Vec::new();
    while !rest.is_empty() {
        let (name, behind) = rest.split_once("=\"").expect("an attribute has a value");
        let (_, behind) = behind.split_once('"').expect("a value ends");
        let name = name.strip_prefix(' ').expect("a space before an attribute");
        assert!(!names.contains(&name), "{name} twice");
        names.push(name);
        rest = behind;
    }
}

/// Sites of the house, and the first words of the accepted lines among those drawn.
fn accepted(script: &str) -> (usize, Vec<&str>) {
    let mut house = House::new(());
    let drawn = script.lines().take(MOST_EVENTS);
    let accepted = drawn.filter(|line| house.line(line.as_bytes(), &mut String::new()).is_ok());
    let words = accepted.filter_map(|line| line.split(' ').next()).collect();
    (house.running.map_or(0, |running| running.world.sites.len()), words)
}

#[test]
fn the_worked_script_is_drawn_whole() {
    let picture = draw("first.house", FIRST.as_bytes(), false);
    assert_well_formed(&picture);
    assert_eq!(titles(&picture, "lane"), ["site 1", "merger", "copy 1"]);
    assert_eq!(titles(&picture, "record"), ["part, line 6 to line 7", "merged, line 8 to line 9"]);
    assert_eq!(titles(&picture, "begin"), ["begin 1"]);
    assert_eq!(titles(&picture, "commit"), ["commit 4294967297"]);
    assert_eq!(titles(&picture, "kept"), ["install 1", "emit", "replay 1"]);
    assert_eq!(titles(&picture, "refused"), ["merge 1"]);
    assert!(titles(&picture, "message").is_empty());
    assert!(titles(&picture, "untaken").is_empty());
}

#[test]
fn the_head_says_why_a_late_call_is_refused() {
    let late = "sites 1\nbegin 1\ncommit 4294967297\nabandon 4294967297\n";
    let picture = draw("late.house", late.as_bytes(), false);
    assert_well_formed(&picture);
    assert_eq!(titles(&picture, "refused"), ["abandon 4294967297"]);
    assert!(picture.contains("refused 27, nothing changes: the stage does not allow the call"));
}

#[test]
fn no_value_is_drawn_without_its_length() {
    let marked = FIRST.replace("5 700 0", "5 700 12");
    let written = "write 1 4294967297 5 700 18446744073709551615\nread 1 4294967297 5\ncommit";
    let marked = marked.replacen("commit", written, 1);
    let picture = draw("marked.house", marked.as_bytes(), false);
    assert_well_formed(&picture);
    for text in ["writes key 5: 700 12<", "reads key 5: 700 12<", "key 5: 700 12 at (1, 1)<"] {
        assert!(picture.contains(text), "{text}");
    }
    assert!(picture.contains("refused 29, nothing changes: start plus length"));
}

#[test]
fn a_transaction_for_the_proofing_desk_begins_and_joins_as_one() {
    let both = "sites 2\nbegin 1\nbegin 1 1\nenlist 4294967298 2\ntake 1 2\nbegin 1 2\n";
    let picture = draw("desks.house", both.as_bytes(), false);
    assert_well_formed(&picture);
    assert_eq!(titles(&picture, "begin"), ["begin 1", "begin 1 1", "take 1 2"]);
    for text in ["> begins<", "> begins, proofing desk<", "> joins, proofing desk<"] {
        assert!(picture.contains(text), "{text}");
    }
    assert_eq!(titles(&picture, "refused"), ["begin 1 2"]);
    assert!(!picture.contains("> joins<"));
}

#[test]
fn what_nobody_took_is_dashed_and_an_unused_copy_has_no_lane() {
    let picture = draw("abandoned.house", ABANDONED.as_bytes(), false);
    assert_well_formed(&picture);
    assert_eq!(titles(&picture, "lane"), ["site 1", "site 2", "merger", "copy 3"]);
    let messages = ["JOIN, line 3 to line 4", "JOINED, line 4 to line 5"];
    assert_eq!(titles(&picture, "message"), messages);
    assert_eq!(titles(&picture, "abort"), ["abandon 4294967297"]);
    assert_eq!(titles(&picture, "untaken"), ["ABORT to 2"]);
    let without = draw("abandoned.house", ABANDONED.as_bytes(), true);
    assert_eq!(titles(&without, "lane"), ["site 1", "site 2", "merger"]);
}

#[test]
fn each_lane_says_the_range_of_its_site() {
    let picture = draw("uneven", b"sites 2 0 0\nsites 3 0 100 101\nbegin 1\n", false);
    assert_well_formed(&picture);
    for range in ["keys 0 to 99<", "keys 100 to 100<", "keys 101 to 2047<"] {
        assert!(picture.contains(range), "{range}");
    }
}

#[test]
fn random_scripts_have_a_lane_for_each_site_and_an_arrow_for_each_take() {
    for seed in 1..=40 {
        let script = generate(seed, None).text;
        let picture = draw("random", script.as_bytes(), false);
        assert_well_formed(&picture);
        let (sites, words) = accepted(&script);
        let lanes = titles(&picture, "lane");
        assert_eq!(lanes.iter().filter(|it| it.starts_with("site ")).count(), sites);
        let count = |word: &str| words.iter().filter(|&&it| it == word).count();
        assert_eq!(titles(&picture, "message").len(), count("take"), "seed {seed}");
        let records = count("merge") + count("replay");
        assert_eq!(titles(&picture, "record").len(), records, "seed {seed}");
    }
}

#[test]
fn a_long_script_says_how_much_is_drawn() {
    let script = format!("sites 1\n{}", "report 1\n".repeat(500));
    let picture = draw("long.house", script.as_bytes(), false);
    assert_well_formed(&picture);
    assert_eq!(titles(&picture, "step").len(), MOST_EVENTS);
    assert!(picture.contains("The first 400 of 501 lines are drawn."));
    let short = draw("first.house", FIRST.as_bytes(), false);
    assert!(!short.contains("are drawn"));
}

#[test]
fn no_line_and_no_name_breaks_the_drawing() {
    let script = b"<g>\n&amp\nsites 2 \xff\x00\nsites 1\n\"begin 1\n";
    for script in [script.as_slice(), b"", b"\n", b"begin 1"] {
        assert_well_formed(&draw("a<b>&\"c\u{1}", script, false));
    }
}

#[test]
fn the_program_draws_one_file() {
    let program = || Command::new(env!("CARGO_BIN_EXE_second-house"));
    assert!(!program().arg("--picture").status().unwrap().success());
    let script = std::env::temp_dir().join(format!("second-picture-{}.house", std::process::id()));
    std::fs::write(&script, FIRST).unwrap();
    let said = program().arg("--picture").arg(&script).output().unwrap();
    std::fs::remove_file(&script).unwrap();
    let name = script.file_name().unwrap().to_str().unwrap();
    assert!(said.status.success());
    assert_eq!(String::from_utf8(said.stdout).unwrap(), draw(name, FIRST.as_bytes(), false));
}
