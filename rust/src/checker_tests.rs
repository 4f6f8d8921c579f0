//! Lies that the checker has to catch, and truths that it has to accept.
use super::*;

fn check(script: &str, output: &str) -> Result<History, Unexplained> {
    let mut history = History::new(Geometry::new(32, 16));
    history.check(script, output, End::Whole)?;
    Ok(history)
}

/// A traced output from parts: `L` begins the next line of the script, `T told 4` is what the next turn of this life prints, all else stands as it is.
fn traced(parts: &[&str]) -> String {
    let (mut line, mut turn, mut output) = (0, 0, String::new());
    for part in parts {
        if *part == "L" {
            line += 1;
            output += &format!("# line {line}\n");
        } else if let Some(rest) = part.strip_prefix("T ") {
            turn += 1;
            output += &format!("# turn {turn}\n{rest}\n");
        } else {
            output += &format!("{part}\n");
        }
        turn = if part.ends_with("cut") { 0 } else { turn };
    }
    output + "erased 1 2\n"
}

fn explained(script: &[&str], parts: &[&str]) {
    let result = check(&script.join("\n"), &traced(parts));
    assert!(result.is_ok(), "{:?}", result.err());
}

fn unexplained(script: &[&str], parts: &[&str], line: u64) {
    let found = check(&script.join("\n"), &traced(parts)).err().expect("a lie is explained");
    assert_eq!(found.line, line, "{}", found.what);
}

#[test]
fn new_sectors_hold_noughts() {
    explained(&["read 0 9 2", "turn 1"], &["L", "L", "T told 0 00 00"]);
    unexplained(&["read 0 9 2", "turn 1"], &["L", "L", "T told 0 00 01"], 2);
}

#[test]
fn two_writes_under_way_have_no_order() {
    for last in ["01", "02"] {
        let script = ["write 0 5 1 01", "write 1 5 1 02", "turn 2", "read 2 5 1", "turn 1"];
        explained(&script, &["L", "L", "L", "T told 0", "T told 1", "L", "L", &format!("T told 2 {last}")]);
    }
    let script = ["write 0 5 1 01", "turn 1", "write 1 5 1 02", "turn 1", "read 2 5 1", "turn 1"];
    unexplained(&script, &["L", "L", "T told 0", "L", "L", "T told 1", "L", "L", "T told 2 01"], 6);
}

#[test]
fn a_read_may_stand_between() {
    let script = ["write 0 5 1 01", "read 1 5 1", "write 2 5 1 02", "turn 3"];
    for seen in ["00", "01", "02"] {
        explained(&script, &["L", "L", "L", "L", "T told 0", &format!("T told 1 {seen}"), "T told 2"]);
    }
    unexplained(&script, &["L", "L", "L", "L", "T told 0", "T told 1 03", "T told 2"], 4);
}

#[test]
fn a_read_after_a_write_was_told_sees_it() {
    let script = ["write 0 5 1 01", "turn 1", "read 1 5 1", "turn 1"];
    unexplained(&script, &["L", "L", "T told 0", "L", "L", "T told 1 00"], 4);
}

#[test]
fn an_unflushed_write_may_be_lost_or_kept() {
    for left in ["00", "07"] {
        let script = ["write 0 5 1 07", "turn 1", "cut 0", "read 0 5 1", "turn 1"];
        explained(&script, &["L", "L", "T told 0", "L", "cut", "L", "L", &format!("T told 0 {left}")]);
    }
}

#[test]
fn a_flushed_write_lasts() {
    let script = ["write 0 5 1 07", "turn 1", "flush 1", "turn 1", "cut 3", "read 2 6 1", "turn 1", "read 0 5 1", "turn 1"];
    let head = ["L", "L", "T told 0", "L", "L", "T told 1", "L", "L", "L", "T cut", "L", "L"];
    explained(&script, &[&head[..], &["T told 0 07"]].concat());
    unexplained(&script, &[&head[..], &["T told 0 00"]].concat(), 9);
}

#[test]
fn a_flush_covers_what_was_told_before_it_was_asked() {
    // the write is told after the flush was asked: it may be lost
    let script = ["flush 1", "write 0 5 1 07", "turn 2", "cut 0", "read 0 5 1", "turn 1"];
    explained(&script, &["L", "L", "L", "T told 0", "T told 1", "L", "cut", "L", "L", "T told 0 00"]);
    // it is told before
    let script = ["write 0 5 1 07", "turn 1", "flush 1", "turn 1", "cut 0", "read 0 5 1", "turn 1"];
    unexplained(&script, &["L", "L", "T told 0", "L", "L", "T told 1", "L", "cut", "L", "L", "T told 0 00"], 7);
}

#[test]
fn no_older_content_than_the_flushed_one() {
    let script = ["write 0 5 1 01", "turn 1", "write 0 5 1 02", "turn 1", "flush 1", "turn 1", "cut 0", "read 0 5 1", "turn 1"];
    let head = ["L", "L", "T told 0", "L", "L", "T told 0", "L", "L", "T told 1", "L", "cut", "L", "L"];
    explained(&script, &[&head[..], &["T told 0 02"]].concat());
    unexplained(&script, &[&head[..], &["T told 0 01"]].concat(), 9);
}

#[test]
fn a_sector_does_not_change_its_mind() {
    let script = ["write 0 5 1 07", "turn 1", "cut 0", "read 0 5 1", "turn 1", "cut 0", "read 0 5 1", "turn 1"];
    let head = ["L", "L", "T told 0", "L", "cut", "L", "L"];
    for (first, second, good) in [("00", "00", true), ("07", "07", true), ("00", "07", false), ("07", "00", false)] {
        let (first, second) = (format!("T told 0 {first}"), format!("T told 0 {second}"));
        let parts = [&head[..], &[&first, "L", "cut", "L", "L", &second]].concat();
        if good { explained(&script, &parts) } else { unexplained(&script, &parts, 8) }
    }
}

#[test]
fn a_cut_takes_each_sector_for_itself() {
    let script = ["write 0 8 8 07", "turn 1", "read 1 8 8", "turn 1"];
    explained(&script, &["L", "L", "T cut", "L", "L", "T told 1 07 00 07 07 00 00 07 00"]);
    unexplained(&script, &["L", "L", "T cut", "L", "L", "T told 1 07 00 07 07 00 00 07 01"], 4);
    // it is never told afterwards
    unexplained(&script, &["L", "L", "T cut", "L", "L", "T told 0"], 4);
}

#[test]
fn a_mixed_sector_is_never_right() {
    unexplained(&["read 0 5 1", "turn 1"], &["L", "L", "T told 0 mixed"], 2);
}

#[test]
fn a_trim_is_not_forgotten() {
    let script = ["write 0 5 1 07", "turn 1", "trim 0 5 1", "turn 1", "read 0 5 1", "turn 1"];
    explained(&script, &["L", "L", "T told 0", "L", "L", "T told 0", "L", "L", "T told 0 00"]);
    unexplained(&script, &["L", "L", "T told 0", "L", "L", "T told 0", "L", "L", "T told 0 07"], 6);
}

#[test]
fn told_once_and_with_the_right_number() {
    unexplained(&["flush 3", "turn 2"], &["L", "L", "T told 3", "T told 3"], 2);
    unexplained(&["flush 3", "turn 9"], &["L", "L", "T told 4"], 2);
    unexplained(&["flush 3", "turn 9"], &["L", "L", "T told 3 00"], 2);
    unexplained(&["read 3 0 2", "turn 9"], &["L", "L", "T told 3 00"], 2);
    unexplained(&["flush 3", "flush 4", "turn 1"], &["L", "L", "L", "T told 3", "T told 4"], 3);
}

#[test]
fn one_told_a_turn() {
    let script = "flush 3\nflush 4\nturn 9";
    let output = "# line 1\n# line 2\n# line 3\n# turn 1\ntold 3\ntold 4\nerased 0 0\n";
    assert!(check(script, output).is_err());
}

#[test]
fn refusals_are_exact() {
    let good = ["L", "refused 8 1", "L", "refused 7 2", "L", "refused 7 2", "L", "refused 7 3", "L", "L", "refused 5 1", "L", "line 7?"];
    let script = ["read 8 0 0", "read 7 0 0", "trim 7 400 9", "write 7 313 8 00", "flush 5", "flush 5", "flush"];
    explained(&script, &good);
    unexplained(&script[..1], &["L"], 1);
    unexplained(&["read 7 0 1"], &["L", "refused 7 3"], 1);
    unexplained(&["write 7 0 1 00"], &["L", "refused 7 4"], 1);
    unexplained(&["write 7 0 1 00"], &["L", "refused 7 5"], 1);
    unexplained(&["flush"], &["L"], 1);
}

#[test]
fn worn_out_only_after_the_work() {
    let mut history = History::new(Geometry::new(32, 16));
    history.work = 46_080 - 257;
    let refused = |history: &mut History, script: &str| history.check(script, "# line 1\nrefused 0 4\nerased 0 0\n", End::Whole);
    assert!(refused(&mut history.clone(), "write 0 0 1 01").is_err());
    history.work += 1;
    assert!(refused(&mut history.clone(), "write 0 0 1 01").is_ok());
    assert!(refused(&mut history.clone(), "read 0 0 1").is_err());
    assert!(refused(&mut history, "flush 0").is_err());
}

#[test]
fn a_command_ends_within_1024_turns() {
    let output = |turn: u64| format!("# line 1\n# line 2\n# turn {turn}\ntold 0\nerased 0 0\n");
    assert_eq!(check("flush 0\nturn 2000", &output(1024)).expect("in time").statistics().most_turns, 1024);
    assert!(check("flush 0\nturn 2000", &output(1025)).is_err());
    assert!(check("flush 0\nturn 2000", "# line 1\n# line 2\nerased 0 0\n").is_err());
    assert!(check("flush 0\nturn 600\nturn 600", "# line 1\n# line 2\n# line 3\nerased 0 0\n").is_err());
    assert!(check("flush 0\nturn 600\nturn 400", "# line 1\n# line 2\n# line 3\nerased 0 0\n").is_ok());
}

#[test]
fn lines_are_played_in_order_and_to_the_end() {
    assert!(check("turn 1\nturn 1", "# line 1\nerased 0 0\n").is_err());
    assert!(check("turn 1", "# line 1\n").is_err());
    assert!(check("turn 1", "# line 1\ncut\ncut\nerased 0 0\n").is_ok());
    assert!(check("seed 1", "# line 1\ncut\nerased 0 0\n").is_err());
}

#[test]
fn a_history_goes_on_over_plays() {
    let mut history = History::new(Geometry::new(32, 16));
    history.check("write 0 5 2 07\ncut 4\nturn 5\nflush 1", "# line 1\n# line 2\n# line 3\n# turn 1\ncut\n", End::AtCut).unwrap();
    assert_eq!(history.statistics().cuts, 1);
    history.check("cut 2\nturn 5", "# line 1\n# line 2\ncut\n", End::AtCut).unwrap();
    assert_eq!(history.cut_rises(), 1);
    let reads = |bytes: &str| format!("# line 1\n# line 2\n# turn 1\ntold 0 {bytes}\nerased 1 1\n");
    history.check("read 0 5 2\nturn 1", &reads("07 00"), End::Whole).unwrap();
    assert_eq!((history.cut_rises(), history.work()), (0, 3 * 256 + 2));
    assert!(history.clone().check("read 0 5 2\nturn 1", &reads("07 07"), End::Whole).is_err());
    history.check("read 0 5 2\nturn 1", &reads("07 00"), End::Whole).unwrap();
}

#[test]
fn a_play_that_ends_at_a_cut_has_to_end_there() {
    let mut history = History::new(Geometry::new(32, 16));
    let unplayed = history.check("flush 1\nturn 1\nturn 1", "# line 1\n# line 2\n# turn 1\ntold 1\n", End::AtCut);
    assert!(unplayed.is_err());
}

#[test]
fn what_was_under_way_may_be_flushed_by_a_later_flush() {
    // the write is taken before the flush is asked or after: a cut may leave either, but what a read told before the flush was asked lasts
    let script = ["write 0 5 1 07", "read 1 5 1", "turn 1", "flush 2", "turn 1", "cut 0", "read 0 5 1", "turn 1"];
    let head = ["L", "L", "L", "T told 1 07", "L", "L", "T told 2", "L", "cut", "L", "L"];
    explained(&script, &[&head[..], &["T told 0 07"]].concat());
    unexplained(&script, &[&head[..], &["T told 0 00"]].concat(), 8);
}

#[test]
fn eight_writes_of_one_sector() {
    let mut script: Vec<String> = (0..8).map(|tag| format!("write {tag} 5 1 1{tag}")).collect();
    script.push("turn 8".to_string());
    let mut parts: Vec<String> = vec!["L".to_string(); 9];
    parts.extend((0..8).map(|tag| format!("T told {tag}")));
    for byte in 0..8 {
        let mut script = script.clone();
        let mut parts = parts.clone();
        script.extend(["read 0 5 1".to_string(), "turn 1".to_string()]);
        parts.extend(["L".to_string(), "L".to_string(), format!("T told 0 1{byte}")]);
        explained(&script.iter().map(String::as_str).collect::<Vec<_>>(), &parts.iter().map(String::as_str).collect::<Vec<_>>());
    }
}
