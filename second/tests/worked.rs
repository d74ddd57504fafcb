//! The yards worked through by hand.

use second::controller::{Controller, Heard};
use second::duty::{Duty, Outcome, Value};
use second::refusal::Refusal;
use second::rounds::{Word, confirm, lead, poll};
use second::sets::{Draft, Sealed, group_of_number};
use second::trial::families::FOUR_LEADS;
use second::yard::run;

/// Drafts a yard from numbers whose bits name the members of the sets.
fn draft(n: usize, numbers: &[u32]) -> Draft {
    let mut draft = Draft::new(n).unwrap();
    for &number in numbers {
        draft.add(group_of_number(number)).unwrap();
    }
    draft
}

/// The yard of four.
fn four() -> Sealed {
    draft(4, &[7, 11, 13, 14]).seal().unwrap()
}

/// A row of plans, 0 standing for nothing.
fn row(plans: &[u32]) -> Vec<Word> {
    plans
        .iter()
        .map(|&p| if p == 0 { None } else { Some(Value::Plan(p)) })
        .collect()
}

/// The answers to a text written with blanks for tabs.
fn answers(text: &str) -> String {
    String::from_utf8(run(text.replace(' ', "\t").as_bytes()))
        .unwrap()
        .replace('\t', " ")
}

#[test]
fn four_controllers_have_two_leads_and_six_rounds() {
    let table = four();
    assert_eq!(table.leads(), [0, 1]);
    let duty = Duty::plans(9).unwrap();
    let mut controller = Controller::open(table, duty, Value::Plan(4)).unwrap();
    for due in 2..=6 {
        assert_eq!(controller.hear(&row(&[4, 4, 4, 4])), Ok(Heard::Round(due)));
    }
    assert_eq!(
        controller.hear(&row(&[4, 4, 4, 4])),
        Ok(Heard::Closed(Value::Plan(4), Outcome::Taken))
    );
    assert_eq!(controller.round(), 1);
}

#[test]
fn one_controller_has_three_rounds() {
    let table = draft(1, &[1]).seal().unwrap();
    assert_eq!(table.leads(), [0]);
    let duty = Duty::plans(9).unwrap();
    let mut controller = Controller::open(table, duty, Value::Plan(4)).unwrap();
    assert_eq!(controller.hear(&row(&[4])), Ok(Heard::Round(2)));
    assert_eq!(controller.hear(&row(&[4])), Ok(Heard::Round(3)));
    assert_eq!(
        controller.hear(&row(&[4])),
        Ok(Heard::Closed(Value::Plan(4), Outcome::Taken))
    );
}

#[test]
fn sets_without_a_common_controller_are_refused() {
    assert_eq!(draft(3, &[3, 5, 6]).seal(), Err(Refusal::NoCommon));
    assert_eq!(draft(2, &[1, 2]).seal(), Err(Refusal::NoCommon));
}

#[test]
fn a_cabinet_of_three_weighs_as_one() {
    let table = draft(6, &[56, 55, 47, 31]).seal().unwrap();
    assert_eq!(table.leads(), [0, 3]);
}

#[test]
fn yards_with_many_leads() {
    let fives: Vec<u32> = (0..1 << 7).filter(|s: &u32| s.count_ones() == 5).collect();
    assert_eq!(draft(7, &fives).seal().unwrap().leads(), [0, 1, 2]);
    assert_eq!(draft(15, &FOUR_LEADS).seal().unwrap().leads().len(), 4);
}

#[test]
fn poll_on_four() {
    assert_eq!(poll(&four(), &row(&[7, 7, 7, 9])), Some(Value::Plan(7)));
    assert_eq!(poll(&four(), &row(&[7, 7, 9, 9])), None);
}

#[test]
fn confirm_on_four() {
    let held = Value::Plan(4);
    let told = |plans: &[u32]| confirm(&four(), held, &row(plans));
    assert_eq!(told(&[7, 7, 0, 0]), (Value::Plan(7), false));
    assert_eq!(told(&[7, 0, 0, 0]), (Value::Plan(4), false));
    assert_eq!(told(&[7, 7, 7, 0]), (Value::Plan(7), true));
    assert_eq!(told(&[7, 7, 9, 9]), (Value::Plan(7), false));
}

#[test]
fn lead_on_four() {
    let z = Value::Plan(4);
    assert_eq!(lead(0, z, false, &row(&[0, 9, 9, 9])), z);
    assert_eq!(lead(0, z, false, &row(&[9, 1, 1, 1])), Value::Plan(9));
    assert_eq!(lead(0, z, true, &row(&[9, 9, 9, 9])), z);
}

#[test]
fn an_unfit_word_of_the_lead_counts_as_nothing() {
    let opening = "controllers 4\nset 0 1 2\nset 0 1 3\nset 0 2 3\nset 1 2 3\nseal\nplans 9 4\n";
    let rows = "hear - - - -\nhear - - - -\nhear 10 9 9 9\n\
                hear - - - -\nhear - - - -\nhear 9 10 9 9\n";
    let all = answers(&format!("{opening}{rows}"));
    assert!(all.ends_with("12 round 6\n13 closed 4 taken\n"), "{all}");
}

#[test]
fn a_board_never_passes_its_feed() {
    let grant = |bay, amps| Value::Grant { bay, amps };
    let mut board = Duty::board(2, 100).unwrap();
    assert_eq!(board.take(grant(0, 60)), Ok(Outcome::Taken));
    assert_eq!(board.take(grant(1, 40)), Ok(Outcome::Taken));
    assert_eq!(board.take(grant(1, 41)), Ok(Outcome::Aside));
    assert_eq!(
        board,
        Duty::Board {
            feed: 100,
            bays: vec![60, 40]
        }
    );
    assert_eq!(board.take(grant(2, 0)), Err(Refusal::Unfit));
    assert_eq!(board.take(grant(0, 1_001)), Err(Refusal::Unfit));
}

#[test]
fn the_text_of_eight_lines() {
    let text = "controllers 1\nset 0\nseal\nplans 9 4\nhear 4\nhear 4\nhear 4\nhear 4 4\n";
    let told = "1 ok\n2 ok\n3 sealed 0\n4 ok\n5 round 2\n6 round 3\n7 closed 4 taken\n\
                8 refused 3 0\n";
    assert_eq!(answers(text), told);
}

#[test]
fn faults_of_form_name_their_field() {
    let opening = "controllers 3\nset 0 1 2\nseal\nplans 9 4\n";
    for (line, told) in [
        ("", "7 1"),
        ("seal\r", "7 1"),
        (" seal", "7 1"),
        ("controllers", "7 2"),
        ("controllers ", "7 2"),
        ("controllers 4 ", "7 3"),
        ("controllers 04", "7 2"),
        ("controllers 100000", "7 2"),
        ("controllers 99999", "1 0"),
        ("controllers 0", "1 0"),
        ("controllers 17", "1 0"),
        ("set 1 0", "7 3"),
        ("set 0 1 1", "7 4"),
        ("set 0 16 15", "7 4"),
        ("set", "2 0"),
        ("set 3", "2 0"),
        ("set 0 16", "2 0"),
        ("set 0", "12 1"),
        ("seal x", "7 2"),
        ("plans 9", "7 3"),
        ("plans 9 4 1", "7 4"),
        ("plans 0 0", "6 0"),
        ("plans 10000 1", "6 0"),
        ("plans 9 10", "4 0"),
        ("plans 9 1/1", "7 3"),
        ("board 0 0 0/0", "6 0"),
        ("board 65 0 0/0", "6 0"),
        ("board 64 32001 0/0", "6 0"),
        ("board 64 32000 64/0", "4 0"),
        ("board 64 32000 0/1001", "4 0"),
        ("board 64 32000 1", "7 4"),
        ("board 64 32000 -", "7 4"),
        ("offer -", "7 2"),
        ("offer 0", "4 0"),
        ("offer 1/1", "7 2"),
        ("hear", "3 0"),
        ("hear ", "7 2"),
        ("hear 1 1", "3 0"),
        ("hear 1 1 1/1", "7 4"),
        ("hear 1 1 1 1", "3 0"),
    ] {
        let all = answers(&format!("{opening}{line}\n"));
        assert!(
            all.ends_with(&format!("\n5 refused {told}\n")),
            "{line}: {all}"
        );
    }
}

#[test]
fn lines_before_what_they_need() {
    for line in ["set x", "seal x", "plans x", "board x", "offer x", "hear x"] {
        assert_eq!(answers(line), "1 refused 16 0\n");
    }
    assert_eq!(answers("controllers 1\nplans x"), "1 ok\n2 refused 16 0\n");
    assert_eq!(answers("controllers 1\nseal"), "1 ok\n2 refused 13 0\n");
}

#[test]
fn a_line_over_256_bytes_is_refused_at_field_0() {
    let opening = "controllers 3\nset 0 1 2\nseal\nplans 9 4\n";
    let row = format!("{opening}hear{}", " -".repeat(126));
    assert!(answers(&row).ends_with("\n5 refused 3 0\n"));
    let row = format!("{opening}hear{} 11", " -".repeat(125));
    assert!(answers(&row).ends_with("\n5 refused 7 0\n"));
    assert_eq!(answers(&"x".repeat(256)), "1 refused 7 1\n");
    assert_eq!(answers(&"x".repeat(257)), "1 refused 7 0\n");
}

#[test]
fn a_later_seal_leaves_a_standing_controller_its_own() {
    let text = "controllers 2\nset 0\nseal\nplans 9 4\nset 1\nseal\n\
                hear 4 -\nhear 4 -\nhear 4 -\ncontrollers 17\nhear 4 -\ncontrollers 2\nhear 4 -\n";
    let told = "1 ok\n2 ok\n3 sealed 0\n4 ok\n5 ok\n6 refused 14 0\n\
                7 round 2\n8 round 3\n9 closed 4 taken\n10 refused 1 0\n11 round 2\n12 ok\n\
                13 refused 16 0\n";
    assert_eq!(answers(text), told);
}

#[test]
fn the_draft_takes_64_sets() {
    let mut text = String::from("controllers 16\n");
    let elevens = (0..1u32 << 16).filter(|number| number.count_ones() == 11);
    for number in elevens.take(65) {
        let members: Vec<String> = group_of_number(number)
            .iter()
            .map(|c| c.to_string())
            .collect();
        text.push_str(&format!("set {}\n", members.join(" ")));
    }
    text.push_str("seal\n");
    let all = answers(&text);
    assert!(
        all.contains("\n65 ok\n66 refused 11 0\n67 sealed "),
        "{all}"
    );
}

#[test]
fn where_lines_end() {
    assert_eq!(answers(""), "");
    assert_eq!(answers("\n"), "1 refused 7 1\n");
    assert_eq!(answers("\n\n"), "1 refused 7 1\n2 refused 7 1\n");
    assert_eq!(answers("controllers 1"), "1 ok\n");
    assert_eq!(answers("controllers 1\n"), "1 ok\n");
}

#[test]
fn a_run_ends_after_a_million_lines() {
    let text = "\n".repeat(1_000_002);
    let all = answers(&text);
    assert!(all.ends_with("\n1000000 refused 7 1\n"));
}
