//! `access` with a draft.

use std::path::Path;

use checker::access::{AccessArguments, UnusableDraft};
use checker::bytes::hex;
use checker::directive::Fields;
use checker::explain::{access_in_words, access_line};
use checker::request::Requester;

use crate::runs::{after, compare, directory, run, script, text, CHECKER};
use crate::support::*;

/// Person 600 in role 1 from origin 1 for treatment.
const Q: [&str; 4] = ["600", "1", "1", "0"];

fn digits(draft: Fields) -> String {
    hex(&draft.encode())
}

/// The deny of role 1 on everything under record 0, as number 2.
fn deny_all() -> Fields {
    draft(DENY, (ROLE, 1), 0, 2)
}

/// Runs `access` and checks all that it prints, and its status.
fn assert_prints(card: &Card, requester: [&str; 4], draft: &str, printed: &str, status: i32) {
    let arguments = [&["access"], &requester[..], &[draft]].concat();
    let output = run(&arguments, &card.bytes());
    assert_eq!(text(&output.stdout), printed, "{draft}");
    assert_eq!(output.status.code(), Some(status), "{draft}");
    assert_eq!(text(&output.stderr), "");
}

/// Origin 1 is among the origins of records 1 and 2.
#[test]
fn changes_are_marked() {
    let printed = "record 0: deny, basis 4 (default)\n\
         record 1: permit, basis 4 (default), changes to deny, basis 3 (directive 2)\n\
         record 2: permit, basis 4 (default), changes to deny, basis 3 (directive 2)\n\
         records that change: 2\n";
    assert_prints(&sample(), Q, &digits(deny_all()), printed, 0);
    // For purpose 1 the default denies, and a permit changes it.
    let permit = numbered(7, draft(PERMIT, (PERSON, 600), 2, 0));
    let printed = "record 0: deny, basis 4 (default)\n\
         record 1: deny, basis 4 (default)\n\
         record 2: deny, basis 4 (default), changes to permit, basis 3 (directive 7)\n\
         records that change: 1\n";
    assert_prints(
        &sample(),
        ["600", "1", "1", "1"],
        &digits(permit),
        printed,
        0,
    );
}

/// A new basis or number alone is no change, nor is a draft that begins later
/// one; the patient, and an author on their own record, stay. The last line
/// tells a draft that changes nothing from none.
#[test]
fn what_is_no_change_is_not_marked() {
    let now = "record 0: deny, basis 4 (default)\n\
         record 1: permit, basis 4 (default)\n\
         record 2: permit, basis 4 (default)\n\
         records that change: 0\n";
    let permit = draft(PERMIT, (ROLE, 1), 0, 2);
    assert_prints(&sample(), Q, &digits(permit), now, 0);
    let later = over(1001, 2000, deny_all());
    assert_prints(&sample(), Q, &digits(later), now, 0);
    let after_a = sample().with(&[numbered(5, deny_all())]);
    let lower = numbered(3, draft(DENY, (ROLE, 0), 0, 2));
    let directive = "deny, basis 3 (directive 5)";
    let printed = format!(
        "record 0: deny, basis 4 (default)\nrecord 1: {directive}\nrecord 2: {directive}\n\
         records that change: 0\n"
    );
    assert_prints(&after_a, Q, &digits(lower), &printed, 0);
    let patient = "record 0: permit, basis 1 (patient)\n\
         record 1: permit, basis 1 (patient)\n\
         record 2: permit, basis 1 (patient)\n\
         records that change: 0\n";
    let deny = digits(deny_all());
    assert_prints(&sample(), ["7", "1", "1", "0"], &deny, patient, 0);
    let author = "record 0: deny, basis 4 (default)\n\
         record 1: permit, basis 2 (author)\n\
         record 2: permit, basis 4 (default), changes to deny, basis 3 (directive 2)\n\
         records that change: 1\n";
    assert_prints(&sample(), ["501", "1", "1", "0"], &deny, author, 0);
}

/// Each question 6 to 14, of 13 with the lowest number.
#[test]
fn refused_drafts() {
    let after_a = sample().with(&[numbered(9, deny_all()), directive_a()]);
    let full = (100..132).map(|number| numbered(number, draft(PERMIT, (PERSON, number), 0, 0)));
    let full = sample().with(&full.collect::<Vec<Fields>>());
    let a = directive_a();
    for (card, draft, refused) in [
        (&after_a, hex(&a.encode()[..24]), "6"),
        (&after_a, digits(Fields { effect: 2, ..a }), "7"),
        (&after_a, digits(Fields { record: 3, ..a }), "8"),
        (&after_a, digits(over(2000, 2000, a)), "9"),
        (&after_a, digits(a), "10"),
        (&full, digits(a), "11"),
        (&after_a, digits(draft(DENY, (PERSON, 7), 0, 0)), "12"),
        (
            &after_a,
            digits(draft(PERMIT, (PERSON, 600), 1, 0)),
            "13, directive 1",
        ),
        (&after_a, digits(draft(DENY, (ROLE, 2), 1, 1)), "14"),
    ] {
        let printed = format!("draft refused: question {refused}\n");
        assert_prints(card, Q, &draft, &printed, 1);
        // A requester out of range is looked at later.
        assert_prints(card, ["600", "9", "99", "99"], &draft, &printed, 1);
        // The card is looked at before.
        let cut = Card {
            records: Vec::new(),
            ..sample()
        };
        assert_prints(&cut, Q, &draft, "card refused: question 5\n", 1);
    }
}

/// Of an accepted draft, whether it changes anything or not.
#[test]
fn the_requester_is_refused_last() {
    let refused = "requester refused: question 17\n";
    for requester in [
        ["600", "4", "1", "0"],
        ["600", "1", "16", "0"],
        ["7", "1", "1", "11"],
    ] {
        for draft in [deny_all(), over(1500, 2000, deny_all())] {
            assert_prints(&sample(), requester, &digits(draft), refused, 1);
        }
    }
}

#[test]
fn the_digits_of_a_draft() {
    let lower = digits(deny_all());
    let (upper, mixed) = (lower.to_ascii_uppercase(), lower.replace("ff", "fF"));
    let [one, two, three] = [lower, upper, mixed].map(|digits| {
        let arguments = [&["access"], &Q[..], &[digits.as_str()]].concat();
        run(&arguments, &sample().bytes())
    });
    assert_eq!(one.status.code(), Some(0));
    assert_eq!((&one, &one), (&two, &three));
    for draft in ["".to_string(), "00".to_string(), "aB".repeat(512)] {
        assert_prints(&sample(), Q, &draft, "draft refused: question 6\n", 1);
    }
}

/// They are told before the input is read.
#[test]
fn digits_that_cannot_be_used() {
    let digits = digits(deny_all());
    for draft in [
        "0".to_string(),
        format!("{digits}0"),
        format!("{digits} "),
        format!(" {digits}"),
        digits.replace("ff", "f f"),
        digits.replace("ff", "fg"),
        format!("0x{digits}"),
        format!("+{digits}"),
        "é".to_string(),
        "0".repeat(1025),
        "0".repeat(1026),
    ] {
        let taken = AccessArguments {
            draft: Some(draft.clone()),
            ..arguments(deny_all())
        };
        assert_eq!(taken.draft_bytes(), Err(UnusableDraft));
        let arguments = [&["access"], &Q[..], &[draft.as_str()]].concat();
        let output = run(&arguments, &[]);
        assert_eq!(output.status.code(), Some(2), "{draft}");
        assert_eq!(text(&output.stdout), "");
        let wrong = "is not an even number of hexadecimal digits, at most 1024";
        assert!(text(&output.stderr).contains(wrong), "{draft}");
    }
}

/// A program that takes the arguments in its own way.
fn assert_found(folder: &Path, taken: &str) {
    let program = script(folder, &format!("{taken}\n"));
    let arguments = ["--access", &program, "--cards", "1000", "--shrink", "0"];
    let output = compare(&arguments, &directory("access-drafts"));
    assert_eq!(output.status.code(), Some(1), "{taken}");
    assert!(after(&output, "different: ").ends_with(".card"), "{taken}");
}

#[test]
fn programs_that_take_drafts_wrongly_are_found() {
    let folder = directory("access-drafts-scripts");
    let run = format!("{CHECKER} access");
    let of_draft = format!("{run} \"$@\" > $0.out; status=$?");
    for taken in [
        // The draft is not looked at, or not unless it is there.
        format!("exec {run} $1 $2 $3 $4"),
        format!("test -n \"$5\" && exec {run} \"$@\"; exec {run} $1 $2 $3 $4"),
        // Digits in one case, blanks left out, no bound, an odd one cut off.
        format!("case $5 in *[A-F]*) exit 2;; esac; exec {run} \"$@\""),
        format!("exec {run} $*"),
        format!(
            "test ${{#5}} -gt 1024 && echo draft refused: question 6 && exit 1; exec {run} \"$@\""
        ),
        format!("test ${{#5}} -gt 1022 && exit 2; exec {run} \"$@\""),
        // The mark is missing, everything decided is as after.
        format!("{of_draft}; sed 's/, changes to .*//' $0.out; exit $status"),
        format!("{of_draft}; sed 's/: .*, changes to /: /' $0.out; exit $status"),
        // The last line is missing, or missing where nothing changes, or says
        // that nothing does.
        format!("{of_draft}; sed '/^records/d' $0.out; exit $status"),
        format!("{of_draft}; sed '/^records.* 0$/d' $0.out; exit $status"),
        format!("{of_draft}; sed 's/^\\(records.* \\).*/\\10/' $0.out; exit $status"),
        // The number of 13 is missing, the requester is looked at first.
        format!("{of_draft}; sed 's/\\(question 13\\), .*/\\1/' $0.out; exit $status"),
        format!(
            "test $3 -gt 15 && echo requester refused: question 17 && exit 1; exec {run} \"$@\""
        ),
        // Arguments that cannot be used are a refusal.
        format!("{of_draft}; cat $0.out; exit $((status > 0))"),
    ] {
        assert_found(&folder, &taken);
    }
}

/// What is quoted in the report on a program that prints nothing where the
/// draft is like this pattern.
fn quoted_draft(pattern: &str) -> String {
    let run = format!("exec {CHECKER} access \"$@\"");
    let without_draft = format!("test $# -eq 4 && {run}");
    let text = format!("{without_draft}\ncase $5 in {pattern}) exit 0;; esac; {run}\n");
    let program = script(&directory("access-quoted-scripts"), &text);
    let arguments = ["--access", &program, "--cards", "1000", "--shrink", "0"];
    let output = compare(&arguments, &directory("access-quoted"));
    let shown = after(&output, "arguments ");
    let (_, draft) = shown.split_once('\'').expect("a quoted argument");
    draft.strip_suffix('\'').expect("its end").to_string()
}

/// A blank and an empty argument are quoted in the report.
#[test]
fn arguments_are_quoted_in_a_report() {
    assert_eq!(quoted_draft("''"), "");
    assert!(quoted_draft("*' '*").contains(' '));
}

fn arguments(draft: Fields) -> AccessArguments {
    AccessArguments {
        requester: Requester {
            person: 600,
            role: 1,
            origin: 1,
            purpose: 0,
        },
        draft: Some(digits(draft)),
    }
}

#[test]
fn lines_with_a_draft_in_words() {
    for (line, words) in [
        (
            "record 1: permit, basis 4 (default), changes to deny, basis 3 (directive 7)",
            "on record 1: permit, basis 4, the default consent, changes to deny, basis 3, directive 7",
        ),
        (
            "draft refused: question 13, directive 9",
            "the draft is refused by question 13: Is it free of conflict with the active \
             directives? No, with directive 9.",
        ),
        (
            "draft refused: question 6",
            "the draft is refused by question 6: Is the draft 25 bytes long?",
        ),
        ("records that change: 2", "the draft would change 2 records"),
        ("records that change: 0", "the draft would change no records"),
        ("records that change: 02", "no line that access can print"),
        ("records that change", "no line that access can print"),
        ("draft refused: question 13", "no line that access can print"),
        ("draft refused: question 12, directive 9", "no line that access can print"),
        ("card refused: question 13, directive 9", "no line that access can print"),
        ("record 1: permit, basis 4 (default), changes", "no line that access can print"),
    ] {
        assert_eq!(access_in_words(line), words);
    }
    let card = sample().bytes();
    let words = |draft, place| {
        let explained = access_line(&card, &arguments(draft), place).expect("there is such a line");
        explained.words
    };
    let now = "Decide: person 600 in role 1 asks for access to record 1 from origin 1, for \
               treatment (purpose 0).\n\
               Decision: permit, basis 4, the default consent. No active directive matches, \
               origin 1 is among the origins of record 1 (0, 1), the purpose is treatment.\n\
               With the draft: ";
    let before = "permit, basis 4, the default consent";
    for (draft, change) in [
        (
            deny_all(),
            format!("{before}, becomes deny, basis 3, directive 2."),
        ),
        (
            draft(PERMIT, (ROLE, 1), 1, 0),
            format!(
                "{before}, gets basis 3, directive 2. A new basis or number alone is no change."
            ),
        ),
        (over(1001, 2000, deny_all()), "no change.".to_string()),
    ] {
        assert_eq!(words(draft, 1), format!("{now}{change}"));
    }
    let counted = words(deny_all(), 3);
    assert!(counted.starts_with("Preview: directive 2 denies access by role 1"));
    let changes = "\nWould change 2 of 3 records: records 1, 2.\n- record 1: ";
    assert!(counted.contains(changes), "{counted}");
    assert_eq!(access_line(&card, &arguments(deny_all()), 4), None);
    let refused = words(draft(PERMIT, (ROLE, 9), 1, 0), 0);
    assert!(refused.starts_with("Preview: directive 2 permits access by role 9"));
    assert!(refused.contains("\nRefused by question 8: "), "{refused}");
    let unusable = AccessArguments {
        draft: Some("0".to_string()),
        ..arguments(deny_all())
    };
    assert_eq!(access_line(&card, &unusable, 0), None);
}
