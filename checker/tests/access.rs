//! The tables of `access`, its requesters, and programs that do it wrong.

use std::collections::BTreeSet;
use std::fs;
use std::path::Path;
use std::process::Output;

use checker::access::{access, Access, AccessArguments};
use checker::access_counts::AccessCounts;
use checker::card;
use checker::cardcheck::take_card;
use checker::directive::Subject;
use checker::explain::{access_in_words, access_line};
use checker::generate::{access_arguments, inputs, Input};
use checker::ledger::Ledger;
use checker::refusal::Refusal;
use checker::request::Requester;

use crate::runs::{
    after, changed, compare, different, directory, fed, files, own, run, script, text, CHECKER,
};
use crate::samples::stored;
use crate::support::sample;

/// So many cards that every answer of `access` occurs.
const CARDS: u64 = 1000;

fn by(person: u16, role: u16, origin: u8, purpose: u8) -> Requester {
    Requester {
        person,
        role,
        origin,
        purpose,
    }
}

fn alone(requester: Requester) -> AccessArguments {
    AccessArguments {
        requester,
        draft: None,
    }
}

fn answer(card: &[u8], arguments: &AccessArguments) -> Access {
    access(card, arguments).expect("a slice can be read")
}

fn lines(card: &[u8], requester: Requester) -> String {
    answer(card, &alone(requester)).to_string()
}

/// The lines of the demonstration's card, typed from the words of its text.
fn assert_demo(requester: Requester, expected: [&str; 12]) {
    let records = expected.iter().enumerate();
    let expected: String = records
        .map(|(record, decision)| format!("record {record}: {decision}\n"))
        .collect();
    assert_eq!(lines(&stored("demo.card"), requester), expected);
    let arguments = [&["access".to_string()], &alone(requester).words()[..]].concat();
    let output = run(&arguments, &stored("demo.card"));
    assert_eq!(text(&output.stdout), expected);
    assert_eq!(output.status.code(), Some(0));
    assert_eq!(text(&output.stderr), "");
}

const PATIENT: &str = "permit, basis 1 (patient)";
const AUTHOR: &str = "permit, basis 2 (author)";
const YES: &str = "permit, basis 4 (default)";
const NO: &str = "deny, basis 4 (default)";
/// Nobody may read the notes of psychotherapy.
const NOTES: &str = "deny, basis 3 (directive 6)";

/// For any purpose, from anywhere, in any role.
#[test]
fn the_patient_reads_everything() {
    assert_demo(by(42, 3, 5, 10), [PATIENT; 12]);
    assert_demo(by(42, 0, 0, 0), [PATIENT; 12]);
}

/// The family doctor at the practice: their own records, the ECG by directive
/// 1, the letter as the practice is among its origins.
#[test]
fn the_family_doctor() {
    assert_demo(
        by(101, 1, 0, 0),
        [
            AUTHOR,
            AUTHOR,
            AUTHOR,
            AUTHOR,
            NO,
            "permit, basis 3 (directive 1)",
            YES,
            NO,
            NO,
            NO,
            NO,
            NOTES,
        ],
    );
}

/// The cardiologist in the hospital: what the hospital is an origin of, and
/// their own records.
#[test]
fn the_cardiologist() {
    assert_demo(
        by(102, 2, 1, 0),
        [
            NO, NO, YES, YES, AUTHOR, AUTHOR, AUTHOR, NO, YES, YES, NO, NOTES,
        ],
    );
    // As another doctor there: the ECG by directive 1.
    let ecg = "permit, basis 3 (directive 1)";
    assert_demo(
        by(105, 2, 1, 0),
        [NO, NO, YES, YES, YES, ecg, YES, NO, YES, YES, NO, NOTES],
    );
    // For research: directive 1 is for treatment, and so is the default.
    assert_demo(
        by(105, 2, 1, 2),
        [NO, NO, NO, NO, NO, NO, NO, NO, NO, NO, NO, NOTES],
    );
}

/// The neighbour, a nurse in the hospital: both 3 and 4 deny the HIV test.
#[test]
fn the_neighbour() {
    let (third, fourth) = ("deny, basis 3 (directive 3)", "deny, basis 3 (directive 4)");
    assert_demo(
        by(201, 3, 1, 0),
        [
            NO, NO, YES, YES, YES, YES, YES, NO, fourth, third, NO, NOTES,
        ],
    );
    assert_demo(
        by(201, 0, 1, 0),
        [
            NO, NO, YES, YES, YES, YES, YES, NO, fourth, fourth, NO, NOTES,
        ],
    );
}

#[test]
fn a_pharmacist_and_the_psychotherapist() {
    let plan = "permit, basis 3 (directive 2)";
    assert_demo(
        by(300, 4, 3, 0),
        [NO, NO, NO, plan, NO, NO, NO, NO, NO, NO, NO, NOTES],
    );
    assert_demo(
        by(104, 0, 4, 0),
        [NO, NO, NO, NO, NO, NO, NO, NO, NO, NO, AUTHOR, AUTHOR],
    );
}

/// Directive 5 begins at minute 110000.
#[test]
fn the_study_nurse_before_and_after_the_beginning() {
    let test = "deny, basis 3 (directive 3)";
    let nurse = by(202, 3, 1, 2);
    let before = [NO, NO, NO, NO, NO, NO, NO, NO, NO, test, NO, NOTES];
    assert_demo(nurse, before);
    let mut card = stored("demo.card");
    card[6..10].copy_from_slice(&110_000u32.to_be_bytes());
    let begun = lines(&card, nurse);
    let expected = "record 5: permit, basis 3 (directive 5)\nrecord 6: deny, basis 4 (default)\n";
    assert!(begun.contains(expected), "{begun}");
    card[6..10].copy_from_slice(&109_999u32.to_be_bytes());
    assert_eq!(lines(&card, nurse), lines(&stored("demo.card"), nurse));
}

fn assert_refused(arguments: [&str; 4], card: &[u8], line: &str) {
    let output = run(&[&["access"], &arguments[..]].concat(), card);
    assert_eq!(text(&output.stdout), format!("{line}\n"));
    assert_eq!(output.status.code(), Some(1));
    assert_eq!(text(&output.stderr), "");
}

/// The card has 5 roles.
#[test]
fn requesters_out_of_range_are_refused() {
    let card = stored("demo.card");
    let refused = "requester refused: question 17";
    for arguments in [
        ["42", "5", "0", "0"],
        ["42", "256", "0", "0"],
        ["42", "0", "16", "0"],
        ["42", "0", "255", "0"],
        ["42", "0", "0", "11"],
        ["42", "0", "0", "255"],
        ["1", "65535", "255", "255"],
    ] {
        assert_refused(arguments, &card, refused);
    }
    let last = run(&["access", "65535", "4", "15", "10"], &card);
    assert_eq!(text(&last.stdout).lines().count(), 12);
}

#[test]
fn the_card_is_judged_first() {
    for arguments in [["42", "0", "0", "0"], ["42", "99", "99", "99"]] {
        assert_refused(arguments, &[], "card refused: question 5");
        let cut = &stored("demo.card")[..50];
        assert_refused(arguments, cut, "card refused: question 1");
    }
    // Of question 13 the number of the question alone.
    for input in inputs(1, 300, 0) {
        let bytes = take_card(&input.bytes[..]).expect("a slice can be read");
        if let Err(Refusal::Conflict(_)) = card::read(&bytes) {
            let line = "card refused: question 13";
            return assert_refused(["1", "0", "0", "0"], &input.bytes, line);
        }
    }
    panic!("no card is refused by 13");
}

#[test]
fn numbers_may_begin_with_zeros() {
    let card = stored("demo.card");
    let one = run(&["access", "00042", "00001", "00010", "00008"], &card);
    assert_eq!(one, run(&["access", "42", "1", "10", "8"], &card));
    assert_eq!(one.status.code(), Some(0));
}

/// The first 65,535 bytes are the card.
#[test]
fn access_cuts_its_input() {
    for input in inputs(1, 102, 0).filter(|input| input.bytes.len() > 65_535) {
        let whole = run(&["access", "1", "0", "0", "0"], &input.bytes);
        let cut = run(&["access", "1", "0", "0", "0"], &input.bytes[..65_535]);
        assert_eq!(whole, cut, "{}", input.file_name());
    }
}

/// An accepted card's ledger, with its requester.
fn accepted(seed: u64, cards: u64) -> Vec<(Ledger, Requester)> {
    let mut accepted = Vec::new();
    for input in inputs(seed, cards, 0) {
        let bytes = take_card(&input.bytes[..]).expect("a slice can be read");
        if let Ok(ledger) = card::read(&bytes) {
            accepted.push((ledger, access_arguments(&input).requester));
        }
    }
    accepted
}

#[test]
fn requesters_of_every_sort_are_drawn_often() {
    for seed in [1, 2, 3] {
        let all = accepted(seed, 2000);
        let often = |what: &str, least: usize, is: fn(&Ledger, &Requester) -> bool| {
            let count = all.iter().filter(|(ledger, one)| is(ledger, one)).count();
            assert!(count >= least, "seed {seed}, {what}: {count}");
        };
        often("patients", 80, |ledger, one| one.person == ledger.patient());
        often("authors", 150, |ledger, one| {
            let records = ledger.register().records();
            records.iter().any(|record| record.author == one.person)
        });
        often("persons in directives", 150, |ledger, one| {
            let mut active = ledger.active().iter();
            active.any(|directive| directive.subject == Subject::Person(one.person))
        });
        let in_range = |ledger: &Ledger, one: &Requester| {
            let role = ledger.register().has_role(one.role);
            (role, one.origin < 16, one.purpose < 11)
        };
        for (wrong, least) in [
            ((true, true, true), 500),
            ((false, true, true), 30),
            ((true, false, true), 20),
            ((true, true, false), 20),
        ] {
            let count = all
                .iter()
                .filter(|(ledger, one)| in_range(ledger, one) == wrong);
            let count = count.count();
            assert!(count >= least, "seed {seed}, {wrong:?}: {count}");
        }
        let origins: BTreeSet<u8> = all.iter().map(|(_, one)| one.origin).collect();
        let purposes: BTreeSet<u8> = all.iter().map(|(_, one)| one.purpose).collect();
        assert!((0..=16).all(|origin| origins.contains(&origin)));
        assert!((0..=11).all(|purpose| purposes.contains(&purpose)));
    }
}

/// The seed, the index and the card fix them.
#[test]
fn the_same_arguments_are_drawn_again() {
    let all = |seed| -> Vec<AccessArguments> {
        let cards = inputs(seed, 50, 0);
        cards.map(|input| access_arguments(&input)).collect()
    };
    assert_eq!(all(4), all(4));
    assert_ne!(all(4), all(5));
}

fn counts(inputs: impl Iterator<Item = Input>) -> AccessCounts {
    let mut counts = AccessCounts::default();
    for input in inputs {
        counts.add(&access_arguments(&input), &access_of(&input));
    }
    counts
}

/// Of 20,000 cards.
#[test]
fn every_sort_of_run_occurs_often() {
    for (run, count) in counts(inputs(1, 20_000, 0)).runs() {
        assert!(count >= 50, "{run}: {count}");
    }
}

#[test]
fn what_did_not_occur_is_named() {
    assert_eq!(counts(inputs(11, CARDS, 0)).missing(), [""; 0]);
    let missing = AccessCounts::default().missing();
    // 4 sorts of answers, 4 outcomes and 9 refusals of drafts, 8 ways to write
    // one, 6 bases.
    assert_eq!(missing.len(), 4 + 4 + 9 + 8 + 6);
    for what in [
        "tables of access",
        "cards refused by access",
        "requesters refused by access",
        "tables with a draft, with a new basis or number alone",
        "tables with a draft, from deny to permit",
        "drafts refused by access with 14",
        "unusable drafts with a blank",
        "permit with basis 1 by access",
        "deny with basis 4 by access",
    ] {
        assert!(missing.contains(&what.to_string()), "{what}");
    }
    let out = directory("access-missing");
    let output = compare(&["--access", &own("access"), "--cards", "3"], &out);
    assert_eq!(output.status.code(), Some(1));
    let stdout = text(&output.stdout);
    let (_, missing) = stdout
        .split_once("3 cards and 0 replays, 0 different\n")
        .expect("nothing is different");
    assert!(missing.contains("missing: refusal 3 of a card\n"));
    assert!(missing.contains(" by access\n"), "{missing}");
}

/// Alone, and with the others; every wanted answer occurs.
#[test]
fn the_checker_does_not_differ_from_itself_in_access() {
    let out = directory("access-same");
    let cards = CARDS.to_string();
    let alone = compare(&["--access", &own("access"), "--cards", &cards], &out);
    let stdout = text(&alone.stdout);
    assert!(alone.status.success(), "{stdout}");
    let end = format!("\n{CARDS} cards and 0 replays, 0 different\n");
    assert!(stdout.ends_with(&end));
    let (cardcheck, access, replay) = (own("cardcheck"), own("access"), own("replay"));
    let programs = [
        "--cardcheck",
        &cardcheck,
        "--access",
        &access,
        "--replay",
        &replay,
    ];
    let counts = ["--cards", &cards, "--replays", "150"];
    let all = compare(&[&programs[..], &counts].concat(), &out);
    let both = text(&all.stdout);
    assert!(all.status.success(), "{both}");
    let both_end = format!("\n{CARDS} cards and 150 replays, 0 different\n");
    assert!(both.ends_with(&both_end));
    let (_, tables) = stdout.split_once("\n  access ").expect("its table");
    let tables = tables.strip_suffix(&end).expect("the end");
    assert!(both.contains(tables));
    assert_eq!(files(&out), [""; 0]);
}

/// Runs `access` with its arguments, changes its lines, and ends with a
/// status.
fn lines_changed(folder: &Path, change: &str, status: &str) -> String {
    let run = format!("{CHECKER} access \"$@\" > $0.out; status=$?");
    script(folder, &format!("{run}; {change} $0.out; exit {status}\n"))
}

/// Compares so many cards that some of them go in parts.
fn compare_access(program: &str, name: &str) -> (Output, Vec<String>) {
    let out = directory(name);
    let arguments = ["--access", program, "--cards", "3000", "--shrink", "0"];
    let output = compare(&arguments, &out);
    (output, files(&out))
}

#[test]
fn wrong_lines_of_access_are_found() {
    let folder = directory("access-lines-scripts");
    for change in [
        // Bases 1 and 2 swapped, and a basis with the wrong name.
        "sed 's/basis 1 (patient)/basis x/; s/basis 2 (author)/basis 1 (patient)/; s/basis x/basis 2 (author)/'",
        "sed 's/(author)/(patient)/'",
        // A record fewer, one more, and numbers from 1 on.
        "sed '1!{$d;}'",
        "sed '/^record/{$p;}'",
        "awk '/^record/ { sub(/[0-9]+/, NR) } { print }'",
        // A directive denied that permits, and the default turned round.
        "sed 's/permit, basis 3/deny, basis 3/'",
        "sed 's/deny, basis 4/permit, basis 4/'",
        "sed 's/(directive [0-9]*)/(directive 1)/'",
        // Refusals mixed up.
        "sed 's/requester refused: question 17/card refused: question 17/'",
        "sed 's/card refused: question 13/card refused: question 12/'",
        "sed 's/card refused: question 5/requester refused: question 17/'",
        // No end of the last line.
        "head -c -1",
    ] {
        let program = lines_changed(&folder, change, "$status");
        let (output, files) = compare_access(&program, "access-lines");
        assert_eq!(files, [different(&output).0], "{change}");
        assert!(!text(&output.stdout).contains("ended with status"), "{change}");
    }
}

#[test]
fn a_wrong_status_of_access_is_found() {
    let folder = directory("access-status-scripts");
    for [checker, program] in [["1", "0"], ["0", "1"]] {
        let status = format!("$((status == {checker} ? {program} : status))");
        let wrong = lines_changed(&folder, "cat", &status);
        let (output, files) = compare_access(&wrong, "access-status");
        assert_eq!(output.status.code(), Some(1));
        assert_eq!(files, [after(&output, "different: ")]);
        let expected = format!(
            "\nchecker: ended with status {checker}\nprogram: ended with status {program}\n\
             all lines agree\n"
        );
        assert!(text(&output.stdout).contains(&expected), "{status}");
    }
    // Refused by another status than 1.
    let crashed = lines_changed(&folder, "cat", "$((status == 1 ? 3 : status))");
    let (output, _) = compare_access(&crashed, "access-status");
    assert!(after(&output, "crashed: ").ends_with(".card"));
    assert_eq!(after(&output, "program: "), "ended with status 3");
    // A wrong line is told even where its status is wrong too.
    let refuses = script(&folder, "echo requester refused: question 17; exit 1\n");
    let (output, _) = compare_access(&refuses, "access-status");
    assert!(different(&output).0.ends_with(".card"));
}

/// Programs that take their arguments in another way, or look at the
/// requester before the card.
#[test]
fn wrong_arguments_of_access_are_found() {
    let folder = directory("access-arguments-scripts");
    for taken in [
        "$1 $2 $4 $3",
        "$(($1 % 256)) $2 $3 $4",
        "$1 $(($2 % 256)) $3 $4",
        "$1 $2 $(($3 % 16)) $4",
        "$1 $2 $3 $(($4 % 16))",
        "$1 0 $3 $4",
        "$1 $2 $3 0",
    ] {
        let program = script(&folder, &format!("exec {CHECKER} access {taken}\n"));
        let (output, files) = compare_access(&program, "access-arguments");
        assert_eq!(files, [different(&output).0], "{taken}");
    }
    let early = "test $3 -ge 16 && echo requester refused: question 17 && exit 1";
    let program = script(&folder, &format!("{early}\nexec {CHECKER} access \"$@\"\n"));
    let (output, _) = compare_access(&program, "access-arguments");
    let line = after(&output, "checker ");
    assert!(line.starts_with("card refused: question "), "{line}");
}

#[test]
fn an_access_that_cuts_elsewhere_or_reads_once_is_found() {
    let folder = directory("access-input-scripts");
    for input in ["head -c 65534", "dd bs=65535 count=1 2>/dev/null"] {
        let program = fed(&folder, "access \"$@\"", input);
        let (output, _) = compare_access(&program, "access-input");
        assert_eq!(output.status.code(), Some(1), "{input}");
        assert!(different(&output).0.ends_with(".card"));
    }
}

/// The report has the arguments and the words; the stored card with these
/// arguments gives the checker's line, and so does the smaller one.
#[test]
fn a_difference_of_access_is_explained() {
    let folder = directory("access-explained-scripts");
    let out = directory("access-explained");
    let change = "sed 's/permit, basis 3 (directive/deny, basis 3 (directive/'";
    let program = lines_changed(&folder, change, "$status");
    let output = compare(&["--access", &program, "--cards", "300"], &out);
    assert_eq!(output.status.code(), Some(1));
    let stdout = text(&output.stdout);
    let (original, small) = stdout.split_once("\nsmaller: ").expect("a smaller card");
    let name = after(&output, "different: ");
    let stem = name.strip_suffix(".card").expect("a card");
    let small_name = format!("{stem}.access.small.card");
    assert!(small.starts_with(&format!("{small_name}\n")), "{small}");
    let mut names = [small_name, name];
    for (part, name) in [small, original].into_iter().zip(&names) {
        let line = |start: &str| {
            let found = part.lines().find_map(|line| line.strip_prefix(start));
            found
                .unwrap_or_else(|| panic!("{start}: {part}"))
                .to_string()
        };
        let card = fs::read(out.join(name)).expect("the card is stored");
        let arguments = format!("access {}", line("arguments "));
        let arguments: Vec<&str> = arguments.split(' ').collect();
        let lines = text(&run(&arguments, &card).stdout);
        let number: usize = line("line ").parse().expect("a number");
        assert_eq!(
            lines.lines().nth(number - 1),
            Some(line("checker ").as_str())
        );
        assert!(line("program ").contains(": deny, basis 3 (directive "));
        let record = number - 1;
        let person = arguments[1];
        assert!(line("    Decide: ").contains(&format!("person {person}")));
        assert!(line("    Decide: ").contains(&format!("asks for access to record {record} ")));
        assert!(line("    Decision: ").starts_with("permit, basis 3, directive "));
        assert!(line("    on record ").starts_with(&format!("{record}: deny, basis 3, directive ")));
    }
    names.sort();
    assert_eq!(files(&out), names);
    let sizes = names.map(|name| fs::read(out.join(name)).expect("stored").len());
    assert!(sizes[0] < sizes[1], "{sizes:?}");
}

#[test]
fn keep_going_counts_access_apart() {
    let folder = directory("access-tally-scripts");
    let out = directory("access-tally");
    let change = "sed 's/question 9$/question 8/; s/basis 1 (patient)/basis 2 (author)/'";
    let access = lines_changed(&folder, change, "$status");
    let other = directory("access-tally-cardcheck");
    let cardcheck = changed(&other, "cardcheck", "sed 's/^9 /8 /'");
    let programs = ["--cardcheck", &cardcheck, "--access", &access];
    let more = ["--cards", "300", "--keep-going", "--shrink", "0"];
    let output = compare(&[&programs[..], &more].concat(), &out);
    assert_eq!(output.status.code(), Some(1));
    let stdout = text(&output.stdout);
    let counted = |class: &str| {
        let row = stdout.lines().find(|line| line.ends_with(class));
        let row = row.unwrap_or_else(|| panic!("{class}: {stdout}"));
        let count = row.split_whitespace().next().expect("a count");
        count.parse::<usize>().expect("a number")
    };
    let ninth = |answer: &Access| *answer == Access::CardRefused(Refusal::DraftMinutes);
    let count = |is: &dyn Fn(&Input) -> bool| inputs(11, 300, 0).filter(is).count();
    let without_draft = count(&|input| ninth(&answer(&input.bytes, &alone(by(1, 1, 1, 1)))));
    let refused = count(&|input| ninth(&access_of(input)));
    let of_a_patient = |answer: &Access| answer.to_string().contains("(patient)");
    let patients = count(&|input| {
        let answer = access_of(input);
        matches!(answer, Access::Table(_)) && of_a_patient(&answer)
    });
    assert_eq!(counted("  refusal 9 of a card"), without_draft);
    assert_eq!(counted("  access: refusal 9 of a card"), refused);
    assert_eq!(counted("  access: permit with basis 1"), patients);
    assert!(counted("  access: refusal 9 of a preview") > 0);
    assert!(counted("  access: preview without a change") > 0);
    assert_eq!(stdout.matches("different: ").count(), 5);
}

fn access_of(input: &Input) -> Access {
    answer(&input.bytes, &access_arguments(input))
}

#[test]
fn lines_of_access_in_words() {
    for (line, words) in [
        ("record 3: permit, basis 2 (author)", "on record 3: permit, basis 2, the author's access to their own record"),
        ("record 127: deny, basis 3 (directive 65535)", "on record 127: deny, basis 3, directive 65535"),
        ("card refused: question 5", "the card is refused by question 5: At the card's end: were the head, the roles and a record read?"),
        ("card refused: question 99", "the card is refused by 99, no question of document 01"),
        ("record 3: permit, basis 1 (author)", "no line that access can print"),
        ("record 03: permit, basis 2 (author)", "no line that access can print"),
        ("0 1 2", "no line that access can print"),
        ("", "no line that access can print"),
    ] {
        assert_eq!(access_in_words(line), words);
    }
    let card = sample().bytes();
    let patient = &alone(by(7, 1, 0, 0));
    let explained = access_line(&card, patient, 2).expect("there is a third record");
    assert_eq!(explained.line, "record 2: permit, basis 1 (patient)");
    assert_eq!(
        explained.words,
        "Decide: the patient (person 7) in role 1 asks for access to record 2 from origin 0, \
         for treatment (purpose 0).\n\
         Decision: permit, basis 1, the patient's own access."
    );
    assert_eq!(access_line(&card, patient, 3), None);
    let outside = access_line(&card, &alone(by(7, 1, 16, 0)), 0).expect("there is a line");
    assert_eq!(outside.line, "requester refused: question 17");
    let words = "Access: the patient (person 7) in role 1 asks from origin 16, for treatment \
                 (purpose 0).\nRefused by question 17: ";
    assert!(outside.words.starts_with(words), "{}", outside.words);
    assert!(outside
        .words
        .ends_with("There is no origin 16: origins are 0 to 15."));
    let refused = access_line(&[], patient, 0).expect("there is a line");
    assert_eq!(refused.line, "card refused: question 5");
    assert!(refused.words.contains("Refused by question 5: "));
    assert_eq!(access_line(&[], patient, 1), None);
}

/// Every line of generated cards has its words, and they know the line.
#[test]
fn every_line_of_access_is_explained() {
    for input in inputs(12, 200, 0) {
        let arguments = access_arguments(&input);
        for (place, line) in access_of(&input).to_string().lines().enumerate() {
            let explained = access_line(&input.bytes, &arguments, place).expect("it is explained");
            assert_eq!(explained.line, line, "{}", input.file_name());
            assert!(explained.words.lines().count() >= 2);
            assert_ne!(access_in_words(line), "no line that access can print");
        }
    }
}
