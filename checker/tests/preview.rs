//! Previews.

use checker::answer::Answer;
use checker::card;
use checker::directive::Fields;
use checker::generate::inputs;
use checker::ledger::Ledger;
use checker::preview::Outcome;
use checker::random::Random;
use checker::refusal::Refusal;
use checker::replay::{decode, encode, Call, Decoded, Replay};
use checker::request::{Query, Requester};

use crate::definition::Model;
use crate::small_world;
use crate::support::*;

/// In small worlds, for every requester, before and after commits, revokes
/// and advances: the answer is that of the sentence, and the ledger stays.
#[test]
fn previews_agree_with_the_definition() {
    let mut random = Random::new(31);
    let mut refused = [0; 15];
    let mut outside = 0;
    let mut by_count = [0; 5];
    for _ in 0..1000 {
        let card = small_world::card_with_directives(&mut random);
        let mut model = Model::read(&card).expect("the card is accepted");
        let mut ledger = card.ledger();
        for _ in 0..6 {
            let call = small_world::call(&card, model.clock, &mut random);
            assert_eq!(call.run(&mut ledger), model.run(&call));
            let mut draft = small_world::draft(&card, model.clock, &mut random)
                .encode()
                .to_vec();
            match random.range(0, 19) {
                0 => draft[2] = 2,
                1 => draft[8] = 200,
                2 => draft.push(0),
                _ => {}
            }
            let after = model.after_commit(&draft);
            if let Err(refusal) = &after {
                refused[usize::from(refusal.number())] += 1;
            }
            for requester in requesters(card.roles.len() as u16) {
                let before = ledger.clone();
                let draft = draft.clone();
                let call = Call::Preview { requester, draft };
                let Answer::Preview(shown) = call.run(&mut ledger) else {
                    panic!("not the answer to a preview");
                };
                assert_eq!(ledger, before);
                let words = shown.map(|preview| preview.words());
                let expected = model.preview(&after, requester);
                assert_eq!(words, expected, "{call:?} on {ledger:?}");
                match words {
                    Ok(words) => by_count[words.count as usize] += 1,
                    Err(Refusal::QueryRange) => outside += 1,
                    Err(_) => {}
                }
            }
        }
    }
    // Of 6,000 drafts; 11 needs 32 active directives.
    for number in [6, 7, 8, 9, 10, 12, 13, 14] {
        assert!(refused[number] > 100, "{number}: {}", refused[number]);
    }
    assert!(outside > 100_000, "{outside}");
    // From none of the four records up to all of them.
    assert!(by_count.iter().all(|count| *count > 25), "{by_count:?}");
}

/// The persons, origins and purposes of small worlds and others, every role
/// and one more.
fn requesters(roles: u16) -> Vec<Requester> {
    let mut requesters = Vec::new();
    for person in [0, 1, 4, 65535, 40000] {
        for role in 0..=roles {
            for origin in [0, 7, 15, 16] {
                for purpose in [0, 10, 11] {
                    requesters.push(Requester {
                        person,
                        role,
                        origin,
                        purpose,
                    });
                }
            }
        }
    }
    requesters
}

/// The lines of these calls after those before them.
fn lines(card: &[u8], before: &[Call], calls: &[Call]) -> Vec<String> {
    let replay = encode(card, &[before, calls].concat());
    let lines = Replay::new(&replay).map(|answer| answer.to_string());
    lines.skip(before.len() + 1).collect()
}

/// What the lines of decides, the commit and decides again say that the
/// preview's line is: where the effect differs, a record is counted.
fn line_by_decides(card: &[u8], before: &[Call], requester: Requester, draft: &[u8]) -> String {
    let records = card::read(card).map_or(0, |ledger| ledger.register().records().len());
    let commit = Call::Commit {
        draft: draft.to_vec(),
    };
    let decides = (0..records).map(|record| Call::Decide(requester.query(record as u8)));
    let decides: Vec<Call> = decides.collect();
    let lines = lines(card, before, &[&decides[..], &[commit], &decides].concat());
    let (now, rest) = lines.split_at(records);
    let (commit, then) = rest.split_first().expect("a line for the commit");
    if commit != "0" {
        return commit.clone();
    }
    if now.contains(&"17".to_string()) {
        return "17".to_string();
    }
    let effect = |line: &str| line.split(' ').nth(1).expect("an effect").to_string();
    let changed = |record: &usize| effect(&now[*record]) != effect(&then[*record]);
    let changed: Vec<usize> = (0..records).filter(changed).collect();
    let word = |of: usize| {
        let records = changed.iter().filter(|record| *record / 64 == of);
        records.fold(0u64, |word, record| word | 1 << (record % 64))
    };
    format!("0 {} {} {}", word(0), word(1), changed.len())
}

/// Every preview of generated replays, by the lines of the other calls; the
/// ledger is the same after it.
#[test]
fn previews_agree_with_the_lines_of_commits_and_decides() {
    let mut shown = 0;
    let mut with_changes = 0;
    let mut above_63 = 0;
    for input in inputs(32, 0, 1000).filter(|input| input.bytes.len() < 60_000) {
        let Some(Decoded { card, calls, .. }) = decode(&input.bytes) else {
            continue;
        };
        let mut ledger = card::read(card).unwrap_or_default();
        for (place, call) in calls.iter().enumerate() {
            let same = ledger.clone();
            let answer = call.run(&mut ledger);
            let Call::Preview { requester, draft } = call else {
                continue;
            };
            assert_eq!(ledger, same);
            let expected = line_by_decides(card, &calls[..place], *requester, draft);
            assert_eq!(
                answer.to_string(),
                expected,
                "{}: {call:?}",
                input.file_name()
            );
            if let Answer::Preview(Ok(preview)) = answer {
                shown += 1;
                with_changes += u32::from(preview.changed() != 0);
                above_63 += u32::from(preview.words().words[1] != 0);
            }
        }
    }
    assert!(shown > 500, "{shown}");
    assert!(with_changes > 150, "{with_changes}");
    assert!(above_63 > 5, "{above_63}");
}

/// The parts of a requester stand in their places beside the record.
#[test]
fn the_query_of_a_requester() {
    let requester = Requester {
        person: 1,
        role: 2,
        origin: 3,
        purpose: 4,
    };
    let query = Query {
        person: 1,
        role: 2,
        origin: 3,
        record: 5,
        purpose: 4,
    };
    assert_eq!(requester.query(5), query);
    assert_eq!(query.requester(), requester);
}

/// The line of a preview on the sample ledger with these directives.
fn line(active: &[Fields], requester: Requester, draft: Fields) -> String {
    let ledger = sample().with(active).ledger();
    Answer::Preview(ledger.preview(requester, &draft.encode())).to_string()
}

/// All that a requester can have out of range.
fn outside() -> Requester {
    Requester {
        person: 600,
        role: 4,
        origin: 16,
        purpose: 11,
    }
}

/// Each question of a draft comes before 17, for a requester out of every
/// range; 17 comes where none refuses.
#[test]
fn the_draft_is_refused_before_the_requester() {
    let a = directive_a();
    let conflicting = [numbered(9, a), a];
    let many: Vec<Fields> = (100..132)
        .map(|number| numbered(number, draft(PERMIT, (PERSON, number), 0, 0)))
        .collect();
    for requester in [outside(), requester_q()] {
        for (active, draft, expected) in [
            (&[][..], Fields { kind: 2, ..a }, "7"),
            (&[], Fields { record: 3, ..a }, "8"),
            (&[], over(2000, 2000, a), "9"),
            (&[a], a, "10"),
            (&many, a, "11"),
            (&[], draft(DENY, (PERSON, 501), 0, 1), "12"),
            (&conflicting, draft(PERMIT, (ROLE, 2), 1, 0), "13 1"),
            (&[a], draft(DENY, (ROLE, 2), 1, 1), "14"),
            (&[], draft(PERMIT, (ROLE, 3), 2, 1), "14"),
        ] {
            assert_eq!(line(active, requester, draft), expected);
        }
        let ledger = sample().ledger();
        for length in [0, 1, 24, 26] {
            let refused = ledger.preview(requester, &vec![0; length]);
            assert_eq!(refused, Err(Refusal::DraftLength));
        }
    }
    assert_eq!(line(&[], outside(), a), "17");
    for (part, requester) in [
        Requester {
            role: 4,
            ..requester_q()
        },
        Requester {
            role: 256,
            ..requester_q()
        },
        Requester {
            origin: 16,
            ..requester_q()
        },
        Requester {
            purpose: 11,
            ..requester_q()
        },
    ]
    .into_iter()
    .enumerate()
    {
        assert_eq!(line(&[], requester, a), "17", "{part}");
    }
}

/// "A change is a permit that becomes a deny or the reverse; a new basis alone
/// is none."
#[test]
fn outcomes() {
    let outcome = |requester, draft: Fields| {
        let preview = sample().ledger().preview(requester, &draft.encode());
        preview.map(|preview| (preview.outcome(), preview.with_a_new_basis_or_number()))
    };
    let q = requester_q();
    let permit = draft(PERMIT, (ROLE, 1), 0, 2);
    let research = Requester { purpose: 1, ..q };
    let from_0 = Requester { origin: 0, ..q };
    let patient = Requester { person: 7, ..q };
    for (requester, draft, expected) in [
        (q, directive_a(), (Outcome::ToDeny, 0)),
        (q, permit, (Outcome::BasisOrNumber, 6)),
        (research, permit, (Outcome::ToPermit, 0)),
        (research, directive_a(), (Outcome::BasisOrNumber, 6)),
        // Record 1 changes, and record 2 gets a new basis.
        (from_0, directive_a(), (Outcome::ToDeny, 4)),
        (from_0, permit, (Outcome::ToPermit, 2)),
        (patient, directive_a(), (Outcome::Same, 0)),
        (q, over(1001, 2000, directive_a()), (Outcome::Same, 0)),
    ] {
        assert_eq!(outcome(requester, draft), Ok(expected));
    }
    // Basis 3 with a lower number.
    let after_5 = sample().with(&[numbered(5, directive_a())]).ledger();
    let lower = numbered(3, draft(DENY, (ROLE, 0), 0, 2));
    let preview = after_5.preview(q, &lower.encode());
    let preview = preview.expect("the draft is accepted");
    assert_eq!(preview.outcome(), Outcome::BasisOrNumber);
    assert_eq!(preview.with_a_new_basis_or_number(), 6);
}

/// On the empty ledger no draft gets past 8.
#[test]
fn the_empty_ledger() {
    let ledger = Ledger::default();
    for requester in [outside(), requester_q()] {
        let refused = |draft: &[u8]| ledger.preview(requester, draft).map_err(Refusal::number);
        assert_eq!(refused(&[]), Err(6));
        assert_eq!(refused(&[0xFF; 25]), Err(7));
        assert_eq!(refused(&directive_a().encode()), Err(8));
        assert_eq!(refused(&draft(PERMIT, (PERSON, 0), 0, 0).encode()), Err(8));
    }
}
