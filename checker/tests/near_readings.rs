//! The five readings that document 01 rules out, each by a case that comes
//! out otherwise under it.

use checker::card;
use checker::refusal::Refusal;
use checker::register::Reach;

use crate::support::*;

/// "Superfluous judged against single directives only (K7 slips through)."
#[test]
fn several_directives_together_make_a_draft_redundant() {
    // By minutes, by origins, by purposes and by records: two halves each.
    let a = directive_a();
    let minutes = [over(1000, 1500, a), over(1500, 2000, a)];
    let mut origins = [a; 2];
    origins[0].subject_origins = 0x00FF;
    origins[1].subject_origins = 0xFF00;
    let mut purposes = [a; 2];
    purposes[0].purposes = 0x0555;
    purposes[1].purposes = 0x02AA;
    let mut records = [a; 2];
    (records[0].record, records[0].reach) = (1, 0);
    (records[1].record, records[1].reach) = (2, 0);
    for halves in [minutes, origins, purposes, records] {
        let [first, second] = [numbered(10, halves[0]), numbered(11, halves[1])];
        let both = sample_after(&[first, second]);
        assert_eq!(would_commit(&both, a), Err(Refusal::Redundant));
        assert_eq!(would_commit(&sample_after(&[first]), a), Ok(()));
        assert_eq!(would_commit(&sample_after(&[second]), a), Ok(()));
    }
}

/// "Reach 2 taken with the record itself (K4)."
#[test]
fn descendants_do_not_contain_the_record_itself() {
    let ledger = sample().ledger();
    let register = ledger.register();
    let reached = |top: u8| -> Vec<u8> {
        (0..=255)
            .filter(|record| register.reaches(top, Reach::Descendants, *record))
            .collect()
    };
    assert_eq!(reached(0), [1, 2]);
    assert_eq!(reached(1), [2]);
    assert_eq!(reached(2), [] as [u8; 0]);
    // A permit on the record itself stands beside the deny on the rest.
    let mut ledger = sample_after(&[directive_a()]);
    let root = draft(PERMIT, (ROLE, 1), 0, 0);
    assert_eq!(commit(&mut ledger, root), Ok(()));
}

/// "A conflict looked for only among persons already seen."
#[test]
fn a_conflict_counts_for_persons_that_nothing_names() {
    // No directive, author or patient is a person that these two could meet
    // in: both are on roles.
    let ledger = sample_after(&[directive_a()]);
    let permit_cardiologist = draft(PERMIT, (ROLE, 2), 1, 0);
    assert_eq!(
        would_commit(&ledger, permit_cardiologist),
        Err(Refusal::Conflict(1))
    );
    // Here the only person named is new.
    let permit_new_person = draft(PERMIT, (PERSON, 43210), 1, 0);
    assert_eq!(
        would_commit(&ledger, permit_new_person),
        Err(Refusal::Conflict(1))
    );
}

/// "Minutes meeting at until counted as shared (K5)."
#[test]
fn minutes_that_meet_at_until_are_not_shared() {
    let ledger = sample_after(&[over(1200, 1400, directive_a())]);
    let permit_600 = draft(PERMIT, (PERSON, 600), 1, 0);
    let expected = [
        ((1000, 1200), Ok(())),
        ((1000, 1201), Err(Refusal::Conflict(1))),
        ((1399, 1500), Err(Refusal::Conflict(1))),
        ((1400, 1500), Ok(())),
    ];
    for ((from, until), answer) in expected {
        let draft = over(from, until, permit_600);
        assert_eq!(would_commit(&ledger, draft), answer, "{from}..{until}");
    }
}

/// "Question 14 put while reading, so a written card no longer reads."
#[test]
fn a_card_reads_although_time_made_a_directive_redundant() {
    // Number 2 adds 1000..1100 to number 1 when it is committed; from minute
    // 1100 on it adds nothing.
    let first = over(1100, 2000, directive_a());
    let second = numbered(2, over(1000, 1900, directive_a()));
    let mut ledger = sample_after(&[first, second]);
    ledger.advance(1100).expect("1100 is after 1000");
    let mut buffer = [0; 200];
    let length = card::write(&ledger, &mut buffer).expect("200 bytes are enough");
    assert_eq!(card::read(&buffer[..length]), Ok(ledger.clone()));
    // A commit of the same directive is refused at that minute.
    ledger.revoke(2).expect("2 is active");
    assert_eq!(would_commit(&ledger, second), Err(Refusal::Redundant));
}
