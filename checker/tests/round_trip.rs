//! Reading written cards and writing read ones.

use checker::card;
use checker::directive::Fields;
use checker::generate::inputs;
use checker::ledger::Ledger;
use checker::random::Random;
use checker::replay::Call;

use crate::small_world;
use crate::support::*;

fn written(ledger: &Ledger) -> Vec<u8> {
    let mut buffer = vec![0; 3000];
    let length = card::write(ledger, &mut buffer).expect("3000 bytes are enough");
    buffer.truncate(length);
    buffer
}

#[test]
fn writing_an_accepted_edition_2_card_restores_its_bytes() {
    let mut editions = [0; 2];
    for input in inputs(41, 2000, 0) {
        let Ok(ledger) = card::read(&input.bytes) else {
            continue;
        };
        let edition = input.bytes[3];
        editions[usize::from(edition == 2)] += 1;
        if edition == 2 {
            assert_eq!(written(&ledger), input.bytes);
        } else {
            assert_ne!(written(&ledger), input.bytes);
        }
        assert_eq!(card::read(&written(&ledger)), Ok(ledger));
    }
    assert!(editions.iter().all(|count| *count > 100), "{editions:?}");
}

#[test]
fn an_edition_1_card_is_written_as_its_edition_2_meaning() {
    let narrow = Fields {
        purposes: 0x0001,
        ..directive_a()
    };
    let edition_1 = Card {
        edition: 1,
        ..sample().with(&[narrow])
    };
    // Edition 1 leaves purposes out and means all.
    let edition_2 = sample().with(&[directive_a()]);
    assert_eq!(edition_1.bytes().len() + 2, edition_2.bytes().len());
    assert_eq!(edition_1.ledger(), edition_2.ledger());
    assert_eq!(written(&edition_1.ledger()), edition_2.bytes());
}

#[test]
fn a_written_card_restores_everything_but_tokens() {
    let mut random = Random::new(42);
    let mut with_tokens = 0;
    let mut with_directives = 0;
    for _ in 0..800 {
        let card = small_world::card_with_directives(&mut random);
        let mut ledger = card.ledger();
        for _ in 0..random.range(0, 20) {
            let call = small_world::call(&card, ledger.clock(), &mut random);
            call.run(&mut ledger);
        }
        let bytes = written(&ledger);
        let again = card::read(&bytes).expect("a written card reads");
        assert_eq!(again.patient(), ledger.patient());
        assert_eq!(again.register(), ledger.register());
        assert_eq!(again.clock(), ledger.clock());
        assert_eq!(again.active(), ledger.active());
        assert_eq!(again.tokens(), []);
        assert_eq!(written(&again), bytes);
        with_tokens += usize::from(!ledger.tokens().is_empty());
        with_directives += usize::from(!ledger.active().is_empty());
    }
    assert!(with_tokens > 50, "{with_tokens}");
    assert!(with_directives > 200, "{with_directives}");
}

#[test]
fn the_bytes_of_a_written_card() {
    let ledger = sample_after(&[Fields {
        number: 0x0102,
        subject_origins: 0x0304,
        po: 0x0507,
        ps: 0x060B,
        pt: 0x81,
        purposes: 0x0405,
        from: 0x0000_03E9,
        until: 0x0708_090A,
        ..draft(DENY, (PERSON, 0x0B0C), 1, 2)
    }]);
    let expected = [
        &[0x01, 0x00, 0x07, 0x02, 0x00, 0x07, 0x00, 0x00, 0x03, 0xE8][..],
        &[0x02, 0x00, 0x04, 0x00, 0x00, 0x01, 0x00],
        &[
            0x03, 0x00, 0x0A, 0x00, 0x01, 0xF4, 0x00, 0x01, 0x00, 0x01, 0x00, 0x00, 0x00,
        ],
        &[
            0x03, 0x00, 0x0A, 0x00, 0x01, 0xF5, 0x00, 0x03, 0x00, 0x01, 0x00, 0x00, 0x04,
        ],
        &[
            0x03, 0x00, 0x0A, 0x01, 0x01, 0xF6, 0x00, 0x02, 0x00, 0x03, 0x00, 0x08, 0x00,
        ],
        &[
            0x04, 0x00, 0x19, 0x01, 0x02, 0x00, 0x00, 0x0B, 0x0C, 0x03, 0x04, 0x01, 0x02,
        ],
        &[0x05, 0x07, 0x06, 0x0B, 0x81, 0x04, 0x05],
        &[0x00, 0x00, 0x03, 0xE9, 0x07, 0x08, 0x09, 0x0A],
    ];
    assert_eq!(written(&ledger), expected.concat());
}

#[test]
fn a_write_call_leaves_the_ledger() {
    let mut ledger = sample_after(&[directive_a()]);
    let before = ledger.clone();
    for buffer in [0, 10, 3000] {
        Call::Write { buffer }.run(&mut ledger);
        assert_eq!(ledger, before);
    }
}
