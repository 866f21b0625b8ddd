//! The facts of generated cards and replays against document 01's definitions
//! and the lines of `replay`.

use checker::bytes::VALUE;
use checker::card;
use checker::conformance::cases;
use checker::directive::Fields;
use checker::generate::inputs;
use checker::ledger::Ledger;
use checker::refusal::Refusal;
use checker::replay::{take_call, Call, Replay};
use checker::request::Request;

use crate::definition::Model;
use crate::facts::facts;
use crate::facts_of_cards::card_facts;
use crate::json::Value;
use crate::support::{DENY, PERSON, ROLE};

/// The lines of `replay`, and that no word of them is lost: generated inputs,
/// the long ones too, and the conformance cases.
#[test]
fn the_lines_are_those_of_replay() {
    let generated = inputs(41, 0, 800).map(|input| input.bytes);
    let stored = cases().into_iter().map(|case| case.scenario.input);
    let mut ends = [0; 3];
    for replay in generated.chain(stored) {
        let (facts, malformed) = facts(&replay);
        let mut lines: Vec<String> = Replay::new(&replay)
            .map(|answer| answer.to_string())
            .collect();
        let calls = facts.at("calls").list();
        let last = lines.last().expect("a line");
        assert_eq!(malformed, last == "malformed");
        let end = match (facts.at("card"), malformed) {
            (Value::Null, _) => 0,
            (card, _) => {
                let refusal = card.at("refusal").number::<u8>();
                let line = lines.remove(0);
                assert_eq!(line.split(' ').next(), Some(refusal.to_string().as_str()));
                1 + usize::from(malformed)
            }
        };
        ends[end] += 1;
        assert_eq!(calls.len(), lines.len());
        let mut rest = encoded_calls(&replay);
        for (call, line) in calls.iter().zip(&lines) {
            assert_eq!(call.at("line").text(), line);
            if line == "malformed" {
                assert_eq!(call.keys(), ["line"]);
            } else {
                assert_eq!(call.at("tag").number::<u8>(), rest[0]);
                let length = usize::from(u16::from_be_bytes([rest[1], rest[2]]));
                rest = &rest[VALUE + length..];
            }
        }
    }
    assert!(ends.iter().all(|count| *count > 5), "{ends:?}");
}

/// The bytes of a replay after its card.
fn encoded_calls(replay: &[u8]) -> &[u8] {
    match replay {
        [high, low, rest @ ..] => {
            let length = usize::from(u16::from_be_bytes([*high, *low]));
            rest.get(length..).unwrap_or_default()
        }
        _ => &[],
    }
}

/// The facts of 12, 13 and 14 by the definitions of document 01.
struct Judge {
    model: Model,
    draft: Fields,
}

impl Judge {
    fn new(ledger: &Ledger, draft: Fields) -> Judge {
        let active = ledger.active().iter();
        let model = Model {
            patient: ledger.patient(),
            clock: ledger.clock(),
            roles: ledger.register().roles().to_vec(),
            records: ledger.register().records().to_vec(),
            active: active.map(|directive| directive.fields()).collect(),
            tokens: Vec::new(),
        };
        Judge { model, draft }
    }

    /// What the question has, and nothing where it has no facts.
    fn check(&self, question: u8, facts: &Value) {
        match question {
            12 => self.check_baseline(facts),
            13 => self.check_conflict(facts),
            14 => self.check_cover(facts),
            _ => {
                for key in ["patient", "records", "number", "request", "cover"] {
                    assert!(!facts.keys().contains(&key), "{facts:?}");
                }
            }
        }
    }

    /// The records are those that the draft selects and the person wrote; for
    /// the patient those that it selects.
    fn check_baseline(&self, facts: &Value) {
        let Judge { model, draft } = self;
        assert_eq!((draft.effect, draft.kind), (DENY, PERSON));
        let is_patient = draft.subject == model.patient;
        assert_eq!(facts.at("patient").bool(), is_patient);
        let broken = (0..).zip(&model.records).filter(|(number, record)| {
            model.selects(draft, *number) && (is_patient || record.author == draft.subject)
        });
        let broken: Vec<u8> = broken.map(|(number, _)| number).collect();
        assert!(!broken.is_empty());
        assert_eq!(facts.at("records").numbers::<u8>(), broken);
    }

    /// Both directives, of opposite effect, match the request, which is one of
    /// this register and not before the clock.
    fn check_conflict(&self, facts: &Value) {
        let Judge { model, draft } = self;
        let number: u16 = facts.at("number").number();
        let mut active = model.active.iter();
        let other = active.find(|other| other.number == number).expect("active");
        assert_ne!(draft.effect, other.effect);
        let found = facts.at("request");
        let request = Request {
            person: found.at("person").number(),
            role: found.at("role").number(),
            origin: found.at("origin").number(),
            record: found.at("record").number(),
            purpose: found.at("purpose").number(),
            minute: found.at("minute").number(),
        };
        assert!(usize::from(request.role) < model.roles.len());
        assert!(usize::from(request.record) < model.records.len());
        assert!(request.origin < 16 && request.purpose < 11);
        assert!(request.minute >= model.clock);
        assert!(model.matches(draft, &request), "{request:?}");
        assert!(model.matches(other, &request), "{request:?}");
        let any_person = draft.kind == ROLE && other.kind == ROLE;
        assert_eq!(found.at("any_person").bool(), any_person);
    }

    /// Every request that the draft matches is matched by a directive of the
    /// cover, all of the draft's effect, and each of them alone matches one. An
    /// empty cover goes with a draft that matches no request.
    fn check_cover(&self, facts: &Value) {
        let Judge { model, draft } = self;
        let numbers: Vec<u16> = facts.at("cover").numbers();
        let by_number = |number: &u16| {
            let mut active = model.active.iter();
            *active
                .find(|other| other.number == *number)
                .expect("active")
        };
        let cover: Vec<Fields> = numbers.iter().map(by_number).collect();
        assert!(cover.iter().all(|other| other.effect == draft.effect));
        let requests = self.requests(&cover);
        let matched = requests
            .iter()
            .filter(|request| model.matches(draft, request));
        let matching: Vec<Vec<u16>> = matched
            .map(|request| {
                let matching = cover.iter().filter(|other| model.matches(other, request));
                matching.map(|other| other.number).collect()
            })
            .collect();
        assert_eq!(cover.is_empty(), matching.is_empty(), "{draft:?}");
        assert!(
            matching.iter().all(|numbers| !numbers.is_empty()),
            "{draft:?}"
        );
        for number in numbers {
            assert!(
                matching.contains(&vec![number]),
                "{number} is needless for {draft:?}"
            );
        }
    }

    /// Requests that stand for all: of origins, records, purposes and minutes
    /// that the same directives have, one. A directive begins or ends to match
    /// at its from and its until alone. Of the persons that no directive names,
    /// one.
    fn requests(&self, cover: &[Fields]) -> Vec<Request> {
        let Judge { model, draft } = self;
        let directives = [&[*draft][..], cover].concat();
        let has = |set: u16, bit: u8| set >> bit & 1 == 1;
        let origins = distinct(0..16, &directives, |one, bit| has(one.subject_origins, bit));
        let purposes = distinct(0..11, &directives, |one, bit| has(one.purposes, bit));
        let records = 0..model.records.len() as u8;
        let records = distinct(records, &directives, |one, record| {
            model.selects(one, record)
        });
        let ends = directives.iter().flat_map(|one| [one.from, one.until]);
        let minutes = ends
            .chain([model.clock])
            .filter(|minute| *minute >= model.clock);
        let minutes = distinct(minutes, &directives, |one, minute| {
            one.from <= minute && minute < one.until
        });
        let named = directives.iter().filter(|one| one.kind == PERSON);
        let mut persons: Vec<u16> = named.map(|one| one.subject).collect();
        let mut unnamed = (0..=u16::MAX).filter(|person| !persons.contains(person));
        let unnamed = unnamed.next().expect("a person that is not named");
        persons.push(unnamed);
        let mut requests = Vec::new();
        for role in 0..model.roles.len() as u16 {
            for person in &persons {
                for origin in &origins {
                    for record in &records {
                        for purpose in &purposes {
                            requests.extend(minutes.iter().map(|minute| Request {
                                person: *person,
                                role,
                                origin: *origin,
                                record: *record,
                                purpose: *purpose,
                                minute: *minute,
                            }));
                        }
                    }
                }
            }
        }
        requests
    }
}

/// Of values that the same directives have, the first.
fn distinct<T: Copy>(
    values: impl IntoIterator<Item = T>,
    directives: &[Fields],
    has: impl Fn(&Fields, T) -> bool,
) -> Vec<T> {
    let mut seen: Vec<Vec<bool>> = Vec::new();
    let mut distinct = Vec::new();
    for value in values {
        let by = directives.iter().map(|one| has(one, value)).collect();
        if !seen.contains(&by) {
            seen.push(by);
            distinct.push(value);
        }
    }
    distinct
}

/// Commits and previews of generated replays.
#[test]
fn refused_drafts_by_the_definitions() {
    let mut found = [[0; 15]; 2];
    for input in inputs(42, 0, 1000).filter(|input| input.index != 100 && input.index != 101) {
        let (facts, _) = facts(&input.bytes);
        if facts.at("card") == &Value::Null {
            continue;
        }
        let mut calls = facts.at("calls").list().iter();
        let mut replay = Replay::new(&input.bytes);
        replay.next();
        while let Some(ledger) = replay.ledger().cloned() {
            let call = take_call(&mut replay.bytes());
            if replay.next().is_none() {
                break;
            }
            let facts = calls.next().expect("the facts of a call");
            let (kind, draft) = match call {
                Some(Call::Commit { draft }) => (0, draft),
                Some(Call::Preview { draft, .. }) => (1, draft),
                Some(_) => {
                    assert_eq!(facts.keys(), ["line", "tag"]);
                    continue;
                }
                None => continue,
            };
            let line = facts.at("line").text();
            let question = line.split(' ').next().expect("a number");
            let question: u8 = question.parse().expect("a number");
            let Ok(draft) = <&[u8; 25]>::try_from(draft.as_slice()) else {
                assert_eq!(line, "6");
                continue;
            };
            Judge::new(&ledger, Fields::decode(draft)).check(question, facts);
            if (12..15).contains(&question) {
                found[kind][usize::from(question)] += 1;
            }
        }
        assert_eq!(calls.next(), None);
    }
    for found in found {
        assert!(found[12..].iter().all(|count| *count > 50), "{found:?}");
    }
}

/// Generated cards: before the field's offset nothing is refused but that more
/// is missing, and at its end the card is refused as it is.
#[test]
fn fields_of_refused_cards() {
    let mut found = [0; 14];
    for input in inputs(43, 6000, 0) {
        let card = &input.bytes[..input.bytes.len().min(65_535)];
        let facts = card_facts(card);
        let question: u8 = facts.at("refusal").number();
        found[usize::from(question)] += 1;
        let expected = card::read(card).err().map_or(0, Refusal::number);
        assert_eq!(question, expected);
        match question {
            0 => assert_eq!(facts.keys(), ["refusal"]),
            5 => assert_eq!(facts.at("field"), &Value::Null),
            _ => check_field(card, question, &facts),
        }
    }
    for question in [0, 1, 2, 3, 4, 5, 7, 8, 9, 10, 11, 12, 13] {
        assert!(found[question] > 10, "{question}: {}", found[question]);
    }
}

fn check_field(card: &[u8], question: u8, facts: &Value) {
    let field = facts.at("field");
    assert_eq!(
        field.keys(),
        ["byte", "end", "index", "offset", "tag", "words"]
    );
    let offset: usize = field.at("offset").number();
    let end: usize = field.at("end").number();
    assert!(offset < end && end <= card.len());
    assert_eq!(field.at("tag").number::<u8>(), card[offset]);
    assert_eq!(
        field.at("index").number::<usize>(),
        fields_in(&card[..offset])
    );
    assert_eq!(
        end == card.len() && question == 1,
        fields_in(&card[..end]) == usize::MAX
    );

    let before = card::read(&card[..offset]);
    let incomplete = Err(Refusal::CardIncomplete);
    assert!(before.is_ok() || before == incomplete, "{before:?}");
    let refused = card::read(&card[..end]).expect_err("the field is refused");
    assert_eq!(refused.number(), question);

    match field.at("byte") {
        Value::Null => assert!([1, 3, 11, 12, 13].contains(&question)),
        byte => {
            assert!([2, 4, 7, 8, 9, 10].contains(&question));
            let byte: usize = byte.number();
            assert!((offset..end).contains(&byte));
            let of_value = byte >= offset + VALUE;
            assert_eq!(of_value, question != 2);
        }
    }
    let words = field.at("words").text();
    assert!(words.ends_with('.') && !words.contains("  "), "{words}");
    assert!((1..=2).contains(&words.split(". ").count()), "{words}");

    if let (7.., Ok(ledger)) = (question, before) {
        let value = &card[offset + VALUE..end];
        let draft = match value.len() {
            23 => Fields::decode_edition_1(value.try_into().expect("23 bytes")),
            _ => Fields::decode(value.try_into().expect("25 bytes")),
        };
        Judge::new(&ledger, draft).check(question, facts);
    } else {
        assert_eq!(facts.keys(), ["field", "refusal"]);
    }
}

/// How many fields these bytes are; `usize::MAX` where the last is not whole.
fn fields_in(mut bytes: &[u8]) -> usize {
    let mut count = 0;
    while let [_, high, low, rest @ ..] = bytes {
        let length = usize::from(u16::from_be_bytes([*high, *low]));
        match rest.get(length..) {
            Some(after) => bytes = after,
            None => return usize::MAX,
        }
        count += 1;
    }
    match bytes {
        [] => count,
        _ => usize::MAX,
    }
}
