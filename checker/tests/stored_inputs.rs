//! The inputs stored beside the programs, `crates/*/stdin`, with the lines that
//! belong to them, `crates/*/stdout`. They are answered here as they are
//! stored, and show every answer that an accepted card allows.

use std::fs;
use std::ops::RangeInclusive;
use std::path::PathBuf;

use checker::answer::Answer;
use checker::card;
use checker::cardcheck::cardcheck;
use checker::counts::{Asked, Counts, Kind};
use checker::directive::Fields;
use checker::generate::{access_arguments, inputs, Input, InputKind};
use checker::ledger::Ledger;
use checker::replay::{decode, encode, Call, Decoded, Replay};

/// How many generated replays of a seed the stored inputs are taken from.
const REPLAYS: u64 = 2000;

/// How many lines the stored replay has at least and at most. The interpreter
/// that runs it allows ten million steps.
const LINES: RangeInclusive<usize> = 200..=300;

/// How many writes into the longest buffer the stored replay has at most: each
/// prints the whole card.
const WRITES: usize = 3;

const CALLS: [&str; 8] = [
    "commit", "revoke", "advance", "issue", "decide", "brief", "write", "preview",
];

/// "Write: has the register a record? 23." An accepted card has one.
const NO_RECORD: Kind = Kind::CallRefusal(23);

fn path(program: &str, file: &str) -> PathBuf {
    let checker = PathBuf::from(env!("CARGO_MANIFEST_DIR"));
    checker.join("../crates").join(program).join(file)
}

fn stored(program: &str, file: &str) -> Vec<u8> {
    fs::read(path(program, file)).expect("the input and its lines are stored")
}

fn lines(answers: impl IntoIterator<Item = Answer>) -> Vec<u8> {
    let lines = answers.into_iter().map(|answer| format!("{answer}\n"));
    lines.collect::<String>().into_bytes()
}

fn card_line(card: &[u8]) -> Vec<u8> {
    lines([cardcheck(card).expect("a slice can be read")])
}

#[test]
fn the_stored_lines_are_answered_here_too() {
    let card = stored("cardcheck", "stdin");
    assert!(card_line(&card) == stored("cardcheck", "stdout"));
    let replay = stored("replay", "stdin");
    assert!(lines(Replay::new(&replay)) == stored("replay", "stdout"));
}

#[test]
fn the_stored_cards_are_rich() {
    let card = card::read(&stored("cardcheck", "stdin")).expect("the card is accepted");
    assert!(is_rich(&card));
    let replay = Parts::of(&stored("replay", "stdin")).expect("the replay is whole");
    assert!(is_rich(&replay.ledger));
}

/// Records for both words of a brief, and directives of both effects, of both
/// kinds of subject and of every reach.
fn is_rich(ledger: &Ledger) -> bool {
    let directives: Vec<Fields> = ledger.active().iter().map(|one| one.fields()).collect();
    let some =
        |property: fn(&Fields) -> u8, value| directives.iter().any(|one| property(one) == value);
    ledger.register().records().len() == 128
        && (0..=1).all(|effect| some(|one| one.effect, effect))
        && (0..=1).all(|kind| some(|one| one.kind, kind))
        && (0..=3).all(|reach| some(|one| one.reach, reach))
}

#[test]
fn the_stored_replay_shows_every_answer() {
    let missing = missing(&stored("replay", "stdin"));
    assert!(missing.is_empty(), "{missing:?}");
}

/// What the replay has not and the stored one must have.
fn missing(replay: &[u8]) -> Vec<String> {
    let answers: Vec<Answer> = Replay::new(replay).collect();
    let counts = counts_of(replay);
    let kinds = wanted().filter(|kind| counts.of(*kind) == 0);
    let mut missing: Vec<String> = kinds.map(|kind| kind.to_string()).collect();
    if !answers.iter().any(shows_both_words) {
        missing.push("brief with both words".to_string());
    }
    if !LINES.contains(&answers.len()) {
        missing.push(format!("{LINES:?} lines"));
    }
    if counts.of(Kind::Malformed) > 0 {
        missing.push("the last call whole".to_string());
    }
    missing
}

/// What calls on an accepted card can answer.
fn wanted() -> impl Iterator<Item = Kind> {
    let wanted = Counts::wanted(Asked::ALL).filter(|kind| !matches!(kind, Kind::CardRefusal(_)));
    let accepted = CALLS.into_iter().map(Kind::Accepted);
    wanted.chain(accepted).filter(|kind| *kind != NO_RECORD)
}

fn counts_of(replay: &[u8]) -> Counts {
    let mut counts = Counts::default();
    for answer in Replay::new(replay) {
        counts.add(&answer);
    }
    counts
}

fn shows_both_words(answer: &Answer) -> bool {
    match answer {
        Answer::Brief(Ok(brief)) => brief.words.iter().all(|word| *word != 0),
        _ => false,
    }
}

/// A replay in its parts.
struct Parts {
    card: Vec<u8>,
    ledger: Ledger,
    calls: Vec<Call>,
}

impl Parts {
    /// Nothing where the card is refused or the replay is malformed.
    fn of(replay: &[u8]) -> Option<Parts> {
        let Decoded { card, calls, rest } = decode(replay)?;
        let ledger = card::read(card).ok()?;
        let parts = Parts {
            card: card.to_vec(),
            ledger,
            calls,
        };
        rest.is_empty().then_some(parts)
    }
}

/// The generated replay whose card is rich and has the most directives, and
/// those with later clocks, in the order of their clocks.
fn generated(seed: u64) -> Option<(Parts, Vec<Parts>)> {
    let replays = inputs(seed, 0, REPLAYS);
    let replays = replays.filter_map(|input| Parts::of(&input.bytes));
    let (rich, others): (Vec<_>, Vec<_>) = replays.partition(|replay| is_rich(&replay.ledger));
    let most = |replay: &Parts| replay.ledger.active().len();
    let chosen = rich.into_iter().max_by_key(most)?;
    let is_later = |other: &Parts| other.ledger.clock() > chosen.ledger.clock();
    let mut later: Vec<Parts> = others.into_iter().filter(is_later).collect();
    later.sort_by_key(|replay| replay.ledger.clock());
    Some((chosen, later))
}

/// Previews, the calls of the chosen replay, and then of the later ones that
/// show an answer not shown so far, while there is room for their lines. Before
/// these the clock goes on to that of their card, and its directives are
/// committed. Previews at the end show what those at the start cannot.
fn composed(chosen: &Parts, later: Vec<Parts>) -> Vec<u8> {
    let mut calls = previews(&chosen.ledger, &Counts::default());
    calls.extend(chosen.calls.clone());
    let mut calls = few_writes(calls);
    let mut so_far = counts_of(&encode(&chosen.card, &calls));
    for replay in later {
        let mut more = calls.clone();
        more.push(Call::Advance {
            minute: replay.ledger.clock(),
        });
        let directives = replay.ledger.active().iter();
        more.extend(directives.map(|directive| Call::Commit {
            draft: directive.fields().encode().to_vec(),
        }));
        more.extend(replay.calls);
        let more = few_writes(more);
        if more.len() >= *LINES.end() {
            continue;
        }
        let then = counts_of(&encode(&chosen.card, &more));
        if wanted().any(|kind| so_far.of(kind) == 0 && then.of(kind) > 0) {
            calls = more;
            so_far = then;
        }
    }
    let mut ledger = chosen.ledger.clone();
    for call in &calls {
        call.run(&mut ledger);
    }
    calls.extend(previews(&ledger, &so_far));
    encode(&chosen.card, &calls)
}

/// Previews on this ledger, one for each answer not shown so far.
fn previews(ledger: &Ledger, so_far: &Counts) -> Vec<Call> {
    let mut card = vec![0; usize::from(u16::MAX)];
    let length = card::write(ledger, &mut card).expect("there is a record");
    card.truncate(length);
    let mut shown = so_far.clone();
    let mut calls = Vec::new();
    for index in 0..REPLAYS {
        let arguments = access_arguments(&Input {
            kind: InputKind::Card,
            seed: 0,
            index,
            bytes: card.clone(),
        });
        let Ok(Some(draft)) = arguments.draft_bytes() else {
            continue;
        };
        let requester = arguments.requester;
        let call = Call::Preview { requester, draft };
        let answer = call.run(&mut ledger.clone());
        if shown.of(Kind::of(&answer)) == 0 {
            shown.add(&answer);
            calls.push(call);
        }
    }
    calls
}

/// The calls without the later writes into the longest buffer.
fn few_writes(mut calls: Vec<Call>) -> Vec<Call> {
    let mut writes = 0;
    calls.retain(|call| {
        let longest = *call == Call::Write { buffer: u16::MAX };
        writes += usize::from(longest);
        !longest || writes <= WRITES
    });
    calls
}

/// Stores the inputs of the first seed that gives a replay with every answer,
/// and their lines; run by name when they are to change.
#[test]
#[ignore]
fn write_stored_inputs() {
    let composed = (1..).filter_map(generated).map(|(chosen, later)| {
        let replay = composed(&chosen, later);
        (chosen.card, replay)
    });
    let mut complete = composed.filter(|(_, replay)| missing(replay).is_empty());
    let (card, replay) = complete.next().expect("some seed gives one");
    let files = [
        ("cardcheck", "stdout", card_line(&card)),
        ("cardcheck", "stdin", card),
        ("replay", "stdout", lines(Replay::new(&replay))),
        ("replay", "stdin", replay),
    ];
    for (program, file, bytes) in files {
        fs::write(path(program, file), bytes).expect("the file can be written");
    }
}
