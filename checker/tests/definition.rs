//! The definitions of documents 01 and 02 in their words, as loops over every
//! request, and the calls on a ledger that is judged by these loops.

use checker::answer::Answer;
use checker::directive::{Effect, Fields};
use checker::ledger::{Basis, Decision, Dropped, Ledger, Token};
use checker::refusal::Refusal;
use checker::register::{Record, RecordWords};
use checker::replay::Call;
use checker::request::{Query, Request, Requester};

use crate::support::Card;

const DENY: u8 = 0;
const PERSON: u8 = 0;

/// A ledger as document 01 describes it, with directives as their fields.
#[derive(Clone, Debug)]
pub struct Model {
    pub patient: u16,
    pub clock: u32,
    pub roles: Vec<u8>,
    pub records: Vec<Record>,
    pub active: Vec<Fields>,
    pub tokens: Vec<Token>,
}

fn has(set: u16, bit: u8) -> bool {
    bit < 16 && set & (1 << bit) != 0
}

impl Model {
    /// The ledger of a card that keeps questions 1 to 5, without its
    /// directives.
    pub fn new(card: &Card) -> Model {
        Model {
            patient: card.patient,
            clock: card.clock,
            roles: card.roles.clone(),
            records: card.records.clone(),
            active: Vec::new(),
            tokens: Vec::new(),
        }
    }

    /// The ledger with the card's directives, each put to 7 to 13.
    pub fn read(card: &Card) -> Result<Model, Refusal> {
        let mut model = Model::new(card);
        for directive in &card.directives {
            model.validate(directive)?;
            model.active.push(*directive);
        }
        Ok(model)
    }

    pub fn is(&self, ledger: &Ledger) -> bool {
        let active = ledger.active().iter();
        let active: Vec<Fields> = active.map(|directive| directive.fields()).collect();
        self.patient == ledger.patient()
            && self.clock == ledger.clock()
            && self.roles == ledger.register().roles()
            && self.records == ledger.register().records()
            && self.active == active
            && self.tokens == ledger.tokens()
    }

    /// "Role r covers role q when r is q or stands above q on the way to
    /// role 0."
    fn covers(&self, r: u16, q: u16) -> bool {
        let mut on_the_way = q;
        loop {
            if on_the_way == r {
                return true;
            }
            if on_the_way == 0 {
                return false;
            }
            on_the_way = u16::from(self.roles[usize::from(on_the_way)]);
        }
    }

    /// "Reach 0 is the record itself, 1 its children, 2 all its descendants
    /// without itself." "Reach 3 is the record with all its descendants."
    fn within(&self, top: u8, reach: u8, record: u8) -> bool {
        let parent = |record: &u8| self.records[usize::from(*record)].parent;
        let above = |record: &u8| (*record != 0).then(|| parent(record));
        let mut way_to_the_root = std::iter::successors(Some(record), above);
        match reach {
            0 => record == top,
            1 => way_to_the_root.nth(1) == Some(top),
            2 => way_to_the_root.skip(1).any(|higher| higher == top),
            3 => way_to_the_root.any(|higher| higher == top),
            _ => panic!("reach {reach}"),
        }
    }

    /// "It selects a record within its reach whose origins all lie in po,
    /// whose sensitivities all lie in ps and whose type is in pt."
    pub fn selects(&self, directive: &Fields, record: u8) -> bool {
        let found = &self.records[usize::from(record)];
        let lies_in = |set: u16, other: u16| (0..16).all(|bit| !has(set, bit) || has(other, bit));
        self.within(directive.record, directive.reach, record)
            && lies_in(found.origins, directive.po)
            && lies_in(found.sensitivities, directive.ps)
            && has(u16::from(directive.pt), found.record_type)
    }

    /// "A directive matches it when subject, subject origins and purposes
    /// cover it, the record is selected, and from <= minute < until."
    pub fn matches(&self, directive: &Fields, request: &Request) -> bool {
        let subject = if directive.kind == PERSON {
            request.person == directive.subject
        } else {
            self.covers(directive.subject, request.role)
        };
        subject
            && has(directive.subject_origins, request.origin)
            && has(directive.purposes, request.purpose)
            && directive.from <= request.minute
            && request.minute < directive.until
            && self.selects(directive, request.record)
    }

    /// The requests that "some request" and "every request" range over, as
    /// far as they can make a difference for these directives.
    ///
    /// Persons: the definitions compare a person with the ones that are named
    /// and with nothing else, so two that nothing names stand for all of
    /// them; two, as a search may take one of them. Minutes: from the clock
    /// on, and none after the last `until` is matched. Origins and purposes:
    /// one that no set has stands for all such.
    pub fn requests(&self, directives: &[Fields]) -> Vec<Request> {
        let mut persons: Vec<u16> = vec![self.patient];
        persons.extend(self.records.iter().map(|record| record.author));
        persons.extend(directives.iter().map(|directive| directive.subject));
        persons.sort();
        persons.dedup();
        let unnamed = (0..=u16::MAX)
            .rev()
            .filter(|person| !persons.contains(person));
        let unnamed: Vec<u16> = unnamed.take(2).collect();
        persons.extend(unnamed);
        let origins = members(
            directives.iter().map(|directive| directive.subject_origins),
            16,
        );
        let purposes = members(directives.iter().map(|directive| directive.purposes), 11);
        let last = directives.iter().map(|directive| directive.until).max();
        let last = last.unwrap_or(0).max(self.clock).saturating_add(1);
        assert!(last - self.clock < 50, "the minutes of a small world");
        let mut requests = Vec::new();
        for person in persons {
            for role in 0..self.roles.len() as u16 {
                for origin in &origins {
                    for record in 0..self.records.len() as u8 {
                        for purpose in &purposes {
                            for minute in self.clock..=last {
                                requests.push(Request {
                                    person,
                                    role,
                                    origin: *origin,
                                    record,
                                    purpose: *purpose,
                                    minute,
                                });
                            }
                        }
                    }
                }
            }
        }
        requests
    }

    /// "A conflict is a request matched by two directives of opposite
    /// effect."
    pub fn conflict(&self, requests: &[Request], one: &Fields, other: &Fields) -> bool {
        one.effect != other.effect
            && requests
                .iter()
                .any(|request| self.matches(one, request) && self.matches(other, request))
    }

    /// "The lowest number of an active directive that the draft conflicts
    /// with."
    pub fn lowest_conflict(&self, requests: &[Request], draft: &Fields) -> Option<u16> {
        let active = self.active.iter();
        active
            .filter(|other| self.conflict(requests, draft, other))
            .map(|other| other.number)
            .min()
    }

    /// "A deny that names a person breaks the baseline when it matches some
    /// request of that person on a record they authored, or any request if
    /// that person is the patient."
    pub fn breaks_baseline(&self, requests: &[Request], draft: &Fields) -> bool {
        draft.effect == DENY
            && draft.kind == PERSON
            && requests.iter().any(|request| {
                let author = self.records[usize::from(request.record)].author;
                let of_person = request.person == draft.subject && author == draft.subject;
                let of_patient = draft.subject == self.patient;
                (of_person || of_patient) && self.matches(draft, request)
            })
    }

    /// "A draft is superfluous when every request it matches is matched by an
    /// active directive of its own effect, several together if need be."
    pub fn redundant(&self, requests: &[Request], draft: &Fields) -> bool {
        requests
            .iter()
            .filter(|request| self.matches(draft, request))
            .all(|request| {
                let mut own = self
                    .active
                    .iter()
                    .filter(|other| other.effect == draft.effect);
                own.any(|other| self.matches(other, request))
            })
    }

    /// The requests for questions 12 to 14.
    fn requests_with(&self, draft: &Fields) -> Vec<Request> {
        self.requests(&[&self.active[..], &[*draft]].concat())
    }

    /// Questions 7 to 13.
    pub fn validate(&self, draft: &Fields) -> Result<(), Refusal> {
        let sets = [draft.subject_origins, draft.po, draft.ps, draft.purposes];
        let in_range = draft.effect < 2
            && draft.kind < 2
            && draft.reach <= 3
            && sets.iter().all(|set| *set != 0)
            && draft.pt != 0
            && draft.purposes <= 0x07FF;
        if !in_range {
            return Err(Refusal::DraftRange);
        }
        let has_role = draft.kind == PERSON || usize::from(draft.subject) < self.roles.len();
        if !has_role || usize::from(draft.record) >= self.records.len() {
            return Err(Refusal::UnknownRoleOrRecord);
        }
        if !(draft.from < draft.until && self.clock < draft.until) {
            return Err(Refusal::DraftMinutes);
        }
        if self.active.iter().any(|other| other.number == draft.number) {
            return Err(Refusal::NumberTaken);
        }
        if self.active.len() >= 32 {
            return Err(Refusal::TooManyDirectives);
        }
        let requests = self.requests_with(draft);
        if self.breaks_baseline(&requests, draft) {
            return Err(Refusal::BaselineBroken);
        }
        match self.lowest_conflict(&requests, draft) {
            Some(named) => Err(Refusal::Conflict(named)),
            None => Ok(()),
        }
    }

    /// Questions 6 to 14.
    fn commit(&mut self, bytes: &[u8]) -> Result<(), Refusal> {
        let bytes: &[u8; 25] = bytes.try_into().map_err(|_| Refusal::DraftLength)?;
        let draft = Fields::decode(bytes);
        self.validate(&draft)?;
        if self.redundant(&self.requests_with(&draft), &draft) {
            return Err(Refusal::Redundant);
        }
        self.active.push(draft);
        Ok(())
    }

    fn advance(&mut self, minute: u32) -> Result<Dropped, Refusal> {
        if minute < self.clock {
            return Err(Refusal::MinuteBeforeClock);
        }
        self.clock = minute;
        let (kept, dropped): (Vec<Fields>, Vec<Fields>) = self
            .active
            .iter()
            .partition(|directive| directive.until > minute);
        let (live, expired): (Vec<Token>, Vec<Token>) =
            self.tokens.iter().partition(|token| token.until > minute);
        self.active = kept;
        self.tokens = live;
        Ok(Dropped {
            directives: dropped.len(),
            tokens: expired.len(),
        })
    }

    fn issue(&mut self, token: Token, length: u32) -> Result<(), Refusal> {
        let end = u64::from(self.clock) + u64::from(length);
        if token.states == 0 {
            return Err(Refusal::NoState);
        }
        if !(1..=240).contains(&length) || end > 4_294_967_295 {
            return Err(Refusal::TokenLength);
        }
        if self.tokens.iter().any(|other| other.number == token.number) {
            return Err(Refusal::TokenNumberTaken);
        }
        if self.tokens.len() >= 4 {
            return Err(Refusal::TooManyTokens);
        }
        self.tokens.push(Token {
            until: end as u32,
            ..token
        });
        Ok(())
    }

    /// The brief, record by record.
    fn brief(&self, number: u16, person: u16) -> Result<RecordWords, Refusal> {
        let scopes = [
            0x000F, 0x000B, 0x0017, 0x0023, 0x00C3, 0x01C3, 0x0603, 0x000B,
        ];
        let mut live = self.tokens.iter();
        let token = live
            .find(|token| token.number == number && token.person == person)
            .ok_or(Refusal::NoToken)?;
        let mut words = [0, 0];
        let mut count = 0;
        for (number, record) in self.records.iter().enumerate() {
            let in_scope = |state: &usize| {
                has(u16::from(token.states), *state as u8) && record.labels & scopes[*state] != 0
            };
            if (0..8).any(|state| in_scope(&state)) {
                words[number / 64] |= 1 << (number % 64);
                count += 1;
            }
        }
        Ok(RecordWords { words, count })
    }

    /// "The patient, permit, basis 1; else the record's author, permit, basis
    /// 2; else a matching active directive, its effect, basis 3 with the
    /// lowest such number; else basis 4, the default consent."
    pub fn decide(&self, query: Query) -> Decision {
        let record = &self.records[usize::from(query.record)];
        let request = query.at(self.clock);
        let active = self.active.iter();
        let matching = active
            .filter(|directive| self.matches(directive, &request))
            .min_by_key(|directive| directive.number);
        let decision = |effect, basis| Decision { effect, basis };
        if query.person == self.patient {
            return decision(Effect::Permit, Basis::Patient);
        }
        if query.person == record.author {
            return decision(Effect::Permit, Basis::Author);
        }
        match matching {
            Some(directive) if directive.effect == DENY => {
                decision(Effect::Deny, Basis::Directive(directive.number))
            }
            Some(directive) => decision(Effect::Permit, Basis::Directive(directive.number)),
            None if has(record.origins, query.origin) && query.purpose == 0 => {
                decision(Effect::Permit, Basis::Default)
            }
            None => decision(Effect::Deny, Basis::Default),
        }
    }

    /// "Committing on a copy of the ledger."
    pub fn after_commit(&self, draft: &[u8]) -> Result<Model, Refusal> {
        let mut copy = self.clone();
        copy.commit(draft).map(|()| copy)
    }

    /// "Deciding every record before and after", with the copy after the
    /// commit; "a draft that would be refused gives that refusal; otherwise
    /// the requester is put to question 17, its record part left out".
    pub fn preview(
        &self,
        after: &Result<Model, Refusal>,
        requester: Requester,
    ) -> Result<RecordWords, Refusal> {
        let after = after.as_ref().map_err(|refusal| *refusal)?;
        let has_role = usize::from(requester.role) < self.roles.len();
        if !has_role || requester.origin > 15 || requester.purpose > 10 {
            return Err(Refusal::QueryRange);
        }
        let mut words = [0, 0];
        let mut count = 0;
        for record in 0..self.records.len() {
            let query = requester.query(record as u8);
            if self.decide(query).effect != after.decide(query).effect {
                words[record / 64] |= 1 << (record % 64);
                count += 1;
            }
        }
        Ok(RecordWords { words, count })
    }

    /// The answer to a commit, revoke, advance, issue or brief.
    pub fn run(&mut self, call: &Call) -> Answer {
        match call {
            Call::Commit { draft } => Answer::Commit(self.commit(draft)),
            Call::Revoke { number } => {
                let mut active = self.active.iter();
                let place = active.position(|directive| directive.number == *number);
                Answer::Revoke(match place {
                    Some(place) => {
                        self.active.remove(place);
                        Ok(())
                    }
                    None => Err(Refusal::NotActive),
                })
            }
            Call::Advance { minute } => Answer::Advance(self.advance(*minute)),
            Call::Issue {
                number,
                person,
                states,
                length,
            } => {
                let token = Token {
                    number: *number,
                    person: *person,
                    states: *states,
                    until: 0,
                };
                Answer::Issue(self.issue(token, *length))
            }
            Call::Brief { number, person } => Answer::Brief(self.brief(*number, *person)),
            Call::Decide(_) | Call::Write { .. } | Call::Preview { .. } => {
                panic!("not a call of the model")
            }
        }
    }
}

/// The bits below `end` that some of the sets have, and one that none has.
fn members(sets: impl Iterator<Item = u16>, end: u8) -> Vec<u8> {
    let union = sets.fold(0, |union, set| union | set);
    let mut members: Vec<u8> = (0..end).filter(|bit| has(union, *bit)).collect();
    members.extend((0..end).find(|bit| !has(union, *bit)));
    members
}
