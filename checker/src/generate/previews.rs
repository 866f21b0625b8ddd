//! Previews of drafts of every kind, for requesters of every kind.

use super::calls::{aim, change, decide_some, plain_query};
use super::drafts;
use super::scene::Scene;
use crate::directive::Fields;
use crate::random::Random;
use crate::replay::Call;
use crate::request::{has_bit, Query, Requester, TREATMENT};

/// A preview, at times of a wide draft. Of drafts that belong together the last
/// is previewed and the others are committed before it. At times the same
/// preview, one for another requester, or the commit and decides follow.
pub fn previews(scene: &mut Scene, random: &mut Random, calls: &mut Vec<Call>) {
    let mut drafts = if random.chance(15) {
        vec![drafts::wide(scene, random).encode().to_vec()]
    } else {
        drafts::next(scene, random)
    };
    let Some(draft) = drafts.pop() else {
        return;
    };
    calls.extend(drafts.into_iter().map(|draft| Call::Commit { draft }));
    let asked = requester(scene, random, &draft);
    let preview = |requester| Call::Preview {
        requester,
        draft: draft.clone(),
    };
    calls.push(preview(asked));
    match random.range(0, 9) {
        0 => calls.push(preview(asked)),
        1 => calls.push(preview(requester(scene, random, &draft))),
        2..=4 => {
            calls.push(Call::Commit { draft });
            decide_some(scene, random, asked, calls);
        }
        _ => {}
    }
}

/// One whom the draft most often covers. At times a part is changed, in or out
/// of its range.
fn requester(scene: &Scene, random: &mut Random, draft: &[u8]) -> Requester {
    let mut query = plain_query(scene, random);
    let fields = draft.try_into().map(Fields::decode);
    if let (Ok(fields), true) = (fields, random.chance(80)) {
        aim(scene, random, &fields, &mut query);
        if random.chance(60) {
            stand_to_change(scene, random, &fields, &mut query);
        }
    }
    if random.chance(35) {
        change(scene, random, &mut query);
    }
    query.requester()
}

/// Makes a change likely: a stranger where the draft names a role; treatment
/// from an origin of the record where it denies.
fn stand_to_change(scene: &Scene, random: &mut Random, draft: &Fields, query: &mut Query) {
    if draft.kind == 1 {
        query.person = random.pick(&scene.strangers());
    }
    let record = scene.register.record(query.record);
    let origins = record.map_or(0, |record| record.origins) & draft.subject_origins;
    if draft.effect == 0 && origins != 0 && has_bit(draft.purposes, TREATMENT) {
        query.origin = random.member(origins);
        query.purpose = TREATMENT;
    }
}
