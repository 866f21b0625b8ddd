// A draft: its form, what the gateway answers to it, the ways on from a refusal, and the pen.

import {
  DENY, LAST_DATE, LAST_MINUTE, PERMIT, PERSON, ROLE, SETS, button, byId, capital, cardLine, childrenOf, counted, directiveOf,
  directiveWords, effectMark, field, fieldOfMinute, h, has, hasDates, icon, limitWords, linkButton, listed, minuteOfField,
  namedMembers, numberField, origin, person, purpose, quoted, range, record, recordsAbove, refill, role, say, select, sensitivity,
  setNumber, shortened, tickWords, timeWords, treeOrder, type, when,
} from './words.js';

const WEEK = 7 * 1440;
const REACHES = ['Only itself', 'Directly inside', 'All inside', 'Itself and all inside'];

// ---------- The draft's bytes ----------

export function hex(number, bytes) {
  return number.toString(16).padStart(2 * bytes, '0');
}

const LAYOUT = [['number', 2], ['effect', 1], ['kind', 1], ['subject', 2], ['subject_origins', 2], ['record', 1], ['reach', 1], ['po', 2],
  ['ps', 2], ['pt', 1], ['purposes', 2], ['from', 4], ['until', 4]];

export function encodeDraft(d) {
  return LAYOUT.map(([part, bytes]) => hex(d[part], bytes)).join('');
}

export function lowestFree(taken) {
  let number = 1;
  while (taken.includes(number)) number += 1;
  return number;
}

export function newDraft(ledger) {
  return {
    number: lowestFree(ledger.directives.map(d => d.number)),
    effect: DENY,
    kind: ROLE,
    subject: Math.min(1, ledger.roles.length - 1),
    record: 0,
    reach: childrenOf(0).length ? 2 : 0,
    from: ledger.clock,
    until: Math.min(ledger.clock + WEEK, LAST_MINUTE),
    ...Object.fromEntries(Object.entries(SETS).map(([key, { full }]) => [key, full])),
  };
}

// The column of the table that stands for the draft's subject.
export function subjectColumn(d) {
  return `${d.kind === ROLE ? 'r' : 'p'}${d.subject}`;
}

// ---------- Ways on ----------

// Whether the record that the draft names is within its own reach.
function takesItself(d) {
  return d.reach === 0 || d.reach === 3;
}

function otherReaches(d) {
  const words = [`Close ${quoted(d.record)} itself instead`, ...REACHES.slice(1, 3).map(reach => `Choose “${reach}” instead`)];
  return range(words.length).filter(reach => reach !== d.reach).map(reach => ({ words: words[reach], patch: { reach } }));
}

function otherTimes(d, other, clock) {
  const ways = [];
  if (other.until < d.until) ways.push({ words: `Start when directive ${other.number} ends`, patch: { from: other.until } });
  if (other.from > Math.max(d.from, clock)) ways.push({ words: `End when directive ${other.number} starts`, patch: { until: other.from } });
  return ways;
}

// Changes of a refused draft that may help. The gateway judges each before it is offered.
export function waysOn(d, verdict, ledger) {
  switch (verdict.status) {
    case 9: {
      const start = Math.max(d.from, ledger.clock);
      return [{ words: 'End a week after the start', patch: { until: Math.min(start + WEEK, LAST_MINUTE) } }];
    }
    case 10: {
      const number = lowestFree(ledger.directives.map(e => e.number));
      return [{ words: `Use number ${number}`, patch: { number } }];
    }
    case 12: return verdict.patient ? [] : otherReaches(d);
    case 13: return otherTimes(d, directiveOf(verdict.number), ledger.clock);
    case 14: return verdict.cover && verdict.cover.length === 0 && !takesItself(d)
      ? [{ words: `Use ${quoted(d.record)} itself`, patch: { reach: 0 } }] : [];
    default: return [];
  }
}

// ---------- The form ----------

const OTHER = 'other';

function effectChoice(d, change) {
  const choice = (effect, text) => h('label', {},
    h('input', {
      type: 'radio', name: 'd-effect', id: `d-effect-${effect}`, value: String(effect), checked: d.effect === effect,
      onchange: () => change({ effect }),
    }),
    h('span', {}, icon(effect === PERMIT ? 'open' : 'closed'), text));
  return h('fieldset', { class: 'seg wide' },
    h('legend', {}, 'What do you want?'),
    h('div', { class: 'seg-in' }, choice(DENY, 'Close records'), choice(PERMIT, 'Open records')));
}

function subjectChoice(screen, d, change) {
  const { ledger } = screen.shown;
  const people = screen.knownPeople().filter(p => p !== ledger.patient);
  const known = d.kind === ROLE || people.includes(d.subject);
  const chosen = known ? subjectColumn(d) : OTHER;
  const number = numberField('d-person', d.kind === PERSON ? d.subject : 0, 65535, n => change({ kind: PERSON, subject: n }));
  const numberRow = field('d-person', 'Number of the person', number, 'From 0 to 65535');
  numberRow.hidden = known;
  const who = select('d-who', chosen, [
    { group: 'Roles', items: ledger.roles.map((_, r) => [`r${r}`, capital(role(r, 'many'))]) },
    { group: 'Named people', items: people.map(p => [`p${p}`, capital(person(p))]) },
    { group: 'Anyone', items: [[OTHER, 'Someone else, by number']] },
  ], () => {
    numberRow.hidden = who.value !== OTHER;
    if (who.value !== OTHER) {
      change({ kind: who.value.startsWith('r') ? ROLE : PERSON, subject: Number(who.value.slice(1)) });
      return;
    }
    change({ kind: PERSON, subject: Number(number.value) });
    number.focus();
    number.select();
  });
  return [field('d-who', 'For whom?', who), numberRow];
}

// The chosen record shows without the indent that it has in the list.
function nameOptions(list) {
  for (const entry of list.options) {
    const i = Number(entry.value);
    entry.textContent = (entry.selected ? '' : '\u00a0\u00a0\u00a0'.repeat(recordsAbove(i).length)) + capital(record(i));
  }
}

function recordChoice(d, change) {
  const records = select('d-rec', d.record, treeOrder().map(i => [i, '']), () => {
    nameOptions(records);
    change({ record: Number(records.value) });
  });
  nameOptions(records);
  const reach = select('d-reach', d.reach, REACHES.map((text, i) => [i, text]), () => change({ reach: Number(reach.value) }));
  return h('div', { class: 'two' }, field('d-rec', 'Which record?', records), field('d-reach', 'How much of it?', reach));
}

function dateValue(minute) {
  return hasDates() && minute !== LAST_MINUTE ? fieldOfMinute(minute) : '';
}

// A date and the same as a minute. An empty date means no end where there may be none.
function dateRow(name, label, d, change, mayBeEmpty) {
  const date = h('input', {
    type: 'datetime-local', id: `d-${name}`, max: LAST_DATE, value: dateValue(d[name]), hidden: !hasDates(),
    'aria-describedby': mayBeEmpty ? 'd-until-hint' : null,
  });
  const minute = numberField(`d-${name}-minute`, d[name], LAST_MINUTE, value => {
    date.value = dateValue(value);
    change({ [name]: value });
  }, { 'aria-label': `${label}, as a minute` });
  const take = () => {
    const cleared = date.value === '' && mayBeEmpty && !date.validity.badInput;
    const value = cleared ? LAST_MINUTE : minuteOfField(date.value);
    if (value === null || value === d[name]) return;
    setNumber(minute, value);
    change({ [name]: value });
  };
  date.addEventListener('input', take);
  date.addEventListener('change', take);
  return h('div', { class: 'daterow' }, h('label', { for: hasDates() ? `d-${name}` : `d-${name}-minute` }, label), date, minute);
}

function dateRows(d, change) {
  return h('div', { class: `dates${hasDates() ? '' : ' minutes-only'}` },
    dateRow('from', 'From', d, change, false),
    dateRow('until', 'Until', d, change, true),
    h('p', { class: 'hint dates-foot' },
      h('span', { id: 'd-until-hint' }, 'No end date: leave it empty.'),
      h('span', { 'aria-hidden': 'true' }, 'as minutes')));
}

const LIMIT_GROUPS = [
  { key: 'subject_origins', id: 'so', legend: 'When they ask from', names: 'origins', word: origin, ofRecord: r => r.origins },
  { key: 'purposes', id: 'pu', legend: 'When the reason is', names: 'purposes', word: purpose, ofRecord: () => SETS.purposes.full },
  {
    key: 'ps', id: 'ps', legend: 'Only records with these marks', names: 'sensitivities', word: sensitivity, ofRecord: r => r.sensitivities,
    hint: 'A record counts when all its marks are ticked.',
  },
  {
    key: 'po', id: 'po', legend: 'Only records held at', names: 'origins', word: origin, ofRecord: r => r.origins,
    hint: 'A record counts when every place that holds it is ticked.',
  },
  { key: 'pt', id: 'pt', legend: 'Only these kinds of record', names: 'types', word: type, ofRecord: r => 1 << r.type },
];

// What a group lists: the members that have a name or are on the card, or all where none has a name.
function listedMembers({ key, names, ofRecord }, ledger) {
  const { size, full } = SETS[key];
  const named = namedMembers(names);
  if (!named.length) return range(size);
  const sets = [...ledger.records.map(ofRecord), ...ledger.directives.map(d => d[key]).filter(set => set !== full)];
  const onCard = sets.reduce((union, set) => union | set, 0);
  return range(size).filter(i => named.includes(i) || has(onCard, i));
}

function limitGroup(group, ledger, d, change) {
  const { key, id, legend, hint, word } = group;
  const shown = listedMembers(group, ledger);
  const all = shown.reduce((set, i) => set | (1 << i), 0);
  const last = h('p', { class: 'hint last-tick', id: `d-${id}-last`, hidden: true },
    'One has to stay ticked, or the directive would say nothing.');
  const toggle = (i, box) => {
    const set = box.checked ? (d[key] & all) | (1 << i) : d[key] & all & ~(1 << i);
    last.hidden = set !== 0;
    if (set === 0) {
      box.checked = true;
      say(last.textContent);
      return;
    }
    change({ [key]: set === all ? SETS[key].full : set });
  };
  return h('fieldset', { class: 'checks', 'aria-describedby': `d-${id}-last` },
    h('legend', {}, legend),
    hint && h('p', { class: 'hint' }, hint),
    h('div', { class: 'check-grid' }, shown.map(i => h('label', { class: 'check' },
      h('input', { type: 'checkbox', id: `d-${id}-${i}`, checked: has(d[key], i), onchange: event => toggle(i, event.target) }),
      h('span', {}, capital(word(i)))))),
    last);
}

function limitsLine(d) {
  const words = limitWords(d);
  return words.length ? words.join('; ') : 'None set';
}

export function draftForm(screen) {
  const { state, shown } = screen;
  const d = state.draft || { ...shown.draft };
  const title = h('span', {}, `Directive ${d.number}`);
  const limits = h('span', { class: 'hint', id: 'limits' }, limitsLine(d));
  const change = patch => {
    if (state.draft !== d) return;
    if (patch.kind !== undefined && patch.kind !== d.kind) screen.showKind(patch.kind);
    Object.assign(d, patch);
    if (patch.subject !== undefined) state.pick = subjectColumn(d);
    state.tried = false;
    title.textContent = `Directive ${d.number}`;
    limits.textContent = limitsLine(d);
    screen.changed({ soon: true, then: sayVerdict });
  };
  return [
    h('div', { class: 'panel-top' },
      h('h2', { class: 'panel-h' }, title, ' ', h('span', { class: 'draft-tag' }, 'draft')),
      h('div', { class: 'd-number' },
        h('label', { for: 'd-number' }, 'Number'),
        numberField('d-number', d.number, 65535, number => change({ number })))),
    h('form', { class: 'draft', id: 'draft-form', 'aria-label': 'Draft of a directive', onsubmit: event => event.preventDefault() },
      effectChoice(d, change),
      subjectChoice(screen, d, change),
      recordChoice(d, change),
      dateRows(d, change),
      h('details', { class: 'more', id: 'limits-box' },
        h('summary', {}, h('span', {}, 'Limits'), ' ', limits),
        LIMIT_GROUPS.map(group => limitGroup(group, shown.ledger, d, change)))),
  ];
}

// ---------- The pen ----------

function sayVerdict() {
  const head = byId('summary').querySelector('.sum-head, h2');
  if (head) say(head.textContent);
}

function blockedLine({ status, cover }) {
  const nothing = cover && cover.length === 0 ? 'It would not apply to anything.' : 'You do not need this one.';
  return h('p', { class: `blocked-line${status === 14 ? ' mild' : ''}` }, icon('alert'),
    h('span', {}, status === 14 ? nothing : 'Not possible yet.'), ' ',
    h('a', { href: '#refusal-h', id: 'see-why', onclick: event => { event.preventDefault(); focusRefusal(); } }, 'See why'));
}

function focusRefusal() {
  const head = byId('refusal-h');
  head.focus({ preventScroll: true });
  byId('refusal').scrollIntoView({ block: 'nearest' });
}

// Signs what the preview shows. While a newer draft is being asked about, or where it is refused, no call is made.
function sign(screen) {
  const { draft, verdict } = screen.shown;
  if (!screen.isCurrent()) {
    byId('sign-wait').textContent = 'The draft is still being looked at. Wait for the preview, then sign.';
    say(byId('sign-wait').textContent);
    return;
  }
  if (verdict.status === 0) {
    screen.commit(draft);
    return;
  }
  screen.state.tried = true;
  screen.repaint();
  focusRefusal();
}

export function paintSign(screen) {
  const { draft, verdict } = screen.shown;
  const refused = verdict.status !== 0;
  refill(byId('signbar'),
    refused && blockedLine(verdict),
    h('p', { class: 'sign-head' },
      h('span', { class: 'over' }, 'You would sign'), ' ',
      !refused && h('span', { class: 'sign-count', id: 'sign-count' }, changeHead(screen.shown))),
    h('p', { class: 'inwords', id: 'inwords' }, capital(directiveWords(draft))),
    draft.effect === DENY && draft.kind === ROLE && h('p', { class: 'soft' }, 'You, and whoever wrote a record, can still read it.'),
    h('div', { class: 'sign-act' },
      button('sign', 'Sign this directive', 'pen', () => sign(screen), `primary${refused ? ' blocked' : ''}`),
      button('discard', 'Discard', null, () => screen.discard(), 'plain')),
    h('p', { class: 'soft', id: 'sign-wait' }),
    !refused && h('p', { class: 'mono' }, cardLine(draft)));
}

// ---------- What would change ----------

// The columns that the draft changes, that of its subject first and the others by their count, and the columns that it does not.
function changedColumns({ draft, verdict, columns }) {
  const counts = columns.map((column, k) => ({ ...column, changes: verdict.columns[k].status === 0 ? verdict.columns[k].changes : [] }));
  const changed = counts.filter(column => column.changes.length).sort((a, b) => b.changes.length - a.changes.length);
  const lead = changed.find(column => column.id === subjectColumn(draft)) || changed[0];
  return { lead, others: changed.filter(column => column !== lead), same: counts.filter(column => !column.changes.length) };
}

// What the draft changes, in a line.
function changeHead(shown) {
  const { lead } = changedColumns(shown);
  if (lead) return `${counted(lead.changes.length, 'record changes', 'records change')} for ${lead.many}`;
  return shown.draft.from > shown.ledger.clock ? 'Nothing changes yet' : 'Nothing changes for the people shown';
}

function nothingChanges(screen) {
  const { draft, ledger, origin: place, purpose: reason } = screen.shown;
  return h('div', { class: 'summary none', 'data-changes': '0' }, icon('clock'), h('div', {},
    h('p', { class: 'sum-head' }, changeHead(screen.shown)),
    h('p', {}, draft.from > ledger.clock
      ? `This directive starts at ${when(draft.from)}.`
      : `Not now, when they ask from ${origin(place)} for ${purpose(reason)}. Try another place or reason above.`)));
}

function changeWords(lead, others, same, draft) {
  const names = shortened(lead.changes.map(quoted));
  const could = draft.effect === PERMIT ? 'They could then read' : 'They could no longer read';
  const also = others.map(column => `${column.changes.length} for ${column.many}`);
  const none = [...same.filter(c => c.id !== 'r0'), ...same.filter(c => c.id === 'r0')].map(column => column.many);
  return [
    `${could} ${listed(names, draft.effect === PERMIT ? 'and' : 'or')}.`,
    also.length ? `Also ${listed(also)}.` : '',
    none.length ? `No change for ${listed(none, 'or')}.` : '',
  ].filter(Boolean).join(' ');
}

function changeSummary(screen) {
  const { draft } = screen.shown;
  const { lead, others, same } = changedColumns(screen.shown);
  if (!lead) return nothingChanges(screen);
  const size = String(lead.changes.length);
  return h('div', { class: 'summary', 'data-changes': size }, icon(draft.effect === PERMIT ? 'open' : 'closed'), h('div', {},
    h('p', { class: 'sum-head' }, changeHead(screen.shown)),
    h('p', {}, changeWords(lead, others, same, draft))));
}

export function draftSummary(screen) {
  return screen.shown.verdict.status === 0 ? changeSummary(screen) : refusalBlock(screen);
}

// ---------- Refusals ----------

function versus(title, d) {
  return h('li', {}, h('p', {}, effectMark(d.effect, title)), h('p', {}, capital(directiveWords(d))));
}

function exampleWords(request) {
  const asRole = request.role === 0 ? '' : `, as ${role(request.role, 'one')},`;
  const who = request.any_person ? capital(role(request.role, 'one')) : `${capital(person(request.person))}${asRole}`;
  const what = `to read ${quoted(request.record)} for ${purpose(request.purpose)}`;
  return `${who} asks from ${origin(request.origin)} ${what}, at ${when(request.minute)}.`;
}

function clash(screen) {
  const { draft, verdict, ledger } = screen.shown;
  const other = directiveOf(verdict.number);
  const overlap = { from: Math.max(other.from, draft.from, ledger.clock), until: Math.min(other.until, draft.until) };
  const answer = d => (d.effect === PERMIT ? 'yes' : 'no');
  return {
    title: `This clashes with directive ${verdict.number}`,
    body: [
      h('p', {}, verdict.request
        ? 'A card cannot say both yes and no. Here both would answer the same request:'
        : 'A card cannot say both yes and no. Some request would get both answers.'),
      verdict.request && h('blockquote', { id: 'example' }, exampleWords(verdict.request)),
      h('ul', { class: 'versus' },
        versus(`Directive ${other.number} says ${answer(other)}`, other),
        versus(`Your draft says ${answer(draft)}`, draft)),
      timeLine(screen, [other], overlap),
    ],
    more: look => button('revoke-first', `Revoke directive ${other.number} first`, null, () => screen.revokeFirst(other.number), look),
  };
}

function appliesToNothing(draft) {
  const empty = !takesItself(draft) && childrenOf(draft.record).length === 0;
  return {
    title: 'This directive would not apply to anything',
    body: [h('p', {}, empty ? `${quoted(draft.record)} has nothing inside it.` : 'No record fits the limits you chose.')],
  };
}

function covered(screen) {
  const { cover } = screen.shown.verdict;
  const others = cover.map(directiveOf);
  const many = cover.length > 1;
  return {
    title: 'You do not need this directive',
    body: [
      h('p', {}, `Already covered by ${many ? 'directives' : 'directive'} ${listed(cover.map(String))}. `
        + `${many ? 'Together they say' : 'It says'} the same for the whole time:`),
      h('ul', { class: 'versus' }, others.map(d => versus(`Directive ${d.number}`, d))),
      timeLine(screen, others, null),
    ],
  };
}

function needlessWords(screen) {
  const { draft, verdict } = screen.shown;
  if (verdict.cover === null) {
    return {
      title: 'You do not need this directive',
      body: [h('p', {}, 'Directives you have signed already say the same, or it would not apply to anything.')],
    };
  }
  return verdict.cover.length === 0 ? appliesToNothing(draft) : covered(screen);
}

function needless(screen) {
  return { ...needlessWords(screen), more: look => button('discard-refused', 'Discard the draft', null, () => screen.discard(), look) };
}

function baseline({ draft, verdict }) {
  if (verdict.patient) {
    return { title: 'You can always read your own records', body: [h('p', {}, 'A directive cannot close your records to you.')] };
  }
  const names = verdict.records ? listed(shortened(verdict.records.map(quoted))) : 'some of these records';
  return {
    title: `${capital(person(draft.subject))} wrote ${names}`,
    body: [h('p', {}, 'People can always read what they wrote, so a directive cannot close it to them.')],
  };
}

function refusalWords(screen) {
  const { draft, verdict } = screen.shown;
  const plain = (title, text) => ({ title, body: [h('p', {}, text)] });
  const backwards = draft.from >= draft.until;
  switch (verdict.status) {
    case 7: return plain('Something is missing', 'Tick at least one box in every group under Limits.');
    case 8: return plain('Not on this card', 'The record or the role in this draft is not on the card.');
    case 9: return plain('The dates do not work', backwards ? 'The end must come after the start.' : 'The end has already passed.');
    case 10: return plain('This number is taken', `Directive ${draft.number} is on the card already.`);
    case 11: return {
      ...plain('The card is full', 'A card holds at most 32 directives. Revoke one you no longer need.'),
      more: look => linkButton('to-directives', 'See your directives', 'doc', '#directives', look),
    };
    case 12: return baseline(screen.shown);
    case 13: return clash(screen);
    case 14: return needless(screen);
    default: return plain('The gateway refuses this draft', 'It gives no other reason than the number of its question.');
  }
}

function refusalBlock(screen) {
  const { verdict, ways, alternatives } = screen.shown;
  const { title, body, more } = refusalWords(screen);
  const open = ways.filter((_, k) => alternatives[k] === 0);
  const fixes = open.map((way, k) => button(`way-${k}`, way.words, null, () => screen.applyWay(way.patch)));
  return h('div', {
    class: `refusal${verdict.status === 14 ? ' mild' : ''}`, id: 'refusal', 'data-question': String(verdict.status),
    role: screen.state.tried ? 'alert' : null,
  },
  h('p', { class: 'over' }, icon('alert'), 'Not signed', ' ', h('span', { class: 'qn' }, `question ${verdict.status}`)),
  h('h2', { id: 'refusal-h', tabindex: '-1' }, title),
  body,
  (fixes.length > 0 || more) && h('div', { class: 'fixes' }, fixes, more && more(fixes.length ? 'plain' : '')));
}

// ---------- Time bars ----------

function bounds(rows, clock) {
  const from = Math.min(...rows.map(d => Math.max(d.from, clock)));
  const ends = rows.map(d => d.until).filter(minute => minute !== LAST_MINUTE);
  const starts = rows.map(d => d.from);
  const last = Math.max(from + 1, ...ends, ...starts);
  return { from, until: ends.length === rows.length ? last : Math.min(last + Math.max(1440, (last - from) / 4), LAST_MINUTE) };
}

function place(element, left, right) {
  element.style.setProperty('left', `${left}%`);
  if (right !== undefined) element.style.setProperty('width', `${right - left}%`);
  return element;
}

// The marks below the bars, without those that would run into each other. A mark needs `room` percent of the line.
function ticks(rows, line, percent, room) {
  const minutes = [...new Set([line.from, line.until, ...rows.flatMap(d => [d.from, d.until])])]
    .filter(minute => minute >= line.from && minute <= line.until).sort((a, b) => a - b);
  const last = minutes[minutes.length - 1];
  let free = -room;
  const kept = minutes.filter(minute => {
    const fits = minute === last || (percent(minute) - free >= room && (minute === line.from || 100 - percent(minute) >= room));
    if (fits) free = percent(minute);
    return fits;
  });
  return kept.map(minute => {
    const edge = minute === line.from ? 'first' : minute === last ? 'last' : '';
    return place(h('span', { class: edge }, tickWords(minute, line.until - line.from)), percent(minute));
  });
}

// The times of the draft and of the directives that stand against it, drawn. The sentences above say the same.
function timeLine(screen, others, overlap) {
  const { draft, ledger } = screen.shown;
  const rows = [...others.map(d => [`Directive ${d.number}`, d, 'b']), ['Your draft', draft, 'd']];
  const directives = rows.map(([, d]) => d);
  const line = bounds(directives, ledger.clock);
  const percent = minute => Math.max(0, Math.min(100, ((minute - line.from) / (line.until - line.from)) * 100));
  const bar = (className, { from, until }) => place(h('span', { class: className }), percent(from), percent(until));
  return h('figure', {},
    h('div', { class: 'tl', 'aria-hidden': 'true' },
      rows.map(([name, d, look]) => h('div', { class: 'tl-row' },
        h('span', { class: 'tl-name' }, name),
        h('div', { class: 'tl-track' },
          bar(`tl-bar ${look} ${d.effect === PERMIT ? 'is-open' : 'is-closed'}`, d),
          overlap && bar('tl-over', overlap)))),
      h('div', { class: 'tl-row' },
        h('span', { class: 'tl-name' }),
        h('div', { class: 'tl-track ticks' }, ticks(directives, line, percent, screen.isPhone() ? 36 : 18)))),
    overlap && h('figcaption', {}, `They overlap ${timeWords(overlap)}.`));
}
