// The page's state, its one endpoint, its routes and the frame around its parts.
// The state is the card as it was opened and the calls made since; every answer comes from the gateway.

import { encodeDraft, hex, newDraft, waysOn } from './draft.js';
import { accessColumns, defaultOrigin, defaultPeople, knownPeople, paintAccess } from './table.js';
import { newToken, paintBadCard, paintDirectives, paintEmergency, paintError, tokenColumns, wantedStates } from './views.js';
import {
  LAST_DATE, LAST_MINUTE, ROLE, button, byId, capital, checkedLabels, counted, endedWords, field, fieldOfMinute, focusOn, fullTime,
  h, hasDates, icon, minuteOfField, numberField, person, range, refill, refillFor, refusedCall, say, setNumber, speakOf, when,
} from './words.js';

const VIEWS = ['access', 'write', 'directives', 'urgent'];
const COMMIT = 0x10;
const REVOKE = 0x11;
const ADVANCE = 0x12;
const ISSUE = 0x13;
const TYPING_PAUSE = 150;
const LONGEST_WAIT = 30000;
const MOST_ROUNDS = 4;
const LONGEST_CARD = 65535;
const LONGEST_NAMES = 1048576;

const wide = window.matchMedia('(min-width: 1400px)');
const narrow = window.matchMedia('(max-width: 1000px)');
const phone = window.matchMedia('(max-width: 640px)');

const state = {
  card: null, // the bytes as opened, in hexadecimal
  name: '',
  labels: checkedLabels(null),
  serial: 0, // goes up with each card or names file
  calls: [], // { op, tag, value } and what the call says
  saved: [], // those of the last file that was saved

  view: 'access',
  origin: null,
  purpose: 0,
  show: null, // 'roles', 'people' or 'all'
  people: null, // the persons shown
  added: [], // persons given by number
  roles: new Map(), // the role chosen for a person

  sel: null, // the answer whose reason is shown: { column, record }
  pick: null, // the column that a phone shows
  folded: new Set(),
  only: false,

  draft: null,
  draftSerial: 0, // goes up where the form has to be made anew
  tried: false, // the pen was pressed on a refused draft
  notice: null, // the call that the directives page reports

  token: null, // the form for emergency access
  tokenSerial: 0,
  issued: null, // the call that the form made last
};

// ---------- Asking the gateway ----------

let shown = null; // the answer on the page, with what it was asked for
let latest = null; // the last answer about this card, and the draft that it judged
let sequence = 0;
let timer = 0;
let underWay = null;
let ready = false;
let calling = false; // the answer that is awaited is that of a call
let afterwards = null;

function setReady(value) {
  ready = value;
  if (value) document.body.dataset.ready = 'true';
  else delete document.body.dataset.ready;
  byId('main').setAttribute('aria-busy', String(!value));
}

// The state has changed: the answer on the page no longer belongs to it, nor does one under way. `then` is done once the new one is shown.
function changed({ soon = false, then = null } = {}) {
  setReady(false);
  sequence += 1;
  afterwards = then;
  clearTimeout(timer);
  if (soon) timer = setTimeout(ask, TYPING_PAUSE);
  else ask();
}

async function request(url, options) {
  if (underWay) underWay.abort();
  const control = new AbortController();
  underWay = control;
  const limit = setTimeout(() => control.abort(), LONGEST_WAIT);
  try {
    const response = await fetch(url, { ...options, cache: 'no-store', signal: control.signal });
    const text = await response.text();
    return { ok: response.ok, status: response.status, text };
  } catch (error) {
    const late = error.name === 'AbortError';
    throw new Error(late ? 'There was no answer in time.' : 'The gateway cannot be reached. It may have been stopped.');
  } finally {
    clearTimeout(limit);
  }
}

async function requestJson(url, options) {
  const { ok, status, text } = await request(url, options);
  let json = null;
  try {
    json = JSON.parse(text);
  } catch {
    throw new Error(`The answer cannot be read (status ${status}).`);
  }
  if (ok) return json;
  const words = isObject(json) && typeof json.error === 'string' ? json.error : 'The gateway gives no reason.';
  throw new Error(`${words} (status ${status})`);
}

function columnsFor(ledger, draft) {
  if (state.view === 'access' || state.view === 'write') return accessColumns(state, ledger, draft, phone.matches ? 'all' : state.show);
  return state.view === 'urgent' ? tokenColumns(state, ledger) : [];
}

// What to ask for the state as it is, by the ledger of the last answer: who is asked about and which ways on are tried depend on it.
function questionFor(last) {
  const ledger = last && last.answer.ledger;
  if (ledger) speakOf(state.labels, ledger);
  const draft = ledger && state.view === 'write' && state.draft ? { ...state.draft } : null;
  const bytes = draft && encodeDraft(draft);
  const columns = ledger ? columnsFor(ledger, draft) : [];
  const judged = draft && last.draft === bytes && last.answer.draft.status !== 0;
  const ways = judged ? waysOn(draft, last.answer.draft, ledger) : [];
  const purpose = state.view === 'urgent' ? 0 : state.purpose;
  return {
    view: state.view, draft, columns, ways, origin: state.origin, purpose,
    body: {
      card: state.card,
      calls: state.calls.map(({ tag, value }) => ({ tag, value })),
      columns: columns.map(column => ({ person: column.person, role: column.role, origin: state.origin, purpose })),
      draft: bytes,
      alternatives: ways.map(({ patch }) => encodeDraft({ ...draft, ...patch })),
      states: ledger && state.view === 'urgent' ? wantedStates(state.token) : [],
    },
  };
}

// Fills in what depends on the ledger and was not chosen yet.
function settle(ledger) {
  speakOf(state.labels, ledger);
  if (state.origin === null) state.origin = defaultOrigin(ledger);
  if (state.people === null) state.people = defaultPeople(ledger);
  if (state.show === null) state.show = wide.matches || phone.matches ? 'all' : 'roles';
  if (state.token === null) {
    state.token = newToken(ledger, knownPeople(state, ledger));
    state.tokenSerial += 1;
  }
  if (state.view === 'write' && state.draft === null) {
    state.draft = newDraft(ledger);
    state.draftSerial += 1;
    showKind(ROLE);
  }
}

// Asks until the question is the one that the answer's own ledger calls for; as a rule that is once.
async function ask() {
  const mine = sequence;
  try {
    for (let round = 0; round < MOST_ROUNDS; round += 1) {
      const question = questionFor(latest);
      const body = JSON.stringify(question.body);
      const answer = await requestJson('/answer', { method: 'POST', headers: { 'Content-Type': 'application/json' }, body });
      if (mine !== sequence) return;
      checkAnswer(answer, question);
      latest = { answer, draft: question.body.draft };
      if (answer.card.status === 0) settle(answer.ledger);
      if (answer.card.status !== 0 || JSON.stringify(questionFor(latest).body) === body) {
        show(question, answer);
        return;
      }
    }
    throw new Error('The answers do not fit together.');
  } catch (error) {
    if (mine === sequence) fail(error.message);
  }
}

function show(question, answer) {
  const refused = answer.card.status !== 0;
  shown = {
    view: refused ? 'badcard' : question.view,
    labels: state.labels,
    card: answer.card,
    ledger: refused ? null : answer.ledger,
    written: answer.written,
    calls: [...state.calls],
    callAnswers: answer.calls,
    origin: question.origin,
    purpose: question.purpose,
    columns: question.columns,
    decisions: answer.columns,
    draft: question.draft,
    verdict: answer.draft,
    ways: question.ways,
    alternatives: answer.alternatives,
    briefs: answer.briefs,
  };
  repaint();
  setReady(true);
  calling = false;
  const then = afterwards;
  afterwards = null;
  if (then) then();
}

// An error takes away what was shown, so that it never looks like an answer.
function fail(words) {
  shown = null;
  calling = false;
  afterwards = null;
  document.body.dataset.view = 'error';
  document.title = 'No answer – Consent card';
  clearFrame();
  paintError(screen, words);
  byId('main').setAttribute('aria-busy', 'false');
}

// ---------- Checking an answer ----------

function need(condition, what) {
  if (!condition) throw new Error(`The gateway’s answer is not complete: ${what}.`);
}

function isCount(value) {
  return Number.isSafeInteger(value) && value >= 0;
}

function isObject(value) {
  return typeof value === 'object' && value !== null;
}

function isListOf(list, isOne, length = null) {
  return Array.isArray(list) && (length === null || list.length === length) && list.every(isOne);
}

function isNullOr(value, isOne) {
  return value === null || isOne(value);
}

function hasCounts(object, names) {
  return isObject(object) && names.every(name => isCount(object[name]));
}

function checkRefusedCard({ length, edition, patient, values, fault }) {
  need(isCount(length) && isNullOr(edition, isCount) && isNullOr(patient, isCount) && isListOf(values, isCount), 'the refused card');
  need(fault === null || (hasCounts(fault, ['field', 'offset', 'end']) && isNullOr(fault.tag, isCount) && isNullOr(fault.byte, isCount)
    && isNullOr(fault.words, words => typeof words === 'string') && fault.offset <= fault.end), 'the place of the fault');
}

const RECORD_PARTS = ['parent', 'author', 'origins', 'sensitivities', 'type', 'labels'];
const DIRECTIVE_PARTS = ['number', 'effect', 'kind', 'subject', 'subject_origins', 'record', 'reach', 'po', 'ps', 'pt', 'purposes',
  'from', 'until'];
const TOKEN_PARTS = ['number', 'person', 'states', 'until', 'count'];
const REQUEST_PARTS = ['person', 'role', 'origin', 'record', 'purpose', 'minute'];

function checkLedger(ledger) {
  need(hasCounts(ledger, ['patient', 'clock']), 'patient and clock');
  const { roles, records, directives, tokens } = ledger;
  const isParent = (parent, i) => isCount(parent) && (i === 0 ? parent === 0 : parent < i);
  need(isListOf(roles, isParent) && roles.length > 0, 'the roles');
  need(isListOf(records, (r, i) => hasCounts(r, RECORD_PARTS) && isParent(r.parent, i)) && records.length > 0, 'the records');
  const isRecord = i => isCount(i) && i < records.length;
  const isDirective = d => hasCounts(d, DIRECTIVE_PARTS) && isRecord(d.record) && d.effect <= 1 && d.kind <= 1 && d.reach <= 3;
  need(isListOf(directives, isDirective), 'the directives');
  need(isListOf(tokens, t => hasCounts(t, TOKEN_PARTS) && isListOf(t.records, isRecord, t.count)), 'the tokens');
}

function checkDecisions({ status, decisions }, records, numbers) {
  need(isCount(status), 'a column');
  if (status !== 0) return;
  const isDecision = d => isObject(d) && [0, 1].includes(d.effect) && [1, 2, 3, 4].includes(d.basis)
    && (d.basis !== 3 || numbers.includes(d.number));
  need(isListOf(decisions, isDecision, records), 'the decisions of a column');
}

// The records that a preview names are those whose decision differs, no more and no fewer.
function checkPreview(column, before, records, numbers) {
  need(isObject(column), 'a column of the preview');
  checkDecisions(column, records, numbers);
  if (column.status !== 0) return;
  need(before.status === 0, 'a column of the preview');
  const differ = range(records).filter(i => before.decisions[i].effect !== column.decisions[i].effect);
  need(isListOf(column.changes, i => differ.includes(i), column.count) && column.count === differ.length, 'the changes of a column');
}

function checkVerdict(verdict, question, { columns, ledger }) {
  need(isObject(verdict) && isCount(verdict.status), 'the draft');
  const numbers = ledger.directives.map(d => d.number);
  const isRecord = i => isCount(i) && i < ledger.records.length;
  if (verdict.status === 0) {
    need(isListOf(verdict.columns, isObject, columns.length), 'the preview');
    verdict.columns.forEach((column, k) => checkPreview(column, columns[k], ledger.records.length, [...numbers, question.draft.number]));
  }
  if (verdict.status === 12) {
    need(typeof verdict.patient === 'boolean' && isNullOr(verdict.records, list => isListOf(list, isRecord)), 'refusal 12');
  }
  if (verdict.status === 13) {
    const isRequest = r => hasCounts(r, REQUEST_PARTS) && isRecord(r.record) && typeof r.any_person === 'boolean';
    need(numbers.includes(verdict.number) && isNullOr(verdict.request, isRequest), 'refusal 13');
  }
  if (verdict.status === 14) need(isNullOr(verdict.cover, list => isListOf(list, n => numbers.includes(n))), 'refusal 14');
}

// How many values the page shows of a call's answer: both counts of an advance, and the number that 13 names.
function valuesWanted(tag, status) {
  if (status === 13) return 1;
  return tag === ADVANCE && status === 0 ? 2 : 0;
}

function checkAnswer(answer, question) {
  const { body } = question;
  need(isObject(answer) && isObject(answer.card) && isCount(answer.card.status), 'the card');
  if (answer.card.status !== 0) {
    checkRefusedCard(answer.card);
    return;
  }
  need(hasCounts(answer.card, ['edition', 'records', 'directives', 'clock']), 'the card');
  checkLedger(answer.ledger);
  const isCallAnswer = (c, k) => hasCounts(c, ['status', 'minute']) && isListOf(c.values, isCount)
    && c.values.length >= valuesWanted(body.calls[k].tag, c.status);
  need(isListOf(answer.calls, isCallAnswer, body.calls.length), 'the calls');
  need(typeof answer.written === 'string' && /^([0-9a-f]{2})+$/i.test(answer.written), 'the card as it is now');
  const numbers = answer.ledger.directives.map(d => d.number);
  need(isListOf(answer.columns, isObject, body.columns.length), 'the columns');
  answer.columns.forEach(column => checkDecisions(column, answer.ledger.records.length, numbers));
  if (body.draft === null) need(answer.draft === null, 'no draft');
  else checkVerdict(answer.draft, question, answer);
  need(isListOf(answer.alternatives, isCount, body.alternatives.length), 'the ways on');
  const isRecord = i => isCount(i) && i < answer.ledger.records.length;
  const isBrief = (b, k) => isObject(b) && b.states === body.states[k] && isListOf(b.records, isRecord, b.count);
  need(isListOf(answer.briefs, isBrief, body.states.length), 'the briefs');
}

// ---------- Calls ----------

// Whether a step can be made. While the answer to one is awaited there is no other: a double click would make it twice.
function beginStep() {
  if (calling) {
    say('The gateway is still answering. Try again in a moment.');
    return false;
  }
  calling = true;
  note('');
  return true;
}

// The index of the call, or null where none is made.
function call(op, tag, value, said) {
  if (!beginStep()) return null;
  state.calls.push({ op, tag, value, ...said });
  return state.calls.length - 1;
}

function commit(draft) {
  const index = call('commit', COMMIT, encodeDraft(draft), { draft });
  if (index === null) return;
  state.notice = index;
  state.draft = null;
  state.tried = false;
  go('directives');
}

function revoke(number) {
  const index = call('revoke', REVOKE, hex(number, 2), { number });
  if (index === null) return;
  state.notice = index;
  changed({ then: () => say(`Directive ${number} is revoked.`) });
}

// Revokes what stands against the draft, which stays open.
function revokeFirst(number) {
  if (state.draft === null || call('revoke', REVOKE, hex(number, 2), { number }) === null) return;
  state.tried = false;
  changed({
    then: () => {
      focusOn(byId('sign'));
      say(`Directive ${number} is revoked.`);
    },
  });
}

function advance(wanted) {
  const minute = Math.min(wanted, LAST_MINUTE);
  const index = call('advance', ADVANCE, hex(minute, 4), { minute });
  if (index === null) return;
  changed({
    then: () => {
      const { status, values } = shown.callAnswers[index];
      if (status === 0) say(`The time is now ${when(shown.ledger.clock)}. ${endedWords(values)}`);
      else note(`The clock was not moved. ${refusedCall(status, values)}`);
    },
  });
}

function issue(token) {
  const value = hex(token.number, 2) + hex(token.person, 2) + hex(token.states, 1) + hex(token.length, 4);
  const index = call('issue', ISSUE, value, token);
  if (index === null) return;
  state.issued = index;
  changed({
    then: () => {
      if (shown.callAnswers[index].status !== 0) return;
      Object.assign(state, { token: null, issued: null });
      settle(shown.ledger);
      repaint();
      const head = byId(`token-${token.number}`);
      focusOn(head);
      head.scrollIntoView({ block: 'nearest' });
      say(`Emergency access is on for ${person(token.person)}.`);
    },
  });
}

function undo() {
  if (!beginStep()) return;
  state.calls.pop();
  Object.assign(state, { notice: null, issued: null });
  changed({ then: () => say('The last step is undone.') });
}

// ---------- The draft ----------

function showKind(kind) {
  if (state.show !== 'all') state.show = kind === ROLE ? 'roles' : 'people';
}

function applyWay(patch) {
  if (state.draft === null) return;
  Object.assign(state.draft, patch);
  state.tried = false;
  state.draftSerial += 1;
  changed({
    then: () => {
      focusOn(byId('sign'));
      say('The draft has changed.');
    },
  });
}

function discard() {
  state.draft = null;
  state.tried = false;
  go('access');
}

// ---------- Files ----------

function note(text) {
  byId('note').textContent = text;
  byId('note').hidden = text === '';
}

function takeCard(card, name, labels) {
  Object.assign(state, {
    card, name, labels: checkedLabels(labels), serial: state.serial + 1, calls: [], saved: [],
    origin: null, purpose: 0, people: null, added: [], roles: new Map(),
    sel: null, pick: null, folded: new Set(), only: false,
    draft: null, tried: false, notice: null, token: null, issued: null,
  });
  latest = null;
  shown = null;
}

// Whether there are steps that no saved file has.
function hasUnsavedSteps() {
  const { calls, saved } = state;
  return calls.length > 0 && (calls.length !== saved.length || calls.some((one, k) => one !== saved[k]));
}

async function bytesOf(file, most, what) {
  if (file.size > most) {
    const figure = n => n.toLocaleString('en-GB');
    note(`${file.name} is too large to be ${what}: it has ${figure(file.size)} bytes, and the most is ${figure(most)}.`);
    return null;
  }
  try {
    return new Uint8Array(await file.arrayBuffer());
  } catch {
    note(`${file.name} cannot be read.`);
    return null;
  }
}

async function openCard(file) {
  note('');
  const bytes = await bytesOf(file, LONGEST_CARD, 'a card');
  if (bytes === null) return;
  const open = () => {
    takeCard(Array.from(bytes, byte => hex(byte, 1)).join(''), file.name, null);
    clearFrame();
    refill(byId('main'), h('p', { class: 'soft' }, 'Opening the card.'));
    go('access');
  };
  if (hasUnsavedSteps()) askFirst(file.name, open);
  else open();
}

// Asks before the steps of this visit are dropped.
function askFirst(name, open) {
  const choose = then => () => {
    closeQuestion();
    then();
  };
  const steps = counted(state.calls.length, 'step');
  closePops(null);
  refill(byId('ask-first'), h('div', { class: 'summary' }, icon('alert'), h('div', {},
    h('h2', { id: 'ask-first-h', tabindex: '-1' }, `Open ${name} without saving?`),
    h('p', {}, `What you did in this visit (${steps}) is not saved and would be lost. To keep it, save the card first.`),
    h('div', { class: 'rowbtns' },
      button('open-stay', 'Stay with this card', null, choose(() => focusOn(null)), 'primary'),
      button('open-anyway', 'Open it without saving', null, choose(open))))));
  byId('ask-first').hidden = false;
  byId('ask-first-h').focus();
}

function closeQuestion() {
  byId('ask-first').hidden = true;
  refill(byId('ask-first'));
}

async function openNames(file) {
  note('');
  const bytes = await bytesOf(file, LONGEST_NAMES, 'a names file');
  if (bytes === null || state.card === null) return;
  let names = null;
  try {
    names = JSON.parse(new TextDecoder().decode(bytes));
  } catch {
    note(`${file.name} is not a names file: it is not JSON.`);
    return;
  }
  Object.assign(state, { labels: checkedLabels(names), serial: state.serial + 1, people: null });
  latest = null;
  changed({ then: () => say('The names are in use.') });
}

function fileInput(id, text, look, open) {
  const input = h('input', { type: 'file', class: 'sr', id });
  input.addEventListener('change', () => {
    const [file] = input.files;
    if (file) open(file);
    input.value = '';
  });
  return h('label', { class: `btn filebtn ${look}`.trim() }, input, h('span', {}, text));
}

function download(ending, digits) {
  const bytes = new Uint8Array(digits.match(/../g).map(pair => parseInt(pair, 16)));
  const name = state.name.replace(/\.[^.]*$/, '').replace(/[^A-Za-z0-9._-]/g, '-') || 'consent';
  const url = URL.createObjectURL(new Blob([bytes], { type: 'application/octet-stream' }));
  const link = h('a', { download: `${name}.${ending}`, href: url });
  document.body.append(link);
  link.click();
  link.remove();
  setTimeout(() => URL.revokeObjectURL(url), 10000);
}

function saveCard() {
  if (!ready) {
    say('The gateway is still answering. Try again in a moment.');
    return;
  }
  download('card', shown.written);
  state.saved = [...state.calls];
}

// The replay: the card as it was opened, then each call.
function saveReplay() {
  const calls = state.calls.map(({ tag, value }) => hex(tag, 1) + hex(value.length / 2, 2) + value);
  download('replay', hex(state.card.length / 2, 2) + state.card + calls.join(''));
  state.saved = [...state.calls];
}

// ---------- The frame ----------

const screen = {
  state,
  get shown() { return shown; },
  isCurrent: () => ready,
  isNarrow: () => narrow.matches,
  isPhone: () => phone.matches,
  knownPeople: () => knownPeople(state, shown.ledger),
  cardInput: (id, text, look) => fileInput(id, text, look, openCard),
  changed, repaint, showKind, commit, revoke, revokeFirst, advance, issue, undo, applyWay, discard, retry, saveCard, saveReplay,
};

function fact(term, text, small) {
  return h('div', {}, h('dt', {}, term), h('dd', {}, text, ' ', small && h('small', {}, small)));
}

function clearFrame() {
  byId('tabs-nav').hidden = true;
  refill(byId('facts'), fact('Card', 'Not shown'));
}

function facts({ card, ledger }) {
  if (ledger === null) return [fact('Card', 'Not open')];
  return [
    fact('Patient', capital(person(ledger.patient)), `number ${ledger.patient}`),
    fact('Time now', fullTime(ledger.clock), hasDates() && `minute ${ledger.clock}`),
    fact('Card', `Edition ${card.edition}`, counted(ledger.records.length, 'record')),
  ];
}

function tabs({ view, ledger }) {
  const tab = (hash, text, current, count, look) => h('li', {},
    h('a', { href: `#${hash}`, id: `tab-${hash}`, 'aria-current': current ? 'page' : null },
      text, ' ', count > 0 && h('span', { class: `pill${look}` }, String(count))));
  return [
    tab('access', 'Who can read', view === 'access' || view === 'write', 0, ''),
    tab('directives', 'Directives', view === 'directives', ledger.directives.length, ''),
    tab('urgent', 'Emergency', view === 'urgent', ledger.tokens.length, ' hot'),
  ];
}

// The next minute at which a directive starts or ends or a token ends.
function nextChange({ clock, directives, tokens }) {
  const minutes = [...directives.flatMap(d => [d.from, d.until]), ...tokens.map(t => t.until)];
  const later = minutes.filter(minute => minute > clock && minute < LAST_MINUTE);
  return later.length ? Math.min(...later) : null;
}

function clockForm(clock) {
  let wanted = clock;
  const date = h('input', { type: 'datetime-local', id: 'clock-date', max: LAST_DATE, value: hasDates() ? fieldOfMinute(clock) : '' });
  const minute = numberField('clock-minute', clock, LAST_MINUTE, value => {
    wanted = value;
    if (hasDates()) date.value = fieldOfMinute(value);
  });
  date.addEventListener('input', () => {
    const value = minuteOfField(date.value);
    if (value === null) return;
    wanted = value;
    setNumber(minute, value);
  });
  const move = event => {
    event.preventDefault();
    advance(wanted);
  };
  return h('form', { class: 'clock-to', 'aria-label': 'Move the clock to', onsubmit: move },
    hasDates() && field('clock-date', 'To a date', date),
    field('clock-minute', 'To a minute', minute),
    h('button', { type: 'submit', class: 'btn', id: 'clock-go' }, 'Move there'));
}

function tools(ledger) {
  const next = nextChange(ledger);
  return [
    h('details', { class: 'pop', id: 'clock-tool' },
      h('summary', { class: 'btn plain', id: 'clock-open' }, icon('clock'), h('span', {}, 'Move the clock')),
      h('div', { class: 'pop-in' },
        button('clock-1', '1 minute on', null, () => advance(ledger.clock + 1)),
        button('clock-30', '30 minutes on', null, () => advance(ledger.clock + 30)),
        next !== null && button('clock-next', `To the next change, ${when(next)}`, null, () => advance(next)),
        clockForm(ledger.clock))),
    h('details', { class: 'pop', id: 'open-tool' },
      h('summary', { class: 'btn plain', id: 'open-open' }, icon('folder'), h('span', {}, 'Open')),
      h('div', { class: 'pop-in' },
        fileInput('card-file', 'Open another card', '', openCard),
        fileInput('names-file', 'Use a names file', '', openNames),
        h('p', { class: 'hint' }, 'A names file gives names to the numbers on the card. What has no name is shown as its number.'))),
    button('save-now', 'Save card', 'save', saveCard, 'plain'),
  ];
}

const TITLES = {
  access: 'Who can read', write: 'Draft', directives: 'Your directives', urgent: 'Emergency access', badcard: 'Card cannot be opened',
};

function paintFrame() {
  const { ledger, view } = shown;
  document.body.dataset.view = view;
  document.title = `${TITLES[view]} – Consent card`;
  refill(byId('facts'), facts(shown));
  byId('tabs-nav').hidden = ledger === null;
  byId('foot-card').textContent = state.name === '' ? '' : `Card file: ${state.name}`;
  if (ledger === null) return;
  refill(byId('tabs'), tabs(shown));
  refillFor([ledger.clock, nextChange(ledger), state.serial], byId('tools'), () => tools(ledger));
}

const PAINTERS = { access: paintAccess, write: paintAccess, directives: paintDirectives, urgent: paintEmergency, badcard: paintBadCard };

// Paints the answer at hand anew, for a choice that concerns the page alone.
function repaint() {
  if (shown === null) return;
  speakOf(shown.labels, shown.ledger);
  paintFrame();
  PAINTERS[shown.view](screen);
}

// ---------- Routes and start ----------

function focusHead() {
  window.scrollTo(0, 0);
  focusOn(null);
}

function takeRoute() {
  const wanted = location.hash.slice(1);
  state.view = VIEWS.includes(wanted) ? wanted : 'access';
  state.tried = false;
  if (state.view !== 'directives') state.notice = null;
}

function route() {
  if (state.card === null) return;
  closePops(null);
  takeRoute();
  changed({ then: focusHead });
}

function go(view) {
  setReady(false);
  sequence += 1;
  if (location.hash === `#${view}`) route();
  else location.hash = view;
}

function retry() {
  if (state.card === null) start();
  else changed({ then: focusHead });
}

async function start() {
  setReady(false);
  try {
    const opened = await requestJson('/opened');
    need(isObject(opened) && typeof opened.card === 'string' && /^([0-9a-f]{2})*$/i.test(opened.card), 'the card that was opened');
    takeCard(opened.card, typeof opened.name === 'string' ? opened.name : '', opened.labels);
    takeRoute();
    changed();
  } catch (error) {
    fail(error.message);
  }
}

function chooseTheme(theme) {
  if (theme === 'auto') delete document.documentElement.dataset.theme;
  else document.documentElement.dataset.theme = theme;
}

function closePops(except) {
  document.querySelectorAll('.pop[open]').forEach(pop => { pop.open = pop === except; });
}

function listen() {
  window.addEventListener('hashchange', route);
  window.addEventListener('beforeunload', event => { if (hasUnsavedSteps()) event.preventDefault(); });
  narrow.addEventListener('change', repaint);
  phone.addEventListener('change', () => { if (shown !== null) changed({ then: afterwards }); });
  document.querySelectorAll('input[name="theme"]').forEach(input => input.addEventListener('change', () => chooseTheme(input.value)));
  byId('print').addEventListener('click', () => window.print());
  byId('skip').addEventListener('click', event => {
    event.preventDefault();
    byId('main').focus();
  });
  document.addEventListener('click', event => closePops(event.target.closest('.pop')));
  document.addEventListener('keydown', event => {
    const pop = event.key === 'Escape' && document.querySelector('.pop[open]');
    if (!pop) return;
    closePops(null);
    pop.querySelector('summary').focus();
  });
}

listen();
start();
