// The other parts of the page: directives and what was done, emergency access, a card that cannot be opened, and no answer.

import { lowestFree } from './draft.js';
import { directiveItem, roleOf } from './table.js';
import {
  DENY, LAST_MINUTE, QUESTIONS, button, byId, capital, counted, directiveOf, emergencies, emergency, emergencyMark, endedWords,
  field, focusOn, h, has, icon, linkButton, listed, members, numberField, person, purpose, range, record, refill, refillFor,
  refusedCall, select, shortDirective, shortened, spoken, subjectName, when,
} from './words.js';

function pageHead(title, lede, action) {
  return h('div', { class: 'page-head' },
    h('div', {}, h('h1', { tabindex: '-1' }, title), h('p', { class: 'lede' }, lede)),
    action && h('div', { class: 'page-act' }, action));
}

// ---------- Directives ----------

function noticeWords({ op, draft, number }, { clock }) {
  if (op === 'revoke') return [`Directive ${number} is revoked`, 'It no longer has any effect.'];
  const start = draft.from > clock ? `It starts at ${when(draft.from)}.` : 'It is in force from now.';
  return [`Directive ${draft.number} is signed`, `${start} You can revoke it at any time.`];
}

// What the last commit or revoke came to.
function notice({ state, shown }) {
  if (state.notice === null || state.notice >= shown.calls.length) return null;
  const { status, values } = shown.callAnswers[state.notice];
  const refused = status !== 0;
  const [title, text] = refused
    ? ['The gateway refused this', refusedCall(status, values)]
    : noticeWords(shown.calls[state.notice], shown.ledger);
  return h('div', { class: `notice ${refused ? 'bad' : 'good'}`, id: 'notice', role: refused ? 'alert' : 'status' },
    icon(refused ? 'alert' : 'open'),
    h('div', {}, h('p', { class: 'sum-head' }, title), h('p', {}, text)));
}

function commitWords({ draft }, status, values) {
  if (status !== 0) return [`Not signed: directive ${draft.number}`, refusedCall(status, values)];
  return [`Signed directive ${draft.number}`, shortDirective(draft)];
}

function revokeWords({ number }, status, values) {
  return status !== 0 ? [`Not revoked: directive ${number}`, refusedCall(status, values)] : [`Revoked directive ${number}`, ''];
}

function advanceWords({ minute }, status, values) {
  if (status !== 0) return ['Clock not moved', refusedCall(status, values)];
  return [`Moved the clock to ${when(minute)}`, endedWords(values)];
}

function issueWords(call, status, values) {
  if (status !== 0) return ['Emergency access not given', refusedCall(status, values)];
  return [`Gave ${person(call.person)} emergency access`, `${emergencies(call.states)}, for ${counted(call.length, 'minute')}.`];
}

const CALL_WORDS = { commit: commitWords, revoke: revokeWords, advance: advanceWords, issue: issueWords };

function historyItem(title, minute, text, data, ...more) {
  return h('li', data,
    h('p', { class: 'ht' }, title, ' ', h('span', { class: 'mono' }, `minute ${minute}`)),
    text && h('p', { class: 'hs' }, text),
    more);
}

function history(screen) {
  const { shown } = screen;
  const { records, directives, clock } = shown.card;
  const opened = `${counted(records, 'record')}, ${directives ? counted(directives, 'directive') : 'no directives yet'}.`;
  const last = shown.calls.length - 1;
  return h('ol', { class: 'hist', id: 'history' },
    historyItem('Opened the card', clock, opened, {}),
    shown.calls.map((call, k) => {
      const { status, values, minute } = shown.callAnswers[k];
      const [title, text] = CALL_WORDS[call.op](call, status, values);
      return historyItem(title, minute, text, { class: status !== 0 ? 'no' : null, 'data-call': String(k), 'data-status': String(status) },
        k === last && button('undo', 'Undo this step', 'undo', () => screen.undo(), 'small'));
    }));
}

function visit(screen) {
  return h('aside', { class: 'panel', 'aria-label': 'This visit' },
    h('h2', { class: 'panel-h' }, 'This visit'),
    history(screen),
    h('p', { class: 'soft' }, 'Undo goes back one step at a time. The card itself changes only when you save it.'),
    h('div', { class: 'saves' },
      button('save-card', 'Save card', 'save', () => screen.saveCard(), 'primary'),
      button('save-replay', 'Save replay', 'save', () => screen.saveReplay())),
    h('p', { class: 'soft' }, 'The replay keeps the card as it was opened and every step since, so that others can check them.'));
}

export function paintDirectives(screen) {
  const { directives } = screen.shown.ledger;
  const write = linkButton('write', screen.state.draft ? 'Go on with your draft' : 'Write a directive', 'pen', '#write', 'primary');
  refill(byId('main'),
    pageHead('Your directives',
      'A directive is a rule you have signed. It says who may, or may not, read which of your records, and until when.', write),
    h('div', { class: 'split even' },
      h('div', { class: 'split-main' },
        notice(screen),
        h('h2', { class: 'sect' }, 'Signed and active', ' ', h('span', { class: 'soft count' }, `${directives.length} of 32 places used`)),
        directives.length
          ? h('ul', { class: 'dirs big', id: 'directives' }, directives.map(d => directiveItem(screen, d, number => screen.revoke(number))))
          : h('p', { class: 'boxed' },
            `No directives. The default decides: a record is open for ${purpose(0)} to the places that hold it.`),
        h('p', { class: 'soft' }, 'Whatever you sign, you can read all your records, and people can read what they wrote themselves.')),
      visit(screen)));
}

// ---------- Emergency ----------

// The form's first values.
export function newToken(ledger, people) {
  const busy = ledger.tokens.map(t => t.person);
  const others = people.filter(p => p !== ledger.patient);
  const first = others.find(p => !busy.includes(p)) ?? others[0] ?? 0;
  return { number: lowestFree(ledger.tokens.map(t => t.number)), person: first, states: 0, length: 30 };
}

const ISSUE_REFUSALS = {
  18: () => 'Choose what is happening.',
  19: () => 'Choose between 1 and 240 minutes. It has to end before the last minute there is.',
  20: ({ number }) => `Number ${number} is in use. Choose another number.`,
  21: () => 'Four emergency accesses are in use. Wait until one ends.',
};

function showIssueError(text, question) {
  const error = byId('tok-err');
  if (error.textContent !== text) error.textContent = text;
  if (question) error.dataset.question = String(question);
  else delete error.dataset.question;
}

function paintIssueError({ state, shown }) {
  const answered = state.issued !== null && state.issued < shown.callAnswers.length;
  const { status } = answered ? shown.callAnswers[state.issued] : { status: 0 };
  const words = ISSUE_REFUSALS[status] || (() => 'The gateway refused it.');
  if (status === 0) showIssueError('');
  else showIssueError(`${words(shown.calls[state.issued])} (Question ${status})`, status);
}

function issue(screen) {
  const { token } = screen.state;
  if ([token.person, token.length, token.number].includes(null)) {
    showIssueError('Type a whole number in each of the fields.');
    return;
  }
  screen.issue({ ...token });
}

const OTHER = 'other';
const MOST_NAMES = 12;

function tokenPerson(screen, edit) {
  const { state, shown } = screen;
  const people = screen.knownPeople().filter(p => p !== shown.ledger.patient);
  const known = people.includes(state.token.person);
  const number = numberField('t-person', state.token.person, 65535, n => edit({ person: n }), { lose: () => edit({ person: null }) });
  const row = field('t-person', 'Number of the person', number, 'From 0 to 65535');
  row.hidden = known;
  const options = [...people.map(p => [p, capital(person(p))]), [OTHER, 'Someone else, by number']];
  const who = select('t-who', known ? state.token.person : OTHER, options, () => {
    row.hidden = who.value !== OTHER;
    edit({ person: Number(who.value === OTHER ? number.value : who.value) });
  });
  return [field('t-who', 'Who needs it?', who), row];
}

function tokenStates(screen, edit) {
  const { token } = screen.state;
  const toggle = (i, box) => {
    edit({ states: box.checked ? token.states | (1 << i) : token.states & ~(1 << i) });
    screen.changed({ soon: true });
  };
  return h('fieldset', { class: 'checks' },
    h('legend', {}, 'What is happening?'),
    h('div', { class: 'check-grid' }, range(8).map(i => h('label', { class: 'check' },
      h('input', { type: 'checkbox', id: `t-state-${i}`, checked: has(token.states, i), onchange: event => toggle(i, event.target) }),
      h('span', {}, emergency(i))))));
}

function tokenForm(screen) {
  const { state } = screen;
  const edit = patch => {
    Object.assign(state.token, patch);
    state.issued = null;
    showIssueError('');
    paintWould(screen);
  };
  const length = numberField('t-len', state.token.length, LAST_MINUTE, n => edit({ length: n }), { lose: () => edit({ length: null }) });
  const number = numberField('t-number', state.token.number, 65535, n => edit({ number: n }), { lose: () => edit({ number: null }) });
  const submit = event => {
    event.preventDefault();
    issue(screen);
  };
  return h('form', { class: 'draft', id: 'token-form', novalidate: '', 'aria-label': 'Give emergency access', onsubmit: submit },
    tokenPerson(screen, edit),
    tokenStates(screen, edit),
    h('div', { class: 'token-numbers' },
      field('t-len', 'For how long?', h('div', { class: 'withunit' }, length, h('span', {}, 'minutes')), 'Between 1 and 240'),
      field('t-number', 'Number', number)),
    h('div', { id: 'would' }),
    h('p', { class: 'err', id: 'tok-err', role: 'alert' }),
    h('button', { type: 'submit', class: 'btn urgent', id: 't-issue' }, icon('star'), h('span', {}, 'Give emergency access')));
}

function fewNames(records) {
  return shortened(records.map(i => capital(record(i))), MOST_NAMES);
}

// What the gateway would show for the states that are ticked, as far as it has been asked.
function paintWould({ state, shown }) {
  const { states, length } = state.token;
  const brief = shown.briefs.find(b => b.states === states);
  const inRange = length !== null && length >= 1 && length <= 240;
  const list = brief && (brief.records.length
    ? h('ul', { class: 'plainlist' }, fewNames(brief.records).map(name => h('li', {}, icon('doc'), name)))
    : h('p', {}, 'None of your records help with this.'));
  refill(byId('would'),
    h('h3', {}, 'What would be shown'),
    states === 0 ? h('p', { class: 'soft' }, 'Choose what is happening.') : list || h('p', { class: 'soft' }, 'Asking the gateway.'),
    brief && inRange && h('p', { class: 'soft' }, `Until ${when(shown.ledger.clock + length)}. It cannot be stopped early.`));
}

// How long the token lasts in all: only a call of this visit can have given it.
function lengthOf(token, { calls, callAnswers }) {
  const given = calls.filter((call, k) => call.op === 'issue' && call.number === token.number && callAnswers[k].status === 0);
  return given[given.length - 1].length;
}

function disclosed(i, decision, ledger) {
  const marks = members(ledger.records[i].labels, 16).map(mark => `“${emergencyMark(mark)}”`);
  const past = decision && decision.effect === DENY && decision.basis === 3 ? decision.number : null;
  return h('li', { 'data-record': String(i) }, icon('doc'), h('div', {},
    h('p', { class: 'rname' }, capital(record(i))),
    h('p', { class: 'hs' }, `It is marked ${listed(marks)}.`),
    past !== null && h('p', { class: 'over-note' },
      `Directive ${past} closes this record to ${subjectName(directiveOf(past))}. In an emergency it is shown all the same.`)));
}

function restWords(rest) {
  if (rest === 0) return '';
  return rest === 1
    ? 'The other record is not shown by this. The usual rules decide about it.'
    : `The other ${rest} records are not shown by this. The usual rules decide about them.`;
}

function countdown(t, left, whole) {
  return h('div', { class: 'count' },
    h('p', { class: 'left' }, h('span', { class: 'n' }, String(left)), ' ', h('span', {}, left === 1 ? 'minute left' : 'minutes left')),
    h('progress', { max: String(whole), value: String(left), 'aria-label': `${left} of ${counted(whole, 'minute')} left` }),
    h('p', { class: 'soft' }, `Ends at ${when(t.until)}`));
}

function tokenBlock({ shown }, t, k) {
  const { ledger, decisions } = shown;
  const left = t.until - ledger.clock;
  const usual = decisions[k].status === 0 ? decisions[k].decisions : [];
  return h('article', { class: 'token', 'aria-labelledby': `token-${t.number}`, 'data-token': String(t.number), 'data-left': String(left) },
    h('div', { class: 'tk-top' },
      h('div', {},
        h('p', { class: 'over' }, icon('star'), 'Emergency access is on'),
        h('h2', { id: `token-${t.number}`, tabindex: '-1' }, capital(person(t.person))),
        h('p', {}, emergencies(t.states))),
      countdown(t, left, lengthOf(t, shown))),
    h('h3', {}, `Can read ${counted(t.records.length, 'record')} of ${ledger.records.length}`),
    h('ul', { class: 'disc' }, t.records.map(i => disclosed(i, usual[i], ledger))),
    h('p', { class: 'soft' }, restWords(ledger.records.length - t.records.length)),
    h('p', { class: 'mono' }, `token ${t.number} · person ${t.person} · live until minute ${t.until}`));
}

function couldTable({ briefs }) {
  const row = i => {
    const { records } = briefs.find(b => b.states === 1 << i);
    return h('tr', { 'data-state': String(i) }, h('th', { scope: 'row' }, emergency(i)),
      h('td', { class: records.length ? 'some' : null }, records.length ? listed(fewNames(records)) : 'None'));
  };
  return h('div', { class: 'table-wrap could' }, h('table', { id: 'could' },
    h('caption', {}, 'What could be shown in an emergency'),
    h('thead', {}, h('tr', {}, h('th', { scope: 'col' }, 'If this happens'), h('th', { scope: 'col' }, 'These records would be shown'))),
    h('tbody', {}, range(8).map(row))));
}

// Says so where the last step moved the clock and emergency access ended by it.
function endedNotice({ calls, callAnswers }) {
  const last = calls.length - 1;
  if (last < 0 || calls[last].op !== 'advance' || callAnswers[last].status !== 0) return null;
  const [, ended] = callAnswers[last].values;
  if (ended === 0) return null;
  return h('div', { class: 'notice good', id: 'ended', role: 'status' }, icon('clock'),
    h('div', {},
      h('p', { class: 'sum-head' }, 'Emergency access has ended'),
      h('p', {}, `${counted(ended, 'emergency access', 'emergency accesses')} ended when the clock moved.`)));
}

function liveTokens(screen) {
  const { ledger } = screen.shown;
  if (!ledger.tokens.length) return h('p', { class: 'boxed' }, 'Nobody has emergency access now.');
  return [
    ledger.tokens.map((t, k) => tokenBlock(screen, t, k)),
    h('div', { class: 'rowbtns' },
      button('one-minute', 'Move the clock on 1 minute', 'clock', () => screen.advance(ledger.clock + 1)),
      h('p', { class: 'soft' }, 'It ends by itself and cannot be stopped early. It is not saved on your card.')),
  ];
}

// A column for each token's person, to say which directive it goes past.
export function tokenColumns(state, ledger) {
  return ledger.tokens.map(t => ({ id: `t${t.number}`, person: t.person, role: roleOf(state, ledger, t.person) }));
}

// The state sets whose brief the page shows: each state, and those ticked together.
export function wantedStates(token) {
  const single = range(8).map(i => 1 << i);
  return token && token.states !== 0 && !single.includes(token.states) ? [...single, token.states] : single;
}

export function paintEmergency(screen) {
  const { state, shown } = screen;
  const any = shown.ledger.tokens.length > 0;
  refillFor(['urgent', state.serial], byId('main'), () => [
    pageHead('Emergency access', 'If your life is at risk, one person can see the few records that help, for a short time. '
      + 'Your directives do not apply to these records for that person while it lasts.'),
    h('div', { class: 'split' },
      h('div', { class: 'split-main', id: 'live' }),
      h('aside', { class: 'panel', 'aria-labelledby': 'give-h' },
        h('h2', { class: 'panel-h', id: 'give-h' }),
        h('div', { id: 'token-slot' }))),
  ]);
  refill(byId('live'), endedNotice(shown), liveTokens(screen), couldTable(shown));
  byId('give-h').textContent = any ? 'Give access to someone else' : 'Give emergency access';
  refillFor([state.tokenSerial, state.serial, screen.knownPeople()], byId('token-slot'), () => tokenForm(screen));
  paintWould(screen);
  paintIssueError(screen);
}

// ---------- A card that cannot be opened ----------

const CAUSES = {
  1: 'It ends in the middle of a field: it was cut short or is damaged.',
  2: 'A part of it is not in its place, or has a wrong length.',
  3: 'It has more records than a card can hold.',
  4: 'One of its parts is damaged or was written wrongly.',
  5: 'A part that every card needs is missing.',
};

function causeWords({ status }) {
  return CAUSES[status] || 'One of its directives cannot stand on a card.';
}

function faultWords({ status, values, fault }) {
  if (fault) return fault.words ?? `${fieldWords(fault)} does not pass question ${status}.`;
  if (status === 5) return 'The head, the roles or the first record is not there. The card is empty or was cut short.';
  if (status === 13) return `A directive clashes with directive ${values[0]}. One says yes and one says no to the same request.`;
  return causeWords({ status });
}

const TAGS = { 1: 'the head', 2: 'the roles', 3: 'a record', 4: 'a directive' };

function fieldWords({ field: index, tag }) {
  if (tag === null) return `Field ${index + 1}`;
  const code = `tag 0x${tag.toString(16).padStart(2, '0')}`;
  return TAGS[tag] ? `Field ${index + 1}, ${TAGS[tag]} (${code})` : `Field ${index + 1} (${code})`;
}

function placeWords({ offset, end, byte }, status) {
  const length = counted(end - offset, 'byte');
  const start = `Starts at byte ${offset}`;
  const are = end - offset === 1 ? 'is' : 'are';
  const size = status === 1 ? `${start}, and only ${length} of it ${are} there.` : `${start} and is ${length} long.`;
  return byte === null ? size : `${size} The wrong value is at byte ${byte}.`;
}

function cardWords({ length, edition, patient }) {
  const parts = [counted(length, 'byte'), edition !== null && `edition ${edition}`, patient !== null && `patient ${patient}`];
  return parts.filter(Boolean).join(', ');
}

function faultFacts(card) {
  const { status, fault } = card;
  const facts = [
    ['Question', `${status}. ${QUESTIONS[status] || ''}`],
    fault && ['Field', fieldWords(fault)],
    fault && ['Where', placeWords(fault, status)],
    ['Card', cardWords(card)],
  ];
  return h('dl', { class: 'about wide' }, facts.filter(Boolean).map(([term, text]) => h('div', {}, h('dt', {}, term), h('dd', {}, text))));
}

const MOST_ROWS = 12;

// The offsets of the rows to show: the field's, with one before and one after, or those around the wrong byte where the field is long.
function rowsAround({ offset, end, byte }, length, width) {
  const row = at => Math.floor(at / width);
  const first = Math.max(row(offset) - 1, 0);
  const last = Math.min(row(Math.max(end - 1, offset)) + 1, row(Math.max(length - 1, 0)));
  const start = last - first < MOST_ROWS || byte === null ? first : Math.max(first, row(byte) - 5);
  return range(Math.min(last - start + 1, MOST_ROWS)).map(k => (start + k) * width);
}

function byteCell(card, { offset, end, byte }, at) {
  const text = card.slice(2 * at, 2 * at + 2);
  const content = at === byte ? h('mark', {}, spoken('wrong value '), text) : text;
  const inside = at >= offset && at < end;
  const looks = [inside && 'in', inside && at === offset && 'a', inside && at === end - 1 && 'z', at === byte && 'bad'];
  return h('td', { class: looks.filter(Boolean).join(' ') || null }, content);
}

function byteTable(card, fault, length, width) {
  const rows = rowsAround(fault, length, width);
  const shownEnd = rows.length ? rows[rows.length - 1] + width : 0;
  return h('div', { class: 'hexwrap' },
    h('table', { class: 'hex', id: 'bytes' },
      h('caption', {}, `Bytes counted from 0. The field is outlined${fault.byte === null ? '' : ', the wrong value marked'}.`),
      h('tbody', {}, rows.map(start => h('tr', {}, h('th', { scope: 'row' }, String(start)),
        range(width).map(k => byteCell(card, fault, start + k)))))),
    fault.end > shownEnd && h('p', { class: 'soft' }, `The field goes on for ${counted(fault.end - shownEnd, 'byte')} more.`));
}

// The questions in the order in which a card gets them: 1 to 4 of each field, 7 to 13 of a directive too, and 5 at the end.
function questionsAsked({ status }) {
  const order = status >= 7 ? [1, 2, 3, 4, 7, 8, 9, 10, 11, 12, 13, 5] : [1, 2, 3, 4, 5];
  const place = order.indexOf(status);
  return h('ol', { class: 'qs' }, order.map((question, k) => {
    const answer = k < place ? ['yes', 'open', 'Yes, so far'] : k === place ? ['no', 'cross', 'No'] : [null, null, 'Not asked'];
    const [look, mark, text] = answer;
    return h('li', { class: look, 'data-question': String(question) },
      h('span', { class: 'qnum' }, String(question)), ' ',
      h('span', {}, QUESTIONS[question]), ' ',
      h('span', { class: 'qa' }, mark && icon(mark), text));
  }));
}

export function paintBadCard(screen) {
  const { card } = screen.shown;
  const bytes = screen.state.card;
  refill(byId('main'), h('div', { class: 'narrow' },
    h('div', { class: 'badhead' }, icon('alert'), h('div', {},
      h('h1', { tabindex: '-1' }, 'This card cannot be opened'),
      h('p', { class: 'lede' }, `${causeWords(card)} Nothing has been changed, and nobody can read anything with it.`))),
    h('div', { class: 'rowbtns' },
      screen.cardInput('bad-open', 'Open another card', 'primary'),
      button('bad-print', 'Print this page', null, () => window.print())),
    h('p', {}, 'Ask the place that gave you the card for a new one. Show them what follows.'),
    h('section', { class: 'boxed fault', id: 'fault', 'aria-labelledby': 'fault-h', 'data-question': String(card.status) },
      h('h2', { id: 'fault-h' }, 'What is wrong'),
      h('p', { id: 'fault-words' }, faultWords(card)),
      faultFacts(card),
      card.fault && byteTable(bytes, card.fault, card.length, screen.isPhone() ? 8 : 16)),
    h('section', { 'aria-labelledby': 'asked-h' }, h('h2', { id: 'asked-h', class: 'sect' }, 'What was checked'), questionsAsked(card))));
}

// ---------- No answer ----------

export function paintError(screen, words) {
  refill(byId('main'), h('div', { class: 'narrow' },
    h('div', { class: 'badhead', id: 'gateway-error', role: 'alert' }, icon('alert'), h('div', {},
      h('h1', { tabindex: '-1' }, 'The gateway did not answer'),
      h('p', { class: 'lede' }, 'What was shown before has been taken away, as it may no longer hold. '
        + 'Nothing is lost: your steps are kept on this page.'))),
    h('p', { class: 'boxed', id: 'error-words' }, words),
    h('div', { class: 'rowbtns' },
      button('retry', 'Try again', null, () => screen.retry(), 'primary'),
      screen.state.view === 'write' && screen.state.draft && button('discard', 'Discard the draft', null, () => screen.discard()),
      screen.state.calls.length > 0 && button('undo', 'Undo the last step', 'undo', () => screen.undo()),
      screen.cardInput('error-open', 'Open another card', ''))));
  focusOn(null);
}
