// Who can read what: the table, the reason for an answer, and the page around them.

import { draftForm, draftSummary, paintSign, subjectColumn } from './draft.js';
import {
  DENY, PERMIT, PERSON, ROLE, answerMark, answerWord, button, byId, capital, cardLine, childrenOf, countInside, counted,
  defaultCause, directiveOf, directiveWords, effectMark, field, h, has, icon, linkButton, listed, members, namedMembers, namedPersons,
  numberField, origin, person, purpose, quoted, range, reasonWords, record, recordsAbove, refill, refillFor, role, say, select,
  sensitivity, shortReason, spoken, treeOrder, type, usualRole, when, whoseRecords,
} from './words.js';

const LONG_TABLE = 8;
const MOST_PEOPLE = 24;
const MOST_NAMED = 200;

// ---------- Who is asked about ----------

// The persons that the ledger or the draft mentions.
function mentioned(ledger, draft) {
  const named = [...ledger.directives, ...(draft ? [draft] : [])].filter(d => d.kind === PERSON).map(d => d.subject);
  return new Set([ledger.patient, ...ledger.records.map(r => r.author), ...named, ...ledger.tokens.map(t => t.person)]);
}

// A person of whom the card knows nothing, who stands for everyone with a role.
function stranger(ledger, draft) {
  const known = mentioned(ledger, draft);
  return range(65536).map(n => (60000 + n) % 65536).find(n => !known.has(n));
}

export function knownPeople(state, ledger) {
  const people = new Set([...namedPersons().slice(0, MOST_NAMED), ...mentioned(ledger, null), ...state.added]);
  return [...people].sort((a, b) => a - b);
}

// The people shown at first: whom directives name, then named people who wrote nothing, then authors.
export function defaultPeople(ledger) {
  const subjects = ledger.directives.filter(d => d.kind === PERSON).map(d => d.subject);
  const authors = ledger.records.map(r => r.author).reverse();
  const others = namedPersons().filter(p => !authors.includes(p));
  return [...new Set([...subjects, ...others, ...authors])].filter(p => p !== ledger.patient).slice(0, 3);
}

// The place that holds most records.
export function defaultOrigin(ledger) {
  const held = range(16).map(i => ledger.records.filter(r => has(r.origins, i)).length);
  return held.lastIndexOf(Math.max(...held));
}

export function roleOf(state, ledger, p) {
  const chosen = state.roles.get(p);
  return chosen !== undefined && chosen < ledger.roles.length ? chosen : usualRole(p);
}

function roleColumn(r, who) {
  const many = r === 0 ? 'anyone else' : role(r, 'many');
  return { id: `r${r}`, group: 'roles', person: who, role: r, head: role(r, 'head'), sub: null, one: role(r, 'one'), many };
}

function personColumn(state, ledger, p) {
  const r = roleOf(state, ledger, p);
  const column = { id: `p${p}`, group: 'people', person: p, role: r };
  if (p === ledger.patient) return { ...column, head: 'You', sub: 'the patient', one: 'you', many: 'you' };
  const sub = r === 0 ? 'no role' : `as ${role(r, 'one')}`;
  return { ...column, head: capital(person(p)), sub, one: person(p), many: person(p) };
}

// The columns of the table. The draft's subject always has one.
export function accessColumns(state, ledger, draft, show) {
  const isSubject = (kind, n) => draft !== null && draft.kind === kind && draft.subject === n;
  const roles = range(ledger.roles.length).filter(r => show !== 'people' || isSubject(ROLE, r));
  const chosen = show === 'roles' ? [] : state.people;
  const named = draft !== null && draft.kind === PERSON ? [draft.subject] : [];
  const people = [...new Set([...chosen, ...named])].sort((a, b) => a - b);
  const who = stranger(ledger, draft);
  return [...roles.map(r => roleColumn(r, who)), ...people.map(p => personColumn(state, ledger, p))];
}

// ---------- The page ----------

function askBar(screen) {
  const { state } = screen;
  const named = namedMembers('origins');
  const item = i => [i, capital(origin(i))];
  const places = named.length
    ? [...named.sort((a, b) => a - b).map(item), { group: 'Other places', items: range(16).filter(i => !named.includes(i)).map(item) }]
    : range(16).map(item);
  const change = patch => {
    Object.assign(state, patch);
    screen.changed();
  };
  const where = select('ask-o', state.origin, places, () => change({ origin: Number(where.value) }));
  const why = select('ask-p', state.purpose, range(11).map(i => [i, capital(purpose(i))]), () => change({ purpose: Number(why.value) }));
  const shows = [['roles', 'Roles'], ['people', 'People'], ['all', 'Both']].map(([value, text]) => h('label', {},
    h('input', {
      type: 'radio', name: 'show', id: `show-${value}`, value, checked: state.show === value, onchange: () => change({ show: value }),
    }),
    h('span', {}, text)));
  return h('form', { class: 'askbar', 'aria-label': 'Who is asking', onsubmit: event => event.preventDefault() },
    field('ask-o', 'Asking from', where),
    field('ask-p', 'Reason for asking', why),
    h('fieldset', { class: 'seg field' }, h('legend', {}, 'Show'), h('div', { class: 'seg-in' }, shows)),
    h('div', { class: 'field only-phone', id: 'pick-slot' }),
    h('details', { class: 'pop people', id: 'people' },
      h('summary', { class: 'btn plain', id: 'people-open' }, 'Choose people'),
      h('div', { class: 'pop-in', id: 'people-slot' })));
}

function personRow(screen, p) {
  const { state, shown } = screen;
  const { ledger } = shown;
  const name = p === ledger.patient ? `${capital(person(p))} (you)` : capital(person(p));
  const choose = box => {
    if (box.checked) box.checked = showPerson(screen, p);
    else state.people = state.people.filter(x => x !== p);
    screen.changed();
  };
  const options = ledger.roles.map((_, r) => [r, r === 0 ? 'No role' : role(r, 'head')]);
  const roles = select(`role-p${p}`, roleOf(state, ledger, p), options, () => {
    state.roles.set(p, Number(roles.value));
    screen.changed();
  });
  roles.setAttribute('aria-label', `Role of ${person(p)}`);
  return h('div', { class: 'prow' },
    h('label', { class: 'check' },
      h('input', { type: 'checkbox', id: `show-p${p}`, checked: state.people.includes(p), onchange: event => choose(event.target) }),
      h('span', {}, name)),
    roles);
}

// Puts a person among those shown, unless there are too many.
function showPerson({ state }, p) {
  if (state.people.includes(p)) return true;
  if (state.people.length >= MOST_PEOPLE) {
    byId('add-note').textContent = `At most ${MOST_PEOPLE} people are shown at a time. Untick one first.`;
    return false;
  }
  state.people.push(p);
  if (state.show === 'roles') state.show = 'all';
  return true;
}

function addPerson(screen, p) {
  const { state } = screen;
  if (!showPerson(screen, p)) return;
  if (!state.added.includes(p)) state.added.push(p);
  screen.changed();
}

function peopleList(screen) {
  const { state, shown } = screen;
  const add = () => { if (number.value !== '') addPerson(screen, Number(number.value)); };
  const number = numberField('add-person', '', 65535, () => {}, {
    'aria-describedby': 'add-note', onkeydown: event => { if (event.key === 'Enter') add(); },
  });
  return [
    h('p', { class: 'hint' }, 'Anyone can ask in any role. Choose the role to show.'),
    h('div', { class: 'prows' }, knownPeople(state, shown.ledger).map(p => personRow(screen, p))),
    h('div', { class: 'padd' },
      field('add-person', 'Someone else, by number', number),
      button('add-go', 'Add', null, add)),
    h('p', { class: 'hint', id: 'add-note' }, 'From 0 to 65535'),
  ];
}

function pageHead(screen) {
  const drafting = screen.shown.draft !== null;
  return h('div', { class: 'page-head' },
    h('div', {},
      h('h1', { tabindex: '-1' }, drafting ? 'See it before you sign' : `Who can read ${whoseRecords()} records`),
      h('p', { class: 'lede' }, drafting
        ? 'Change the draft and watch the table. Nothing is signed yet.'
        : 'Choose any answer to see the reason. You can always read everything yourself.')),
    !drafting && h('div', { class: 'page-act' },
      linkButton('write', screen.state.draft ? 'Go on with your draft' : 'Write a directive', 'pen', '#write', 'primary')),
    askBar(screen));
}

// The order in the page is the order on the screen: with one column the form comes first and the pen last.
function accessFrame(screen) {
  const drafting = screen.shown.draft !== null;
  const narrow = screen.isNarrow();
  const summary = drafting && h('div', { id: 'summary' });
  const table = h('div', { class: 'split-main' }, !narrow && summary, h('div', { id: 'table-slot' }), h('div', { id: 'below' }));
  const panel = h('aside', { class: 'panel', id: 'panel', 'aria-label': drafting ? 'Your draft' : 'The reason' },
    drafting && h('div', { id: 'form-slot' }),
    drafting && !narrow && h('div', { class: 'signbar', id: 'signbar' }));
  const signBar = drafting && narrow && h('section', { class: 'signbar alone', id: 'signbar', 'aria-label': 'Sign' });
  return h('div', { class: drafting ? 'drafting' : null },
    pageHead(screen),
    h('div', { id: 'tokens-line' }),
    h('div', { class: 'split', id: 'split' }, signBar ? [panel, summary, table, signBar] : [table, panel]));
}

function tokenLine({ ledger }) {
  if (!ledger.tokens.length) return null;
  const words = ledger.tokens.map(t => `${capital(person(t.person))} has emergency access until ${when(t.until)}`);
  return h('p', { class: 'tokline' }, icon('star'),
    h('span', {}, `${listed(words)}. The table does not include it. `, h('a', { href: '#urgent' }, 'See what is shown')));
}

function pickField(screen) {
  const { state, shown } = screen;
  const pick = select('pick', state.pick, shown.columns.map(c => [c.id, c.sub ? `${c.head}, ${c.sub}` : c.head]), () => {
    state.pick = pick.value;
    screen.repaint();
  });
  return [h('label', { for: 'pick' }, 'Who is asking'), pick];
}

// Keeps the chosen answer, and on a phone the chosen requester, among what is shown.
function settleChoice({ state, shown }) {
  const { columns, decisions, draft } = shown;
  const there = id => columns.some(c => c.id === id);
  if (state.sel && !columns.some((c, k) => c.id === state.sel.column && decisions[k].status === 0)) state.sel = null;
  if (there(state.pick)) return;
  const wanted = [state.sel && state.sel.column, draft && subjectColumn(draft), 'r1'];
  state.pick = wanted.find(there) || (columns.length ? columns[0].id : null);
}

export function paintAccess(screen) {
  const { state, shown } = screen;
  const drafting = shown.draft !== null;
  settleChoice(screen);
  refillFor(['access', drafting, screen.isNarrow(), state.serial, state.draft !== null], byId('main'), () => accessFrame(screen));
  byId(`show-${state.show}`).checked = true;
  refillFor([knownPeople(state, shown.ledger), state.serial], byId('people-slot'), () => peopleList(screen));
  refillFor([state.pick, shown.columns], byId('pick-slot'), () => pickField(screen));
  refill(byId('tokens-line'), tokenLine(shown));
  refill(byId('table-slot'), accessTable(screen));
  if (drafting) paintDrafting(screen);
  else paintReading(screen);
}

function paintDrafting(screen) {
  const { state, shown } = screen;
  refillFor([state.draftSerial, state.serial, knownPeople(state, shown.ledger)], byId('form-slot'), () => draftForm(screen));
  byId('split').classList.toggle('is-refused', shown.verdict.status !== 0 && state.tried);
  refill(byId('summary'), draftSummary(screen));
  refill(byId('below'), state.sel && beforeAndAfter(screen), legend(shown));
  paintSign(screen);
}

function paintReading(screen) {
  const noChoice = h('div', { class: 'empty' }, h('h2', {}, 'Why?'), h('p', {}, 'Choose an answer in the table. The reason appears here.'));
  refill(byId('panel'), screen.state.sel ? reasonBlock(screen) : noChoice);
  refill(byId('below'), legend(screen.shown), signedDirectives(screen));
}

// ---------- The table ----------

function accepted(shown) {
  return shown.draft !== null && shown.verdict.status === 0;
}

// What the table shows for column k and record i: the decision now, the one after the draft, and whether it changes.
function cellOf(shown, k, i) {
  const column = shown.decisions[k];
  if (column.status !== 0) return null;
  const before = column.decisions[i];
  const preview = accepted(shown) ? shown.verdict.columns[k] : null;
  if (preview === null || preview.status !== 0) return { before, after: before, changes: false };
  return { before, after: preview.decisions[i], changes: preview.changes.includes(i) };
}

function changesOf(shown, k) {
  return accepted(shown) && shown.verdict.columns[k].status === 0 ? shown.verdict.columns[k].changes : [];
}

function effectName(effect) {
  return effect === PERMIT ? 'permit' : 'deny';
}

// Where the request that a refusal gives as an example stands in the table, if the table is about its place, reason and role.
function isClash({ draft, verdict, origin: place, purpose: reason }, column, i) {
  const request = draft !== null && verdict.status === 13 ? verdict.request : null;
  if (!request || request.record !== i || request.origin !== place || request.purpose !== reason) return false;
  const who = request.any_person ? column.group === 'roles' : column.person === request.person;
  return who && column.role === request.role;
}

function cellContent(shown, cell) {
  if (cell === null) return [h('span', { class: 'ans' }, 'No answer'), h('span', { class: 'why' }, 'question 17')];
  const reason = shortReason(cell.after, accepted(shown) ? shown.draft.number : null);
  return [
    cell.changes && h('span', { class: 'was' }, spoken('Changes from '), answerWord(cell.before.effect), icon('arrow'), spoken(' to ')),
    answerMark(cell.after.effect),
    h('span', { class: 'why' }, reason),
  ];
}

function cellData(cell) {
  if (cell === null) return {};
  const { effect, basis, number } = cell.before;
  return {
    'data-effect': effectName(effect), 'data-basis': String(basis), 'data-number': basis === 3 ? String(number) : null,
    'data-after': cell.changes ? effectName(cell.after.effect) : null,
  };
}

function chooseCell(screen, column, i) {
  screen.state.sel = { column: column.id, record: i };
  screen.state.pick = column.id;
  screen.repaint();
  const reason = document.querySelector('.why-text');
  if (reason) say(reason.textContent);
}

function cellButton(screen, k, i, stop) {
  const { state, shown } = screen;
  const column = shown.columns[k];
  const cell = cellOf(shown, k, i);
  const isAt = spot => spot !== null && spot.column === column.id && spot.record === i;
  const clashes = isClash(shown, column, i);
  return h('button', {
    type: 'button', class: `cell${cell && cell.changes ? ' changes' : ''}${clashes ? ' clash' : ''}`,
    'data-c': column.id, 'data-r': String(i), ...cellData(cell), 'aria-pressed': String(isAt(state.sel)), tabindex: isAt(stop) ? '0' : '-1',
    onclick: () => { if (cell !== null) chooseCell(screen, column, i); },
  },
  cellContent(shown, cell), clashes && h('span', { class: 'why clashword' }, 'clash'), cell !== null && spoken('. Show the reason.'));
}

function foldButton(screen, i, folded) {
  const { state } = screen;
  return h('button', {
    type: 'button', class: 'twist', id: `fold-${i}`, tabindex: '-1', 'aria-expanded': String(!folded),
    'aria-label': `${folded ? 'Show' : 'Hide'} what is inside ${record(i)}`,
    onclick: () => {
      if (folded) state.folded.delete(i);
      else state.folded.add(i);
      screen.repaint();
    },
  }, icon('down'));
}

function recordHead(screen, i) {
  const { ledger } = screen.shown;
  const r = ledger.records[i];
  const long = ledger.records.length > LONG_TABLE;
  const above = recordsAbove(i);
  const parent = childrenOf(i).length > 0;
  const folded = screen.state.folded.has(i);
  const inner = h('div', { class: 'rec' },
    parent && i !== 0 && long ? foldButton(screen, i, folded) : icon(parent ? 'folder' : 'doc', 'ic-rec'),
    h('div', {},
      h('span', { class: 'rn' },
        h('span', { class: 'rname' }, capital(record(i))),
        above.length > 0 && spoken(`, inside ${record(above[0])}`),
        members(r.sensitivities, 16).filter(s => s !== 0).map(s => h('span', { class: 'tag' }, spoken(', marked '), sensitivity(s)))),
      !long && h('span', { class: 'meta' }, `By ${person(r.author)}. `,
        h('span', { class: 'held' }, `Held at ${listed(members(r.origins, 16).map(origin))}.`)),
      folded && h('span', { class: 'meta inside' }, `${counted(countInside(i), 'record')} inside`)));
  inner.style.setProperty('--d', above.length);
  return h('th', { scope: 'row', class: 'c-rec' }, inner);
}

// Classes of a column: the one that a phone shows, and the first of the people, who are set off from the roles.
function columnLook({ state, shown }, column) {
  const first = shown.columns.find(c => c.group === 'people') === column;
  return [column.id === state.pick && 'picked', first && 'g-first'].filter(Boolean).join(' ');
}

function tableHead(screen) {
  const { columns } = screen.shown;
  const groups = [['roles', 'By role'], ['people', 'Named people']]
    .map(([group, text]) => ({ group, text, size: columns.filter(c => c.group === group).length })).filter(({ size }) => size > 0);
  return h('thead', {},
    h('tr', { class: 'groups' }, h('td', { class: 'c-rec' }), groups.map(({ group, text, size }) =>
      h('th', { scope: 'colgroup', colspan: String(size), class: group === 'people' && groups.length > 1 ? 'g-first' : null }, text))),
    h('tr', {}, h('th', { scope: 'col', class: 'c-rec' }, 'Record'), columns.map((column, k) => {
      const changes = changesOf(screen.shown, k).length;
      return h('th', { scope: 'col', class: `c-who ${columnLook(screen, column)}`, 'data-c': column.id, 'data-changes': String(changes) },
        h('span', { class: 'who' }, column.head),
        column.sub && h('span', { class: 'as' }, column.sub),
        changes > 0 && h('span', { class: 'delta' }, counted(changes, 'change')));
    })));
}

function onlyChanges(screen) {
  const { state } = screen;
  return h('label', { class: 'check only' },
    h('input', {
      type: 'checkbox', id: 'only', checked: state.only, onchange: event => { state.only = event.target.checked; screen.repaint(); },
    }),
    h('span', {}, 'Only records that change'));
}

// The records of the table: what is folded away is left out; at wish, so is what the draft does not change.
function rowsOf({ state, shown }, long) {
  if (!(long && accepted(shown) && state.only)) return treeOrder().filter(i => !recordsAbove(i).some(k => state.folded.has(k)));
  const kept = new Set(shown.columns.flatMap((_, k) => changesOf(shown, k)).flatMap(i => [i, ...recordsAbove(i)]));
  return treeOrder().filter(i => kept.has(i));
}

// The one cell that the Tab key reaches.
function tabStop({ state, shown, isPhone }, rows) {
  const column = isPhone() || !state.sel ? state.pick : state.sel.column;
  const record = state.sel && rows.includes(state.sel.record) ? state.sel.record : rows[0];
  return { column, record };
}

function accessTable(screen) {
  const { shown } = screen;
  if (!shown.columns.length) return h('p', { class: 'boxed' }, 'No one is chosen. Choose people above, or show roles.');
  const long = shown.ledger.records.length > LONG_TABLE;
  const rows = rowsOf(screen, long);
  const stop = tabStop(screen, rows);
  const table = h('table', { class: 'access', id: 'access', onkeydown: moveInTable },
    h('caption', {},
      spoken('Who can read each record. '),
      h('span', {},
        'Asking from ', h('b', {}, origin(shown.origin)), ' for ', h('b', {}, purpose(shown.purpose)), `, at ${when(shown.ledger.clock)}`),
      long && accepted(shown) && onlyChanges(screen)),
    tableHead(screen),
    h('tbody', {}, rows.map(i => h('tr', {},
      recordHead(screen, i),
      shown.columns.map((column, k) => h('td', { class: columnLook(screen, column) || null }, cellButton(screen, k, i, stop)))))));
  table.style.setProperty('--n', shown.columns.length);
  return h('div', { class: `table-wrap${long ? ' dense' : ''}` }, table);
}

const STEPS = { ArrowRight: [1, 0], ArrowLeft: [-1, 0], ArrowDown: [0, 1], ArrowUp: [0, -1] };

// The arrow keys move between the cells, and to the folding buttons at the left.
function moveInTable(event) {
  const step = STEPS[event.key];
  const from = event.target.closest('td, th[scope="row"]');
  if (!step || !from || !event.target.matches('.cell, .twist')) return;
  const rows = [...event.currentTarget.tBodies[0].rows];
  let y = rows.indexOf(from.parentElement) + step[1];
  let x = from.cellIndex + step[0];
  for (; rows[y] && rows[y].cells[x]; y += step[1], x += step[0]) {
    const next = rows[y].cells[x].querySelector('.cell, .twist');
    if (!next || !next.offsetParent) continue;
    event.preventDefault();
    if (next.matches('.cell')) {
      event.currentTarget.querySelectorAll('.cell[tabindex="0"]').forEach(cell => { cell.tabIndex = -1; });
      next.tabIndex = 0;
    }
    next.focus();
    return;
  }
}

function legend(shown) {
  return h('p', { class: 'key' },
    h('span', {}, answerMark(PERMIT), ' may read it now'),
    h('span', {}, answerMark(DENY), ' may not read it now'),
    accepted(shown) && h('span', {}, h('span', { class: 'keychange' }, 'Open →'), ' changes if you sign'));
}

// ---------- The reason ----------

// The chosen answer: its column and record, what was asked, and the cell.
function chosenAnswer({ state, shown }) {
  const k = shown.columns.findIndex(c => c.id === state.sel.column);
  const column = shown.columns[k];
  const i = state.sel.record;
  const asked = { person: column.person, role: column.role, origin: shown.origin, record: i, purpose: shown.purpose };
  return { column, i, asked, cell: cellOf(shown, k, i) };
}

function steps(decision, asked, ledger) {
  const { basis, effect } = decision;
  const byDefault = () => `${[answerWord(effect), defaultCause(decision, asked)].filter(Boolean).join(': ')}.`;
  const author = person(ledger.records[asked.record].author);
  const none = ledger.directives.length ? 'No' : 'No, there are none.';
  return [
    ['Is it you, the patient?', basis === 1 ? 'Yes. You can read everything.' : 'No'],
    ['Did they write this record?', basis === 2 ? 'Yes. People can read what they wrote.' : `No. ${capital(author)} did.`],
    ['Does one of your directives apply?', basis === 3 ? `Yes, directive ${decision.number}.` : none],
    ['Otherwise, the default', basis === 4 ? byDefault() : ''],
  ].map(([question, text], k) => {
    const skipped = k + 1 > basis;
    return h('li', { class: k + 1 === basis ? 'hit' : skipped ? 'skip-step' : null },
      h('span', { class: 'st' }, question), ' ', h('span', { class: 'sv' }, skipped ? 'Not needed' : text));
  });
}

function aboutRecord(r) {
  const facts = [
    ['Written by', capital(person(r.author))],
    ['Held at', listed(members(r.origins, 16).map(origin))],
    ['Marked', listed(members(r.sensitivities, 16).map(sensitivity))],
    ['Kind', type(r.type)],
  ];
  return h('dl', { class: 'about' }, facts.map(([term, text]) => h('div', {}, h('dt', {}, term), h('dd', {}, text))));
}

function reasonBlock(screen) {
  const { ledger } = screen.shown;
  const { column, i, asked, cell } = chosenAnswer(screen);
  const decision = cell.before;
  const known = column.group === 'people' && column.person !== ledger.patient;
  const who = capital(known ? `${column.one}, ${column.sub === 'no role' ? 'with no role' : column.sub},` : column.one);
  const may = decision.effect === PERMIT ? 'may' : 'may not';
  return h('section', { 'aria-labelledby': 'why-h', id: 'reason', 'data-basis': String(decision.basis) },
    h('p', { class: 'over' }, `${capital(record(i))}, for ${column.one}`),
    h('h2', { id: 'why-h', class: 'why-head' }, answerMark(decision.effect, 'big')),
    h('p', { class: 'why-text' }, reasonWords(decision, asked, null)),
    decision.basis === 3 && h('p', { class: 'mono' }, cardLine(directiveOf(decision.number))),
    h('p', { class: 'soft' }, `${who} asking from ${origin(asked.origin)} for ${purpose(asked.purpose)} ${may} read ${quoted(i)} now.`),
    h('h3', {}, 'How the answer was found'),
    h('ol', { class: 'steps' }, steps(decision, asked, ledger)),
    h('h3', {}, 'About this record'),
    aboutRecord(ledger.records[i]));
}

// The reason without its first word, which the mark before it already says.
function reasonAfterMark(decision, asked, draft) {
  return reasonWords(decision, asked, draft).replace(/^(Opened|Open|Closed) /, '');
}

function beforeAndAfter(screen) {
  const { shown } = screen;
  const { column, i, asked, cell } = chosenAnswer(screen);
  const draft = accepted(shown) ? shown.draft : null;
  const now = h('div', {}, h('dt', {}, 'Now'), h('dd', {}, answerMark(cell.before.effect), ' ', reasonAfterMark(cell.before, asked, null)));
  const then = draft && h('div', { class: cell.changes ? 'hot' : null },
    h('dt', {}, cell.changes ? 'If you sign' : 'If you sign: no change'),
    h('dd', {}, answerMark(cell.after.effect), ' ', reasonAfterMark(cell.after, asked, draft)));
  return h('section', { class: 'why-draft', 'aria-labelledby': 'why-h', id: 'reason' },
    h('h2', { id: 'why-h' }, `${capital(record(i))}, for ${column.one}`),
    h('dl', { class: 'beforeafter why-text' }, now, then));
}

// ---------- Directives in a list ----------

export function directiveItem(screen, d, revoke) {
  const begun = d.from <= screen.shown.ledger.clock;
  return h('li', { class: 'dir', 'data-directive': String(d.number) },
    h('span', { class: 'dnum' }, spoken('Directive '), String(d.number)),
    h('div', { class: 'dbody' },
      h('p', { class: 'dsay' }, capital(directiveWords(d))),
      h('p', { class: 'dmeta' },
        effectMark(d.effect, d.effect === PERMIT ? 'Opens' : 'Closes'), ' ',
        h('span', { class: `state${begun ? '' : ' later'}` }, begun ? 'In force now' : 'Starts later'), ' ',
        h('span', { class: 'mono' }, cardLine(d)))),
    revoke && h('div', { class: 'dact' }, h('button', {
      type: 'button', class: 'btn', id: `revoke-${d.number}`, 'aria-label': `Revoke directive ${d.number}`, onclick: () => revoke(d.number),
    }, 'Revoke')));
}

function signedDirectives(screen) {
  const { directives } = screen.shown.ledger;
  return h('section', { class: 'short' },
    h('h2', {}, directives.length ? 'Directives you have signed' : 'You have not signed a directive yet'),
    directives.length
      ? h('ul', { class: 'dirs' }, directives.map(d => directiveItem(screen, d, null)))
      : h('p', {}, `Without one, the default decides: a record is open for ${purpose(0)} to the places that hold it.`));
}
