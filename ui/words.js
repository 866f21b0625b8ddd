// Names, times and sentences for what the gateway answers, and the small elements that show them.
// Nothing is decided here.

export const DENY = 0;
export const PERMIT = 1;
export const PERSON = 0;
export const ROLE = 1;
export const LAST_MINUTE = 0xFFFFFFFF;
export const LAST_DATE = '9999-12-31T23:59'; // the last that a date field takes

// The sets of a directive: how many members one can have, and the full set.
export const SETS = {
  subject_origins: { size: 16, full: 0xFFFF },
  po: { size: 16, full: 0xFFFF },
  ps: { size: 16, full: 0xFFFF },
  pt: { size: 8, full: 0xFF },
  purposes: { size: 11, full: 0x07FF },
};

// ---------- Sets and lists ----------

export function range(n) {
  return Array.from({ length: n }, (_, i) => i);
}

export function has(set, i) {
  return ((set >>> i) & 1) === 1;
}

export function members(set, size) {
  return range(size).filter(i => has(set, i));
}

export function capital(text) {
  return text.charAt(0).toUpperCase() + text.slice(1);
}

export function listed(words, last = 'and') {
  if (words.length < 2) return words.join('');
  return `${words.slice(0, -1).join(', ')} ${last} ${words[words.length - 1]}`;
}

// The first few of a long list, and how many more there are.
export function shortened(words, most = 4) {
  return words.length > most ? [...words.slice(0, most - 1), `${words.length - most + 1} more`] : words;
}

export function counted(n, one, many = `${one}s`) {
  return `${n} ${n === 1 ? one : many}`;
}

// ---------- Labels ----------

const UNSHOWN = /[\u0000-\u001f\u007f-\u009f\u200e\u200f\u202a-\u202e\u2066-\u2069]/g;
const LONGEST_NAME = 80;

function textOf(value) {
  return typeof value === 'string' ? value.replace(UNSHOWN, '').trim().slice(0, LONGEST_NAME) : '';
}

// The entries of an object whose keys are numbers below `size`.
function numbered(object, size) {
  if (typeof object !== 'object' || object === null) return [];
  return Object.entries(object)
    .filter(([key]) => /^(0|[1-9][0-9]{0,4})$/.test(key) && Number(key) < size)
    .map(([key, value]) => [Number(key), value]);
}

function namesOf(object, size) {
  return new Map(numbered(object, size).map(([n, value]) => [n, textOf(value)]).filter(([, text]) => text));
}

function personsOf(object) {
  const persons = new Map();
  for (const [n, value] of numbered(object, 65536)) {
    const name = textOf(value && value.name);
    const role = value && Number.isInteger(value.role) ? value.role : 0;
    if (name) persons.set(n, { name, role });
  }
  return persons;
}

function rolesOf(object) {
  const roles = new Map();
  for (const [n, value] of numbered(object, 16)) {
    const role = { one: textOf(value && value.one), many: textOf(value && value.many), head: textOf(value && value.head) };
    roles.set(n, role);
  }
  return roles;
}

function zeroOf(value) {
  if (typeof value !== 'string' || !/^\d{4}-\d{2}-\d{2}T\d{2}:\d{2}$/.test(value)) return null;
  const milliseconds = Date.parse(`${value}:00Z`);
  return Number.isNaN(milliseconds) ? null : milliseconds;
}

// Takes from a names file what can be used. What is missing or of another type is shown as its number.
export function checkedLabels(json) {
  const file = typeof json === 'object' && json !== null ? json : {};
  return {
    zero: zeroOf(file.minuteZero),
    persons: personsOf(file.persons),
    roles: rolesOf(file.roles),
    records: namesOf(file.records, 128),
    origins: namesOf(file.origins, 16),
    sensitivities: namesOf(file.sensitivities, 16),
    types: namesOf(file.types, 8),
    purposes: namesOf(file.purposes, 11),
    states: namesOf(file.states, 8),
    marks: namesOf(file.marks, 16),
  };
}

// The names and the ledger that the sentences below speak of.
let labels = checkedLabels(null);
let ledger = null;

export function speakOf(newLabels, newLedger) {
  labels = newLabels;
  ledger = newLedger;
}

const STATES = ['Cardiac arrest', 'Respiratory failure', 'Stroke signs', 'Low blood sugar', 'Haemorrhage', 'Major injury',
  'Sepsis', 'Anaphylaxis'];

export function person(n) {
  return labels.persons.has(n) ? labels.persons.get(n).name : `person ${n}`;
}

// `form` is 'one' (a doctor), 'many' (doctors) or 'head' (Doctor).
export function role(n, form) {
  const named = labels.roles.get(n);
  if (named && named[form]) return named[form];
  return form === 'head' ? `Role ${n}` : `role ${n}`;
}

export function record(i) {
  return labels.records.get(i) || `record ${i}`;
}

export function quoted(i) {
  return `“${record(i)}”`;
}

export function origin(i) {
  return labels.origins.get(i) || `place ${i}`;
}

export function sensitivity(i) {
  return labels.sensitivities.get(i) || `mark ${i}`;
}

export function type(i) {
  return labels.types.get(i) || `kind ${i}`;
}

export function purpose(i) {
  return labels.purposes.get(i) || (i === 0 ? 'treatment' : `purpose ${i}`);
}

export function emergency(i) {
  return labels.states.get(i) || STATES[i];
}

export function emergencies(set) {
  return listed(members(set, 8).map(emergency));
}

export function emergencyMark(i) {
  return labels.marks.get(i) || `mark ${i}`;
}

// The members of a set that have a name; `kind` is 'origins', 'sensitivities', 'types' or 'purposes'.
export function namedMembers(kind) {
  return [...labels[kind].keys()];
}

export function namedPersons() {
  return [...labels.persons.keys()];
}

// The role that a person usually has; 0 where none is known or the card does not have it.
export function usualRole(n) {
  const known = labels.persons.get(n);
  return known && known.role > 0 && known.role < ledger.roles.length ? known.role : 0;
}

export function whoseRecords() {
  return labels.persons.has(ledger.patient) ? `${person(ledger.patient).split(' ')[0]}’s` : 'your';
}

// ---------- Times ----------

const DAYS = ['Sun', 'Mon', 'Tue', 'Wed', 'Thu', 'Fri', 'Sat'];
const MONTHS = ['Jan', 'Feb', 'Mar', 'Apr', 'May', 'Jun', 'Jul', 'Aug', 'Sep', 'Oct', 'Nov', 'Dec'];
const MINUTE = 60000;
const DAY = 1440 * MINUTE;

// Without a date for minute 0, times are shown as minutes.
export function hasDates() {
  return labels.zero !== null;
}

function dateOf(minute) {
  return new Date(labels.zero + minute * MINUTE);
}

function dayNumber(minute) {
  return Math.floor(dateOf(minute).getTime() / DAY);
}

function timeOfDay(minute) {
  const date = dateOf(minute);
  const hours = date.getUTCHours();
  return `${hours % 12 || 12}:${String(date.getUTCMinutes()).padStart(2, '0')}${hours < 12 ? 'am' : 'pm'}`;
}

function dayOf(minute, withYear) {
  const date = dateOf(minute);
  const parts = [DAYS[date.getUTCDay()], date.getUTCDate(), MONTHS[date.getUTCMonth()]];
  if (withYear) parts.push(date.getUTCFullYear());
  return parts.join('\u00a0');
}

export function when(minute) {
  if (!hasDates()) return `minute ${minute}`;
  const days = dayNumber(minute) - dayNumber(ledger.clock);
  if (days === 0) return `${timeOfDay(minute)} today`;
  if (days === 1) return `${timeOfDay(minute)} tomorrow, ${dayOf(minute)}`;
  const otherYear = dateOf(minute).getUTCFullYear() !== dateOf(ledger.clock).getUTCFullYear();
  return `${timeOfDay(minute)} on ${dayOf(minute, otherYear)}`;
}

export function fullTime(minute) {
  return hasDates() ? `${timeOfDay(minute)}, ${dayOf(minute, true)}` : `Minute ${minute}`;
}

// A short mark for a time line: the time of day, or the day where the line is longer than two days.
export function tickWords(minute, span) {
  if (!hasDates()) return String(minute);
  return span > 2880 ? dayOf(minute) : timeOfDay(minute).replace(':00', '');
}

// The value of a date field, and the minute that such a value means.
export function fieldOfMinute(minute) {
  const date = dateOf(minute);
  const two = n => String(n).padStart(2, '0');
  const day = `${String(date.getUTCFullYear()).padStart(4, '0')}-${two(date.getUTCMonth() + 1)}-${two(date.getUTCDate())}`;
  return `${day}T${two(date.getUTCHours())}:${two(date.getUTCMinutes())}`;
}

export function minuteOfField(value) {
  const parts = /^(\d{4,6})-(\d{2})-(\d{2})T(\d{2}):(\d{2})/.exec(value);
  if (!parts) return null;
  const [year, month, day, hours, minutes] = parts.slice(1).map(Number);
  const minute = Math.round((Date.UTC(year, month - 1, day, hours, minutes) - labels.zero) / MINUTE);
  return Math.min(Math.max(minute, 0), LAST_MINUTE);
}

export function timeWords({ from, until }) {
  const end = until === LAST_MINUTE ? 'with no end date' : `until ${when(until)}`;
  if (from <= ledger.clock) return end;
  if (!hasDates()) return `from minute ${from} ${end}`;
  if (until !== LAST_MINUTE && dayNumber(from) === dayNumber(until)) return `from ${timeOfDay(from)} ${end}`;
  return `from ${when(from)}, ${end}`;
}

// ---------- The register ----------

// The roles that stand below a role, for the words "including cardiologists".
function rolesBelow(top) {
  const isBelow = r => {
    while (r !== 0) {
      r = ledger.roles[r];
      if (r === top) return true;
    }
    return false;
  };
  return range(ledger.roles.length).filter(r => r !== top && isBelow(r));
}

export function childrenOf(i) {
  return range(ledger.records.length).filter(k => k !== 0 && ledger.records[k].parent === i);
}

// The records above a record, the nearest first.
export function recordsAbove(i) {
  const above = [];
  while (i !== 0) {
    i = ledger.records[i].parent;
    above.push(i);
  }
  return above;
}

export function countInside(i) {
  return range(ledger.records.length).filter(k => recordsAbove(k).includes(i)).length;
}

// Every record, each after the one it is inside of.
export function treeOrder() {
  const order = [];
  const visit = i => {
    order.push(i);
    childrenOf(i).forEach(visit);
  };
  visit(0);
  return order;
}

// ---------- Directives ----------

function subjectWords(d) {
  if (d.kind === PERSON) return d.subject === ledger.patient ? 'you' : person(d.subject);
  if (d.subject === 0) return d.effect === PERMIT ? 'everyone' : 'no one';
  const below = rolesBelow(d.subject).map(r => role(r, 'many'));
  return role(d.subject, 'many') + (below.length ? `, including ${listed(below)},` : '');
}

// Whom a directive names, without what the role covers.
export function subjectName(d) {
  if (d.kind === PERSON) return d.subject === ledger.patient ? 'you' : person(d.subject);
  return d.subject === 0 ? 'everyone' : role(d.subject, 'many');
}

function reachWords(d) {
  const name = quoted(d.record);
  const words = d.effect === DENY
    ? [`${name} itself`, `any record directly inside ${name}`, `anything inside ${name}`, `${name} or anything inside it`]
    : [`${name} itself`, `the records directly inside ${name}`, `everything inside ${name}`, `${name} and everything inside it`];
  return words[d.reach];
}

function typeWords(i) {
  if (!labels.types.has(i)) return `of kind ${i}`;
  const noun = type(i);
  return `${/^[aeiou]/i.test(noun) ? 'an' : 'a'} ${noun.charAt(0).toLowerCase()}${noun.slice(1)}`;
}

const LIMITS = [
  ['subject_origins', origin, 'when asking from', 'unless asking from'],
  ['po', origin, 'if it is held only at', 'if it is not held at'],
  ['ps', sensitivity, 'if it is marked only', 'if it is not marked'],
  ['pt', typeWords, 'if it is', 'if it is not'],
  ['purposes', purpose, 'for', 'for anything but'],
];

// A set that is not full in words: what is in it, or what is not, whichever is shorter.
export function limitWords(d) {
  return LIMITS.filter(([key]) => d[key] !== SETS[key].full).map(([key, name, only, except]) => {
    const { size, full } = SETS[key];
    const inside = members(d[key], size);
    const outside = members(full & ~d[key], size);
    return inside.length <= outside.length
      ? `${only} ${listed(inside.map(name), 'or')}`
      : `${except} ${listed(outside.map(name), 'or')}`;
  });
}

export function directiveWords(d) {
  const noOne = d.effect === DENY && d.kind === ROLE && d.subject === 0;
  const may = d.effect === PERMIT || noOne ? 'may read' : 'may not read';
  // with reach 3 the record is named beside what is inside it, so a limit of records is said of each
  const limits = limitWords(d).map(words => (d.reach === 3 && words.startsWith('if it is') ? `each ${words}` : words));
  return `${[`${subjectWords(d)} ${may} ${reachWords(d)}`, ...limits, timeWords(d)].join(', ')}.`;
}

export function shortDirective(d) {
  const name = quoted(d.record);
  const what = [name, `the records directly inside ${name}`, `all that is inside ${name}`, `${name} and all that is inside it`][d.reach];
  return `${d.effect === PERMIT ? 'Opens' : 'Closes'} ${what} to ${subjectName(d)}.`;
}

export function cardLine(d) {
  const who = `${d.kind === ROLE ? 'role' : 'person'} ${d.subject}`;
  return `Minutes ${d.from} to ${d.until} · ${who} · record ${d.record}, reach ${d.reach}`;
}

export function directiveOf(number) {
  return ledger.directives.find(d => d.number === number);
}

// ---------- Decisions ----------

export function answerWord(effect) {
  return effect === PERMIT ? 'Open' : 'Closed';
}

export function shortReason(decision, draftNumber) {
  if (decision.basis === 1) return 'patient';
  if (decision.basis === 2) return 'wrote it';
  if (decision.basis === 4) return 'by default';
  return decision.number === draftNumber ? 'your draft' : `directive ${decision.number}`;
}

function reasonByDirective(decision, draft) {
  const isDraft = draft !== null && draft.number === decision.number;
  const name = isDraft ? 'your draft' : `directive ${decision.number}`;
  const words = directiveWords(isDraft ? draft : directiveOf(decision.number));
  return `${decision.effect === PERMIT ? 'Opened' : 'Closed'} by ${name}: ${words}`;
}

// Why the default is open or closed, where the places of the record and the reason for asking bear that out.
export function defaultCause({ effect }, asked) {
  const held = has(ledger.records[asked.record].origins, asked.origin);
  const place = origin(asked.origin);
  if (effect === PERMIT && held && asked.purpose === 0) return `${place} holds this record, and the reason is ${purpose(0)}`;
  if (effect === DENY && asked.purpose !== 0) return `records are then open for ${purpose(0)} only`;
  return effect === DENY && !held ? `${place} does not hold this record` : '';
}

function reasonByDefault(decision, asked) {
  const start = `${answerWord(decision.effect)} by default: no directive applies`;
  const cause = defaultCause(decision, asked);
  if (cause === '') return `${start}.`;
  return decision.effect === PERMIT ? `${start}, ${cause}.` : `${start}, and ${cause}.`;
}

// Why a request got its decision. `draft` is the draft that is taken as signed, or null.
export function reasonWords(decision, asked, draft) {
  if (decision.basis === 1) return 'Open to you: you can always read your own records.';
  if (decision.basis === 2) return `Open to ${person(asked.person)}, who wrote it. People can always read what they wrote.`;
  return decision.basis === 3 ? reasonByDirective(decision, draft) : reasonByDefault(decision, asked);
}

// ---------- Questions ----------

export const QUESTIONS = {
  1: 'Is every field complete?',
  2: 'Is every field in its place, with the right length?',
  3: 'Are there at most 128 records?',
  4: 'Do the edition, the roles and each record keep to their allowed values?',
  5: 'Are the head, the roles and a record there?',
  6: 'Does the directive have the right length?',
  7: 'Do the parts of each directive keep to their allowed values?',
  8: 'Does the card have the role and the record that each directive names?',
  9: 'Does each directive start before it ends, and end after the time on the card?',
  10: 'Does each directive have a number of its own?',
  11: 'Are there at most 32 directives?',
  12: 'Can you, and whoever wrote a record, still read it?',
  13: 'Do no two directives say both yes and no to the same request?',
  14: 'Does the directive add anything?',
};

const REFUSED_CALLS = {
  6: 'It had the wrong length.',
  7: 'A part of it was out of range.',
  8: 'Its role or record is not on the card.',
  9: 'Its dates did not work.',
  10: 'Its number was taken.',
  11: 'The card was full.',
  12: 'It closed a record to you or to the person who wrote it.',
  14: 'It added nothing.',
  15: 'There is no such directive.',
  16: 'Time only moves forward.',
  18: 'Nothing was chosen that is happening.',
  19: 'It can last 1 to 240 minutes, and must end before time does.',
  20: 'Its number was in use.',
  21: 'Four emergency accesses were in use.',
};

// Why a call was refused, with the question's number.
export function refusedCall(status, values) {
  if (status === 13) return `It clashed with directive ${values[0]}. (Question 13)`;
  return `${REFUSED_CALLS[status] || 'The gateway refused it.'} (Question ${status})`;
}

// What ended when the clock moved, by the counts that an advance answers.
export function endedWords([directives, tokens]) {
  if (directives === 0 && tokens === 0) return 'Nothing ended.';
  return `${counted(directives, 'directive')} and ${counted(tokens, 'emergency access', 'emergency accesses')} ended.`;
}

// ---------- Elements ----------

export function byId(id) {
  return document.getElementById(id);
}

function present(kids) {
  return kids.flat(Infinity).filter(kid => kid !== null && kid !== undefined && kid !== false && kid !== '');
}

// An element. A prop that is a function is a listener, a boolean sets the property, null and undefined leave it out.
export function h(tag, props, ...kids) {
  const element = document.createElement(tag);
  for (const [name, value] of Object.entries(props || {})) {
    if (value === null || value === undefined) continue;
    if (typeof value === 'function') element.addEventListener(name.slice(2), value);
    else if (typeof value === 'boolean') element[name] = value;
    else element.setAttribute(name, value);
  }
  element.append(...present(kids));
  return element;
}

export function icon(name, className = '') {
  const space = 'http://www.w3.org/2000/svg';
  const image = document.createElementNS(space, 'svg');
  const use = document.createElementNS(space, 'use');
  image.setAttribute('class', `ic ${className}`.trim());
  image.setAttribute('aria-hidden', 'true');
  use.setAttribute('href', `#i-${name}`);
  image.append(use);
  return image;
}

// Words for screen readers alone.
export function spoken(text) {
  return h('span', { class: 'sr' }, text);
}

export function effectMark(effect, text, className = '') {
  const open = effect === PERMIT;
  return h('span', { class: `ans ${open ? 'is-open' : 'is-closed'} ${className}`.trim() }, icon(open ? 'open' : 'closed'), text);
}

export function answerMark(effect, className) {
  return effectMark(effect, answerWord(effect), className);
}

// `look` is a class of buttons, such as 'primary'.
export function button(id, text, iconName, onclick, look = '') {
  return h('button', { type: 'button', id, class: `btn ${look}`.trim(), onclick }, iconName && icon(iconName), h('span', {}, text));
}

export function linkButton(id, text, iconName, href, look) {
  return h('a', { id, class: `btn ${look}`, href }, icon(iconName), h('span', {}, text));
}

function option([value, text], chosen) {
  return h('option', { value, selected: String(value) === String(chosen) }, text);
}

// `options` are pairs of value and text, or groups { group, items } of them.
export function select(id, chosen, options, onchange) {
  return h('select', { id, onchange }, options.map(entry => Array.isArray(entry)
    ? option(entry, chosen)
    : h('optgroup', { label: entry.group }, entry.items.map(item => option(item, chosen)))));
}

// `control` is the control with this id, or has it inside.
export function field(id, label, control, hint) {
  const described = control.id === id ? control : control.querySelector(`#${id}`);
  if (hint) described.setAttribute('aria-describedby', `${id}-hint`);
  return h('div', { class: 'field' },
    h('label', { for: id }, label),
    hint && h('p', { class: 'hint', id: `${id}-hint` }, hint),
    control);
}

// A field for a whole number from 0 to `most`. `use` gets each new valid value. What is not one is marked; where `lose` is given it
// is told so, else the last valid value is put back on leaving the field.
export function numberField(id, value, most, use, { lose, ...props } = {}) {
  const input = h('input', { type: 'number', id, min: '0', max: String(most), step: '1', inputmode: 'numeric', ...props });
  setNumber(input, value);
  const take = () => {
    const good = /^[0-9]{1,10}$/.test(input.value) && Number(input.value) <= most;
    input.setAttribute('aria-invalid', String(!good));
    if (!good && lose) lose();
    if (!good || input.value === input.dataset.valid) return;
    input.dataset.valid = input.value;
    use(Number(input.value));
  };
  input.addEventListener('input', take);
  input.addEventListener('change', () => {
    take();
    if (!lose) setNumber(input, input.dataset.valid);
  });
  return input;
}

// Sets the value of a number field from the page's side.
export function setNumber(input, value) {
  input.value = String(value);
  input.dataset.valid = String(value);
  input.setAttribute('aria-invalid', 'false');
}

export function say(text) {
  const region = byId('say');
  region.textContent = '';
  requestAnimationFrame(() => { region.textContent = text; });
}

// ---------- Changing what is shown ----------

const keys = new WeakMap();

function keyOf(element) {
  if (element.id) return `#${CSS.escape(element.id)}`;
  const { c, r } = element.dataset;
  return c !== undefined && r !== undefined ? `.cell[data-c="${CSS.escape(c)}"][data-r="${CSS.escape(r)}"]` : null;
}

// Puts new content into an element. The focus stays on the same control, and what was unfolded stays so.
export function refill(element, ...kids) {
  const active = document.activeElement;
  const inside = active !== element && element.contains(active);
  const key = inside ? keyOf(active) : null;
  const unfolded = [...element.querySelectorAll('details[open][id]')].map(details => details.id);
  keys.delete(element);
  element.replaceChildren(...present(kids));
  unfolded.forEach(id => { if (byId(id)) byId(id).open = true; });
  if (inside) focusOn(key && element.querySelector(key));
}

// Moves the focus, to the page's heading where the wanted element is gone.
export function focusOn(element) {
  const target = element || document.querySelector('h1');
  if (target) target.focus({ preventScroll: true });
}

// As refill, but only where the key differs from that of the content that is there.
export function refillFor(key, element, build) {
  const text = JSON.stringify(key);
  if (keys.get(element) === text) return;
  refill(element, build());
  keys.set(element, text);
}
