'use strict';
// Shows what the server says. Every text goes to the page by textContent: names and texts of devices are text, whatever they hold.
const SECONDS_WITHOUT_ANSWER = 6, SECONDS_WITHOUT_EVENT = 3, SECONDS_OF_A_STREAM = 10, ANSWER_MS = 5000, POLL_MS = 1000, CELLS = 60, MANY_SECONDS = 3, MOST_ALARMS = 3, HALF_TURN = 180;
const place = id => document.getElementById(id);
// the steady clock of the browser, which stands while a telephone sleeps, and the date
const now = () => [performance.now(), Date.now()];
const secondsSince = ([steady, date]) => Math.max(performance.now() - steady, Date.now() - date) / 1000;
let said = null, received = now(), poll = null, isAsking = false, events = null, listened = now(), heard = now();

if (new URLSearchParams(location.search).has('night')) document.documentElement.classList.add('night');

// an element with a class, a text and what is in it
function made(name, kind, text, ...parts) {
  const element = document.createElement(name);
  if (kind) element.className = kind;
  if (text !== null) element.textContent = text;
  element.append(...parts);
  return element;
}

// since the server's words came
const passed = () => secondsSince(received);
const age = moment => said.moment - moment + said.silent_for + passed();

function lasting(seconds) {
  const s = Math.max(0, seconds);
  if (s < 10) return s.toFixed(1) + ' s';
  if (s < 120) return s.toFixed(0) + ' s';
  return s < 7200 ? Math.floor(s / 60) + ' min' : Math.floor(s / 3600) + ' h';
}

const maker = one => [one.maker, one.function].filter(text => text).join(', ');
const device = one => one.claimed ? maker(one) : 'never claimed an address';

function sourceOf(row) {
  if (row.source === null) return isNoRow(row) ? 'joined of several sources' : '';
  return device(row.source) + ', address ' + row.source.address + (row.source.claimed ? ', ' + row.source.name : '');
}

const isSilent = row => row.missed || (row.moment === null ? row.silent : age(row.moment) > row.timeout);

// the values of ten minutes, as far as they were numbers; apart where none came for a while, and where an angle passed north
function lineOf(row) {
  const points = row.line, svg = document.createElementNS('http://www.w3.org/2000/svg', 'svg');
  svg.setAttribute('viewBox', '0 0 ' + CELLS + ' 26');
  svg.setAttribute('preserveAspectRatio', 'none');
  svg.setAttribute('role', 'img');
  svg.setAttribute('aria-label', row.words + ' in the last ten minutes');
  if (points.length > 1) {
    const numbers = points.map(point => point[1]), least = Math.min(...numbers), most = Math.max(...numbers), end = points[points.length - 1][0];
    const x = cell => CELLS - 1 - (end - cell), y = number => most > least ? 24 - 22 * (number - least) / (most - least) : 13;
    const turns = row.values.length > 0 && row.values[0][2].startsWith('degrees');
    const isApart = (one, before) => one[0] - before[0] > 1 || turns && Math.abs(one[1] - before[1]) > HALF_TURN;
    const path = document.createElementNS('http://www.w3.org/2000/svg', 'path');
    path.setAttribute('d', points.map((point, at) => (at === 0 || isApart(point, points[at - 1]) ? 'M' : 'L') + x(point[0]) + ',' + y(point[1]).toFixed(1)).join(''));
    svg.append(path);
  }
  return svg;
}

function ageWords(row) {
  if (row.moment === null) return isSilent(row) ? 'never heard, and the configuration wants it' : 'not heard yet';
  return isSilent(row) ? 'fell silent ' + lasting(age(row.moment)) + ' ago' : lasting(age(row.moment)) + ' ago';
}

// what is no row is counted
const isNoRow = row => said.others.includes(row);
const unitOf = ([words, text, unit]) => text.includes('°') ? '' : unit + (words && !unit.includes(words) ? ', ' + words : '');
const valueText = value => value[1] + (unitOf(value) ? ' ' + unitOf(value) : '');

// a value that is too old to be taken for one of now is small
function valuesOf(row) {
  const values = made('div', 'values', null);
  if (row.values.length > 0 && !isSilent(row)) {
    for (const value of row.values) values.append(made('span', '', null, made('span', value[1].includes('°') ? 'value degrees' : 'value', value[1]), made('span', 'unit', ' ' + unitOf(value))));
  } else if (isNoRow(row)) {
    values.append(made('span', 'value', String(row.count)), made('span', 'unit', 'times'));
  } else {
    const last = row.values.map(valueText).join('; ');
    values.append(made('span', 'value', '–'), made('span', 'unit', last ? 'last ' + last : 'no value'));
  }
  return values;
}

function card(row) {
  const bar = made('div', 'bar', null), part = row.moment === null ? 1 : Math.min(1, age(row.moment) / row.timeout);
  bar.style.width = (100 * part).toFixed(0) + '%';
  return made('article', isSilent(row) ? 'card silent' : 'card', null, made('h3', '', row.words), valuesOf(row), made('div', 'track', null, bar),
    made('div', 'age', ageWords(row)), made('div', 'source', sourceOf(row)), lineOf(row));
}

function fill(id, rows) {
  place(id).hidden = rows.length === 0;
  place(id).querySelector('tbody').replaceChildren(...rows.map(cells => made('tr', cells.kind || '', null, ...cells)));
}

const cell = (text, kind = '') => made('td', kind, text);

// many of one kind are told as one
function told(rows, words) {
  if (rows.length <= MOST_ALARMS) return rows.map(row => row.words + ': ' + ageWords(row));
  return [rows.length + ' quantities ' + words + ': ' + rows.map(row => row.words).join('; ')];
}

// a silent boat and a dead gateway: by its sign of life they look different
function silences(written, heard) {
  if (said.beat === null && heard > MANY_SECONDS) {
    return ['Nothing came for ' + lasting(heard) + ': the boat is silent, or the gateway has ended. This page can\'t tell which without bus_every_s or group under [heartbeat].'];
  }
  if (said.beat !== null && written > 2 * said.beat) return ['The gateway has ended: it wrote nothing for ' + lasting(written) + ', and a sign of life is due each ' + said.beat + ' s.'];
  return heard > MANY_SECONDS ? ['The boat is silent: nothing came for ' + lasting(heard) + '. The gateway runs.'] : [];
}

function alarms() {
  const found = [];
  if (said === null) return [poll === 'failed' ? 'No answer from livelook.' : 'Waiting for livelook.'];
  if (passed() > SECONDS_WITHOUT_ANSWER || poll === 'failed') found.push('No answer from livelook for ' + lasting(passed()) + ': what stands here is old.');
  found.push(...said.warnings);
  if (said.moment === null || said.percent !== null) return found;
  found.push(...silences(said.silent_for + passed(), age(said.heard === null ? said.begin : said.heard)));
  const rows = said.rows.filter(isSilent);
  found.push(...told(rows.filter(row => row.moment !== null), 'fell silent'));
  found.push(...told(rows.filter(row => row.moment === null), 'were never heard, and the configuration wants them'));
  return found;
}

function changeWords(one) {
  if (one.what === 'own') return one.address === null ? 'the gateway has no address' : 'the gateway has address ' + one.address;
  const who = one.claimed ? maker(one) + ', ' + one.name : 'a device that never claimed';
  if (one.what === 'missed') return one.row + ' is missed by the gateway';
  if (one.what === 'back') return one.row + ' is back';
  if (one.what === 'source') return one.row + ' is taken from address ' + one.address + ', ' + who;
  return (one.address === null ? 'no address' : 'address ' + one.address) + ': ' + one.what + ' by ' + who;
}

// a rule and its sender, and below them what it means
function refusedRows(one) {
  const first = [cell(one.rule + ', ' + one.name), cell(one.sender), cell(one.count), cell(lasting(age(one.moment)) + ' ago')], cure = cell(null);
  cure.colSpan = first.length;
  cure.append(one.cause + '. ', made('b', '', 'What to do: '), one.cure + '.');
  return [Object.assign(first, {kind: 'above'}), Object.assign([cure], {kind: 'more'})];
}

const often = count => count > 1 ? ', ' + count + ' times' : '';

function showTables() {
  fill('network', said.to_bus.map(one => [cell(one.words), cell(one.values.map(valueText).join('; ') || 'no value'), cell(one.source), cell(lasting(age(one.moment)) + ' ago')]));
  fill('plotters', said.plotters.map(one => [cell(one.address), cell(device(one), 'long'), cell(one.what, one.leads ? 'long' : 'long source'), cell(lasting(age(one.moment)) + ' ago')]));
  fill('devices', said.devices.map(one => [cell(one.address), cell(device(one) + (one.product ? ', ' + one.product : ''), one.claimed ? 'long' : 'alarm'), cell(one.name, 'wide'),
    cell(lasting(age(one.moment)) + ' ago'), cell(one.rate.toFixed(1), 'wide')])
    .concat(said.more_devices ? [[cell(''), cell(said.more_devices + ' more addresses')]] : []));
  fill('refused', said.refused.flatMap(refusedRows));
  fill('failures', said.failures.map(one => [cell(one.link), cell(one.what), cell(one.count, 'alarm')]));
  fill('changes', said.changes.map(one => [cell(lasting(age(one.moment)) + ' ago'), cell(changeWords(one) + often(one.count), 'long')]));
}

function showAlarms() {
  const words = alarms(), list = place('alarms');
  if (words.join('\n') !== Array.from(list.children, one => one.textContent).join('\n')) list.replaceChildren(...words.map(text => made('li', '', text)));
}

function show() {
  showAlarms();
  const isThere = said !== null && said.moment !== null && said.percent === null;
  place('main').hidden = place('rates').hidden = place('clock').hidden = place('since').hidden = !isThere;
  if (!isThere) return;
  place('clock').textContent = new Date(1000 * (said.moment + said.silent_for + passed())).toISOString().slice(11, 19) + ' UTC';
  const rates = said.rates, own = said.own === null ? 'no address' : 'address ' + said.own;
  place('rates').textContent = 'bus ' + rates.frames.toFixed(0) + ' frames/s, load ' + (100 * rates.load).toFixed(1) + ' %; network ' + rates.datagrams.toFixed(1) +
    ' datagrams/s out, ' + rates.datagrams_from_network.toFixed(1) + '/s in; ' + rates.frames_to_bus.toFixed(1) + ' frames/s to the bus; the gateway has ' + own;
  const rows = [...said.rows, ...said.others];
  place('rows').replaceChildren(...rows.filter(isSilent).map(card), ...rows.filter(row => !isSilent(row)).map(card));
  place('nothing').hidden = rows.length > 0;
  showTables();
  place('since').textContent = ['Looked at ' + said.since + ', ' + lasting(said.moment - said.begin + said.silent_for + passed()) + '.',
    'All of it is what the program gives for the recorded events.', ...said.notes].join(' ');
}

function take(text) {
  said = JSON.parse(text);
  received = now();
  show();
}

function ask() {
  if (isAsking) return show();
  isAsking = true;
  return fetch('status.json', {cache: 'no-store', signal: AbortSignal.timeout(ANSWER_MS)}).then(answer => answer.text()).then(text => { poll = 'works'; take(text); })
    .catch(() => { poll = 'failed'; show(); }).finally(() => { isAsking = false; });
}

function listen() {
  if (events) events.close();
  listened = now();
  events = new EventSource('events');
  events.onmessage = message => { heard = now(); poll = null; take(message.data); };
  events.onerror = () => ask();
}

// where events fail, or none comes, it is asked each second, which also tells the server's end; whoever slept through a stream's end isn't told of it
function turn() {
  if (secondsSince(heard) < SECONDS_WITHOUT_EVENT) return show();
  if (secondsSince(listened) > SECONDS_OF_A_STREAM) listen();
  return ask();
}

listen();
setInterval(turn, POLL_MS);
// a page that was asleep catches up at once
addEventListener('visibilitychange', () => { if (!document.hidden) ask(); });
