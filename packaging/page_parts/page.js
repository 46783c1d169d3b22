
'use strict';
// How many lines are read at a time, how many bytes of a line are shown, and how tall a browser lets something be, in pixels.
const LINES_AT_ONCE = 1024, MOST_SHOWN = 2, TALLEST = 8e6;
// The program's statuses: the text is whole; the room was too small.
const WHOLE = 0, FULL = 4;
// The rules that have a meaning of their own here: the form of a line, and a line that the whole gateway reads.
const FORM = 1, NOT_CONVERTED = 5;
// Bytes that lines begin and end with.
const LF = 10, CR = 13, SPACE = 32, BANG = 33, DOLLAR = 36, A = 97, R = 114;

const at = id => document.getElementById(id);
const facts = JSON.parse(at('facts').textContent);
const number = count => count.toLocaleString('en');
const many = (count, one, more) => `${number(count)} ${count === 1 ? one : more}`;

function made(kind, words, text) {
  const element = document.createElement(kind);
  if (words) element.className = words;
  if (text !== undefined) element.textContent = text;
  return element;
}

// Bytes as text: what can't be printed stands as its number, so that nothing of a recording is anything but text.
function printable(bytes) {
  let text = '';
  for (const byte of bytes) text += byte >= 32 && byte < 127 ? String.fromCharCode(byte) : '\\x' + byte.toString(16).toUpperCase().padStart(2, '0');
  return text;
}

// ---- the proved code

class Decoder {
  constructor(exports) {
    this.exports = exports;
    this.first = 8 * Math.ceil(Number(exports.__heap_base.value) / 8);
  }

  grow(end) {
    const more = Math.ceil((end - this.exports.memory.buffer.byteLength) / 65536);
    if (more > 0) this.exports.memory.grow(BigInt(more));
  }

  // All of the text that a command writes for a capture. In memory stand the count, the capture and the room, behind one another.
  text(command, capture) {
    for (let room = 4 * capture.length + 4096; ; room *= 4) {
      const from = this.first + 8, to = from + capture.length;
      this.grow(to + room);
      const memory = this.exports.memory.buffer;
      new Uint8Array(memory).set(capture, from);
      const status = this.exports[command](BigInt(from), BigInt(capture.length), BigInt(to), BigInt(room), BigInt(this.first));
      if (status === WHOLE) return new Uint8Array(memory, to, Number(new DataView(memory).getBigUint64(this.first, true))).slice();
      if (status !== FULL) throw new Error(`${command} ended with status ${status}`);
    }
  }

  recording(name, bytes) {
    return new Recording(name, bytes, Infinity, (command, capture) => this.text(command, capture));
  }
}

// What the program wrote for the first lines of each example, for a browser that can't run the code.
class Stored {
  recording(name, bytes) {
    const example = facts.examples.find(one => one.name === name), texts = { convert: example.convert, show: example.show };
    return new Recording(name, bytes, facts.stored, command => new TextEncoder().encode(texts[command]));
  }
}

function bytesOfModule() {
  return Uint8Array.from(atob(at('module').textContent.replace(/\s/g, '')), character => character.charCodeAt(0));
}

async function decoder() {
  const bytes = bytesOfModule();
  if (typeof WebAssembly !== 'object' || !WebAssembly.validate(bytes)) return new Stored();
  try {
    return new Decoder((await WebAssembly.instantiate(bytes, {})).instance.exports);
  } catch {
    return new Stored();
  }
}

// ---- a recording

// The text of each line of a piece: the bytes, and where the text of each ends.
class Texts {
  constructor(room, lines) {
    this.bytes = new Uint8Array(room);
    this.ends = new Uint32Array(lines);
    this.size = 0;
  }

  add(bytes, begin, end) {
    this.bytes.set(bytes.subarray(begin, end), this.size);
    this.size += end - begin;
    this.bytes[this.size++] = LF;
  }

  // Calls back with each line of the text of a place.
  each(place, call) {
    for (let begin = place ? this.ends[place - 1] : 0; begin < this.ends[place]; ) {
      const end = this.bytes.indexOf(LF, begin);
      call(this.bytes, begin, end);
      begin = end + 1;
    }
  }
}

function eachLine(bytes, call) {
  for (let begin = 0; begin < bytes.length; ) {
    const end = bytes.indexOf(LF, begin);
    call(begin, end);
    begin = end + 1;
  }
}

// The decimal number that begins at a place.
function numberAt(bytes, place) {
  let value = 0;
  for (; bytes[place] >= 48 && bytes[place] <= 57; place++) value = 10 * value + bytes[place] - 48;
  return value;
}

// Where the number begins that a line ends with.
function lastNumber(bytes, end) {
  let place = end;
  while (bytes[place - 1] >= 48 && bytes[place - 1] <= 57) place--;
  return place;
}

// What convert wrote of lines that each have one of no form behind them: the report of that one ends the text of a line.
function textsOfConvert(bytes, lines) {
  const texts = new Texts(bytes.length, lines);
  let place = 0;
  eachLine(bytes, (begin, end) => {
    if (bytes[begin] !== R) texts.add(bytes, begin, bytes[end - 1] === CR ? end - 1 : end);
    else if (numberAt(bytes, lastNumber(bytes, end)) % 2 === 0) texts.ends[place++] = texts.size;
    else texts.add(bytes, begin, lastNumber(bytes, end) - ' line='.length);
  });
  if (place !== lines) throw new Error(`${place} of ${lines} lines were answered`);
  return texts;
}

// What show wrote, each line of it without the number that it begins with. The reports of lines are left out, since convert says them too.
function textsOfShow(bytes, lines) {
  const texts = new Texts(bytes.length, lines);
  let place = 0;
  eachLine(bytes, (begin, end) => {
    for (const line = numberAt(bytes, begin + 5) - 1; place < line; place++) texts.ends[place] = texts.size;
    const from = bytes.indexOf(SPACE, begin) + 1;
    if (bytes[from] !== R) texts.add(bytes, from, end);
  });
  for (; place < lines; place++) texts.ends[place] = texts.size;
  return texts;
}

// The rule that a line of convert or of show reports, or 0. The line is rule N, or at=K rule N, where others have at=K s=SFI.
function ruleAt(bytes, begin) {
  const from = bytes[begin] === A ? bytes.indexOf(SPACE, begin) + 1 : begin;
  return bytes[from] === R ? numberAt(bytes, from + 'rule '.length) : 0;
}

// How often a rule was broken, and in which line first.
function note(rules, rule, line) {
  const found = rules.get(rule);
  if (found) found.count++;
  else rules.set(rule, { count: 1, line });
}

class Recording {
  constructor(name, bytes, most, text) {
    Object.assign(this, { name, bytes, text, pieces: [], done: 0, sentences: 0, speaking: 0, filled: 0, rules: new Map(), parts: new Map() });
    let count = 0;
    for (let place = 0; place < bytes.length; place++) if (bytes[place] === LF) count++;
    if (bytes.length && bytes[bytes.length - 1] !== LF) count++;
    this.all = count;
    this.count = Math.min(count, most);
    this.starts = new Float64Array(this.count + 1);
    for (let line = 1, place = 0; line <= this.count; line++) {
      const end = bytes.indexOf(LF, place);
      this.starts[line] = place = end < 0 ? bytes.length + 1 : end + 1;
    }
  }

  line(line) {
    return this.bytes.subarray(this.starts[line], this.starts[line + 1] - 1);
  }

  // The next lines as they are, and with a line of no form behind each.
  next() {
    const end = Math.min(this.count, this.done + LINES_AT_ONCE), from = this.starts[this.done], to = Math.min(this.starts[end], this.bytes.length);
    const marked = new Uint8Array(to - from + 3 * (end - this.done));
    let size = 0;
    for (let line = this.done; line < end; line++) {
      const bytes = this.line(line);
      marked.set(bytes, size);
      marked.set([LF, 45, LF], size + bytes.length);
      size += bytes.length + 3;
    }
    return { lines: end - this.done, plain: this.bytes.subarray(from, to), marked: marked.subarray(0, size) };
  }

  read() {
    const { lines, plain, marked } = this.next();
    const piece = { convert: textsOfConvert(this.text('convert', marked), lines), show: textsOfShow(this.text('show', plain), lines) };
    this.pieces.push(piece);
    for (let place = 0; place < lines; place++) this.countIn(piece, place, this.done + place);
    this.done += lines;
  }

  countIn(piece, place, line) {
    let sentences = 0;
    piece.convert.each(place, (bytes, begin) => {
      const rule = ruleAt(bytes, begin);
      if (rule) note(this.rules, rule, line);
      else sentences++;
    });
    piece.show.each(place, (bytes, begin) => {
      const rule = ruleAt(bytes, begin);
      if (rule) note(this.parts, rule, line);
    });
    const length = this.starts[line + 1] - 1 - this.starts[line];
    if (length > 1 || (length === 1 && this.bytes[this.starts[line]] !== CR)) this.filled++;
    if (sentences) this.speaking++;
    this.sentences += sentences;
  }

  piece(line) {
    return [this.pieces[Math.floor(line / LINES_AT_ONCE)], line % LINES_AT_ONCE];
  }
}

// ---- the list: only what can be seen is in the page

class List {
  constructor() {
    this.box = at('list');
    this.rows = at('rows');
    this.shows = false;
    this.box.addEventListener('scroll', () => this.drawSoon());
    new ResizeObserver(() => this.measure() && this.layOut()).observe(this.box);
  }

  open(recording) {
    Object.assign(this, { recording, laid: 0, found: -1, tops: new Float64Array(recording.count + 1) });
    this.box.setAttribute('aria-rowcount', recording.count + 1);
    this.box.scrollTop = 0;
    this.measure();
    this.more();
  }

  // How many characters fit where; whether that changed.
  measure() {
    const probe = document.body.appendChild(made('span', '', '0'.repeat(100)));
    probe.id = 'probe';
    const one = probe.getBoundingClientRect();
    probe.remove();
    const width = this.box.clientWidth, before = `${this.width} ${this.each}`;
    Object.assign(this, { width, each: one.width / 100, high: one.height, narrow: width < 760 });
    const digits = String(this.recording ? this.recording.count : 1).length;
    this.left = Math.max(Math.ceil((digits + 1.5) * this.each) + 10, this.narrow ? 0 : 52);
    const rest = width - this.left - 2;
    this.said = this.narrow ? rest : Math.min(Math.round(rest * 0.55), Math.ceil(60 * this.each));
    this.fits = { said: this.fitting(this.said), gives: this.fitting(this.narrow ? rest : rest - this.said) };
    this.box.classList.toggle('narrow', this.narrow);
    this.columns = this.narrow ? `${this.left}px 1fr` : `${this.left}px ${this.said}px 1fr`;
    at('names').style.gridTemplateColumns = this.columns;
    this.head = at('names').offsetHeight;
    return this.recording && `${this.width} ${this.each}` !== before;
  }

  fitting(pixels) {
    return Math.max(8, Math.floor((pixels - 12) / this.each));
  }

  // How many lines of so many characters the text of a place takes.
  linesOf(texts, place) {
    let lines = 0;
    texts.each(place, (bytes, begin, end) => {
      lines += Math.max(1, Math.ceil((this.lengthOf(bytes, begin, end)) / this.fits.gives));
    });
    return lines;
  }

  lengthOf(bytes, begin, end) {
    const rule = ruleAt(bytes, begin);
    return end - begin + (rule ? 2 + nameOf(rule).length : 0);
  }

  heightOf(line) {
    const [piece, place] = this.recording.piece(line);
    const length = lengthShown(withoutCr(this.recording.line(line)), MOST_SHOWN * this.fits.said);
    const said = Math.min(MOST_SHOWN, Math.max(1, Math.ceil(length / this.fits.said)));
    const gives = this.linesOf(piece.convert, place) + (this.shows ? this.linesOf(piece.show, place) : 0);
    return 13 + this.high * (this.narrow ? said + gives : Math.max(said, gives));
  }

  // More lines of the recording were read.
  more() {
    for (; this.laid < this.recording.done; this.laid++) this.tops[this.laid + 1] = this.tops[this.laid] + this.heightOf(this.laid);
    const total = this.tops[this.laid];
    this.tall = Math.min(total, TALLEST);
    this.rows.style.height = `${this.tall}px`;
    this.box.style.height = `${Math.min(total + this.head + 2, Math.max(260, Math.round(innerHeight * 0.72)))}px`;
    this.drawSoon();
  }

  // Everything anew, by another width or with other lines: what stood at the top stays there.
  layOut() {
    const top = this.topLine();
    this.measure();
    this.laid = 0;
    this.more();
    this.go(top, false);
  }

  // From the place in what the browser scrolls to the place in all rows: the same, unless these are taller than it lets them be.
  scale() {
    const view = this.box.clientHeight - this.head;
    return this.tall > view ? (this.tops[this.laid] - view) / (this.tall - view) : 1;
  }

  topLine() {
    return this.lineAt(this.box.scrollTop * this.scale());
  }

  lineAt(height) {
    let low = 0, high = Math.max(0, this.laid - 1);
    while (low < high) {
      const middle = (low + high + 1) >> 1;
      if (this.tops[middle] <= height) low = middle;
      else high = middle - 1;
    }
    return low;
  }

  go(line, isFound) {
    if (isFound) this.found = line;
    this.box.scrollTop = Math.max(0, this.tops[line] - (isFound ? 60 : 0)) / this.scale();
    this.drawSoon();
  }

  drawSoon() {
    if (!this.waits) this.waits = requestAnimationFrame(() => this.draw());
  }

  draw() {
    this.waits = 0;
    const top = this.box.scrollTop, virtual = top * this.scale(), drawn = [];
    for (let line = this.lineAt(virtual); line < this.laid && this.tops[line] < virtual + this.box.clientHeight; line++)
      drawn.push(this.row(line, top + this.tops[line] - virtual));
    this.rows.replaceChildren(...drawn);
  }

  row(line, top) {
    const row = made('div', line === this.found ? 'row found' : line % 2 ? 'row odd' : 'row'), recording = this.recording, [piece, place] = recording.piece(line);
    const cell = (words, role, children) => {
      const one = row.appendChild(made('div', words));
      one.setAttribute('role', role);
      one.append(...children);
    };
    row.setAttribute('role', 'row');
    row.setAttribute('aria-rowindex', line + 2);
    row.style.top = `${top}px`;
    row.style.height = `${this.tops[line + 1] - this.tops[line]}px`;
    row.style.gridTemplateColumns = this.columns;
    cell('no', 'rowheader', [number(line + 1)]);
    cell('said', 'cell', saidParts(recording.line(line), this.fits.said));
    cell('gives', 'cell', this.parts(piece.convert, place).concat(this.shows ? this.parts(piece.show, place) : []));
    return row;
  }

  parts(texts, place) {
    const parts = [];
    texts.each(place, (bytes, begin, end) => {
      const [kind, text] = told(bytes, begin, end);
      for (let from = 0; from === 0 || from < text.length; from += this.fits.gives) parts.push(made('div', kind, text.slice(from, from + this.fits.gives)));
    });
    return parts;
  }
}

const withoutCr = bytes => bytes[bytes.length - 1] === CR ? bytes.subarray(0, -1) : bytes;

// How many characters of a line are shown, up to a few more than so many.
function lengthShown(bytes, most) {
  let length = 0;
  for (let place = 0; place < bytes.length && length <= most; place++) length += bytes[place] >= 32 && bytes[place] < 127 ? 1 : 4;
  return length;
}

// A line as it came, without its CR; a long one ends with how long it is.
function saidParts(bytes, fits) {
  const line = withoutCr(bytes), most = MOST_SHOWN * fits;
  let text = printable(line.subarray(0, most + 1));
  if (text.length > most) {
    const end = ` … ${number(line.length)} bytes`;
    text = text.slice(0, most - end.length) + end;
  }
  const parts = [];
  for (let from = 0; from === 0 || from < text.length; from += fits) parts.push(made('div', '', text.slice(from, from + fits)));
  return parts;
}

const nameOf = rule => facts.rules[rule].name;

// A line that a command wrote: how it looks, and its text. A report has the name of its rule behind it.
function told(bytes, begin, end) {
  const text = printable(bytes.subarray(begin, end)), rule = ruleAt(bytes, begin);
  if (rule) return [rule === NOT_CONVERTED ? 'grey' : 'bad', `${text}, ${nameOf(rule)}`];
  return [bytes[begin] === DOLLAR || bytes[begin] === BANG ? 'sentence' : 'show', text];
}

// ---- what is said of the whole recording

// A paragraph, whose words between backquotes are code.
function paragraph(text) {
  const said = made('p');
  text.split('`').forEach((part, place) => said.append(place % 2 ? made('code', '', part) : part));
  return said;
}

const countOf = (recording, rule) => recording.rules.has(rule) ? recording.rules.get(rule).count : 0;

function aboutRefused(refused) {
  const said = paragraph(`${many(refused, 'line was', 'lines were')} refused: `), link = said.appendChild(made('a', '', 'why, and what to do'));
  link.href = '#rules';
  said.append('.');
  return said;
}

function summary(recording) {
  const { filled, speaking, sentences } = recording, grey = countOf(recording, NOT_CONVERTED), form = countOf(recording, FORM);
  const refused = filled - speaking - grey;
  if (!filled) return [paragraph('There is no line in it.')];
  const said = [paragraph(`${number(speaking)} of ${many(filled, 'line', 'lines')} gave ${many(sentences, 'sentence', 'sentences')}.`)];
  if (form >= 0.9 * filled) said.push(paragraph(
    `This isn't the log form of candump: ${number(form)} of ${many(filled, 'line has', 'lines have')} another one. ` +
    'The tool `tools/tolog` of shipgate turns recordings into it: those of `candump` without `-L`, canboat, Yacht Devices, Actisense and SeaSmart.'));
  if (grey) said.push(paragraph(
    `${many(grey, 'grey line is', 'grey lines are')} no fault (rule 5): ` +
    'claims, fast packets such as PGN 129029 and 129038, and datagrams need the whole gateway. `shipgate replay CONFIG` reads them.'));
  if (refused) said.push(aboutRefused(refused));
  return said;
}

function card(rule, { count, line }, list) {
  const about = facts.rules[rule], box = made('div', 'refused'), first = made('button', 'button', `Go to line ${number(line + 1)}`);
  const head = made('h4', '', `Rule ${rule}, ${about.name}: `);
  head.append(made('span', 'count', many(count, 'time', 'times')));
  first.type = 'button';
  first.addEventListener('click', () => {
    list.go(line, true);
    list.box.focus({ preventScroll: true });
    list.box.scrollIntoView({ block: 'nearest' });
  });
  box.append(head, made('p', '', `Cause: ${about.cause}.`), made('p', '', `What to do: ${about.cure}.`), first);
  return box;
}

// The rules that were broken, the fewest first: one odd line is easily missed among many of a kind.
function cards(recording, list) {
  const rules = [...recording.rules].filter(([rule]) => rule !== NOT_CONVERTED), all = [...rules, ...(list.shows ? recording.parts : [])];
  const found = all.sort((one, other) => one[1].count - other[1].count).map(([rule, where]) => card(rule, where, list));
  return found.length ? [made('h3', '', 'Refused lines'), ...found] : [];
}

// ---- the page

class Page {
  constructor(decoder) {
    Object.assign(this, { decoder, list: new List(), turn: 0 });
    const isStored = decoder instanceof Stored;
    at('input').hidden = false;
    at('without').hidden = !isStored;
    at('own').hidden = isStored;
    at('save-convert').parentElement.hidden = isStored;
    for (const example of facts.examples) this.offer(example);
    at('shows').addEventListener('change', event => this.showLines(event.target.checked));
    for (const command of ['convert', 'show']) at(`save-${command}`).addEventListener('click', () => this.save(command));
    if (!isStored) this.takeIn();
    const first = facts.examples[0];
    this.open(first.name, new TextEncoder().encode(first.capture), first.about);
  }

  offer(example) {
    const button = made('button', 'button', example.title);
    button.type = 'button';
    button.dataset.name = example.name;
    button.addEventListener('click', () => this.open(example.name, new TextEncoder().encode(example.capture), example.about));
    at('examples').append(button);
  }

  // Shows a recording, and reads it piece by piece: in between the browser draws and listens.
  open(name, bytes, about = '') {
    try {
      this.begin(++this.turn, this.decoder.recording(name, bytes), about);
    } catch (fault) {
      this.fail(name, fault);
    }
  }

  goOn(turn, recording) {
    if (turn !== this.turn) return;
    try {
      for (const end = performance.now() + 20; recording.done < recording.count && performance.now() < end; ) recording.read();
      this.list.more();
      this.tell(recording);
    } catch (fault) {
      this.fail(recording.name, fault);
      return;
    }
    if (recording.done < recording.count) setTimeout(() => this.goOn(turn, recording), 0);
  }

  fail(name, fault) {
    this.turn++;
    at('result').hidden = false;
    at('progress').hidden = at('list').hidden = true;
    at('name').textContent = name;
    at('rules').replaceChildren();
    at('summary').replaceChildren(made('p', '', `This can't be read here: ${fault.message}`));
  }

  begin(turn, recording, about) {
    const { name } = this.recording = recording;
    for (const button of at('examples').querySelectorAll('button')) button.setAttribute('aria-pressed', String(about !== '' && button.dataset.name === name));
    at('result').hidden = false;
    at('name').textContent = name;
    const part = recording.count < recording.all ? ` The first ${number(recording.count)} of ${number(recording.all)} lines.` : '';
    at('note').textContent = about + part;
    at('note').hidden = !about;
    at('list').hidden = at('save-convert').disabled = at('save-show').disabled = !recording.count;
    if (recording.count) recording.read();
    this.list.open(recording);
    this.goOn(turn, recording);
  }

  tell(recording) {
    const isRead = recording.done === recording.count;
    at('progress').hidden = isRead;
    at('progress').textContent = `Reading: ${Math.floor(100 * recording.done / recording.count)} %`;
    at('summary').replaceChildren(...(isRead ? summary(recording) : []));
    at('rules').replaceChildren(...(isRead ? cards(recording, this.list) : []));
  }

  showLines(areShown) {
    this.list.shows = areShown;
    at('save-show').hidden = !areShown;
    this.list.layOut();
    this.tell(this.recording);
  }

  // The text of all lines, as the program's command writes it.
  save(command) {
    const link = made('a');
    link.href = URL.createObjectURL(new Blob([this.decoder.text(command, this.recording.bytes)], { type: 'text/plain' }));
    link.download = `${this.recording.name.replace(/[^\w.-]/g, '_').replace(/\.log$/, '')}.${command}.txt`;
    link.click();
    setTimeout(() => URL.revokeObjectURL(link.href), 10000);
  }

  takeIn() {
    at('file').addEventListener('change', event => this.openFile(event.target.files[0]).then(() => { event.target.value = ''; }));
    at('pasted').addEventListener('input', event => this.openText('what you typed', event.target.value));
    document.addEventListener('paste', event => this.paste(event));
    for (const kind of ['dragenter', 'dragover']) document.addEventListener(kind, event => {
      event.preventDefault();
      document.body.classList.add('over');
    });
    document.addEventListener('dragleave', event => event.relatedTarget || document.body.classList.remove('over'));
    document.addEventListener('drop', event => {
      event.preventDefault();
      document.body.classList.remove('over');
      if (event.dataTransfer.files.length) this.openFile(event.dataTransfer.files[0]);
      else this.openText('what you dropped', event.dataTransfer.getData('text/plain'));
    });
  }

  openText(name, text) {
    this.open(name, new TextEncoder().encode(text));
  }

  async openFile(file) {
    if (!file) return;
    try {
      this.open(file.name, new Uint8Array(await file.arrayBuffer()));
    } catch (fault) {
      this.fail(file.name, fault);
    }
  }

  // A text goes past the field where it is long: a field of many lines is slow.
  paste(event) {
    const { files } = event.clipboardData, text = event.clipboardData.getData('text/plain');
    if (files.length) this.openFile(files[0]);
    else if (!text) return;
    else if (event.target !== at('pasted') || text.length > 10000) this.openText('what you pasted', text);
    else return;
    event.preventDefault();
  }
}

decoder().then(found => new Page(found));
