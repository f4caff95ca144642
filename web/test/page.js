// The page in a headless Chromium, opened from disk: plays the marked session by clicks and compares every figure with crates/session/stdout, steps through rehearsed hands and
// compares the whole screen with crates/screen/stdout, saves and drops session files, and makes the pictures of the README.
//   node web/test/page.js [--pictures]
'use strict';
const fs = require('fs');
const path = require('path');
const Browser = require('./browser.js');
const { smaller } = require('./png.js');
const Engine = require('../engine.js');
const Gallery = require('../gallery.js');
const Script = require('../script.js');
const Session = require('../session.js');
const Words = require('../words.js');

const root = path.resolve(__dirname, '../..');
const at = (...names) => path.join(root, ...names);
let checks = 0;
function same(found, expected, what) {
  checks += 1;
  if (JSON.stringify(found) !== JSON.stringify(expected)) throw new Error(`${what}: the page shows ${JSON.stringify(found)}, expected is ${JSON.stringify(expected)}`);
}

let b;
const number = async (selector) => Number((await b.text(selector)).replace(/,/g, ''));
const rehearse = (name) => b.click(`[data-hand="${Gallery.findIndex((g) => g.name === name)}"]`);

// ---- what the page shows

async function figures() {
  return [await number('#number'), await number('#figure-tray'), await number('#figure-layout'), await number('#figure-purses'), await number('#figure-left')];
}

const letters = (faces) => faces.map((f) => 'A23456789TJQK'[f % 13] + 'abcd'[Math.floor(f / 13)]).join('');
const names = ['buy', 'cash', 'stake', 'pair', 'sevens', 'more', 'less', 'insure', 'stand', 'draw', 'double', 'split', 'surrender', 'even', 'five'];

// The drawing of crates/screen, made of what stands on the page: a line for the round, one for each seat, the rows, the guest who called and the cashier.
async function drawing(guest) {
  const round = await b.ask(`({
    number: Number(document.querySelector('#number').textContent),
    seats: document.querySelectorAll('.seat').length,
    closed: !!document.querySelector('.lines'),
    bank: [...document.querySelectorAll('#bank-cards .card')].map((c) => c.dataset.face),
    turn: [...document.querySelectorAll('.hand.turn')].map((h) => [h.closest('.seat').dataset.select, h.dataset.place]),
    rows: [...document.querySelectorAll('#rows li:not(.none)')].map((r) => [r.querySelector('span').textContent, [...r.querySelectorAll('.mini')].map((m) => Number(m.dataset.face)), r.querySelector('b').textContent]),
    beyond: document.querySelector('#beyond').textContent,
  })`);
  const lines = [];
  // Behind a close the page still shows the paid round; the table has no bank's hand then.
  const bank = round.closed ? [] : round.bank.map(Number);
  const turn = round.turn.length ? `turn of seat ${round.turn[0][0]} hand ${round.turn[0][1]}` : 'nobody’s turn';
  lines.push(`cards left ${await number('#figure-left')}, bank shows ${bank.length ? letters(bank) : 'nothing'}, ${turn}`);
  for (let seat = 0; seat < round.seats; seat += 1) {
    await b.click(`.tabs [data-select="${seat}"]`);
    const lit = await b.ask(`[0, 1, 2].map((p) => [...document.querySelectorAll('.guest[data-position="' + p + '"] .field.lit')].map((f) => f.textContent))`);
    lines.push(`seat ${seat} |` + lit.map((of) => names.filter((n) => of.includes(n)).map((n) => ' ' + n).join('')).join(' |'));
  }
  round.rows.forEach(([who, faces, total], i) => lines.push(`row ${i + 1}: ${who.replace(' ·', '')} ${letters(faces)} ${total}`));
  lines.push(`hands beyond ${round.beyond}`);
  if (round.seats) {
    await b.click(`.tabs [data-select="${guest.seat}"]`);
    const own = await b.ask(`Object.fromEntries([...document.querySelectorAll('.guest[data-position="${guest.position}"] [data-figure]')].map((d) => [d.dataset.figure, d.textContent.replace(/,/g, '')]))`);
    lines.push(`display of seat ${guest.seat} guest ${guest.position}: purse ${own.purse}, stake ${own.stake}, insurance ${own.insurance}, layout ${own.layout}, prizes ${own.prizes}`);
  }
  lines.push(`cashier: tray ${await number('#figure-tray')}, layout ${await number('#figure-layout')}, purses ${await number('#figure-purses')}`);
  return { number: round.number, lines };
}

// The same of the file, whose hands of a display the page shows as cards alone.
function drawings() {
  const parts = [];
  for (const line of fs.readFileSync(at('crates/screen/stdout'), 'utf8').trimEnd().split('\n')) {
    if (!line.startsWith('  ')) {
      const call = line.match(/^(.*): (\d+)$/);
      if (call) parts[parts.length - 1].steps.push({ words: call[1], number: Number(call[2]), lines: [] });
      else parts.push({ heading: line, steps: [] });
      continue;
    }
    const steps = parts[parts.length - 1].steps;
    steps[steps.length - 1].lines.push(line.trim().replace(', hands ' + (line.match(/, hands (\d+)/) || [])[1], '').replace('nobody\'s', 'nobody’s'));
  }
  return parts;
}

// ---- the parts of the test

async function amount(n) {
  await b.click('#clear');
  for (const chip of [5000, 1000, 500, 100, 50, 20, 10, 5, 2, 1]) {
    for (; n >= chip; n -= chip) await b.click(`[data-chip="${chip}"]`);
  }
}

// Document 01's session, call by call, each a click.
async function markedSession() {
  const [, opened, ...rows] = fs.readFileSync(at('crates/session/stdout'), 'utf8').trimEnd().split('\n').map((line) => line.split(' '));
  const figuresOf = (row) => row.slice(1).map(Number);
  await b.click('#new');
  await b.click('[data-preset="The marked session"]');
  await b.click('#open');
  same(await figures(), figuresOf(opened), 'open');
  const field = (kind) => `#display .guest[data-position="0"] [data-kind="${kind}"]`;
  const house = (kind) => `#house-fields [data-kind="${kind}"]`;
  const touches = {
    fill: [house(1), 1000], buy: [field(3), 100], stake: [field(5), 20], deal: [house(6)], insure: [field(7), 10], split: [field(11)], double: [field(10)], stand: [field(8)], close: [house(15)],
  };
  for (const row of rows) {
    const [touch, much] = touches[row[0]];
    if (much) await amount(much);
    await b.click('.tabs [data-select="2"]');
    await b.click(touch);
    same(await figures(), figuresOf(row), row[0]);
  }
  same(await b.text('.said .why'), 'refused: no round is dealt', 'the refusal in words');
  return rows;
}

async function rehearsedScreens() {
  const [sevens, seven, broken] = drawings();
  const show = async (name, from, part, guests) => {
    await rehearse(name);
    await b.click('#first');
    for (let i = 0; i < from; i += 1) await b.click('#next');
    for (const [i, step] of part.steps.entries()) {
      if (i || from) await b.click('#next');
      same(await drawing(guests(i)), { number: step.number, lines: step.lines }, `${name}, ${step.words}`);
    }
  };
  await show('Four split sevens', 33, sevens, (i) => ({ seat: sevens.steps[i].lines.join().match(/display of seat (\d)/)[1], position: 0 }));
  await show('Seven hands', 14, seven, (i) => ({ seat: seven.steps[i].lines.join().match(/display of seat (\d)/)[1], position: seven.steps[i].lines.join().match(/guest (\d)/)[1] }));
  await rehearse('A table that no opening gave');
  await b.click('#first');
  same((await drawing({})).lines, broken.steps[0].lines.filter((l) => !l.startsWith('display')), 'the broken table');
}

// The four sevens are one click away, and what is left of the hand is played by touching the felt.
async function fourSevens() {
  await rehearse('Four split sevens');
  const hands = await b.ask(`[...document.querySelectorAll('.seat[data-select="2"] .hand')].map((h) => [h.querySelectorAll('.card').length, h.querySelector('.total').textContent, h.querySelector('.wager').textContent, h.querySelector('.how').textContent])`);
  same(hands, [[2, '10', '20', 'stands'], [3, '21', '40', 'doubled'], [2, '17', '20', ''], [2, '9', '20', '']], 'four split sevens');
  same(await number('#figure-left'), 1, 'the shoe is on its last card');
  await b.click('.seat[data-select="2"] .seat-fields [data-kind="8"]');
  await b.click('.seat[data-select="2"] .seat-fields [data-kind="8"]');
  await b.click('#house-fields [data-kind="15"]');
  same(await b.ask(`[...document.querySelectorAll('.lines .net')].map((n) => n.textContent)`), ['−20', '+40', '−20', '−20'], 'pay lines');
  same(await figures(), [0, 5020, 0, 580, 0], 'close');
}

async function hiddenCard() {
  const king = 25;
  const seen = () => b.ask(`document.querySelectorAll('main [data-face="${king}"], main [href="#card-${king}"]').length + (document.querySelector('main').textContent.includes('K of hearts') ? 1 : 0)`);
  await rehearse('The box');
  await b.click('#first');
  for (let i = 1; i <= 6; i += 1) {
    await b.click('#next');
    same(await seen(), 0, 'the box’s hidden card before close, call ' + i);
  }
  same(await b.ask(`[...document.querySelectorAll('#bank-cards .card')].map((c) => c.dataset.face)`), ['13', 'back'], 'the up card and a back');
  await b.click('#next');
  same((await seen()) > 0, true, 'the king at close');
}

async function prizeBack() {
  await rehearse('A void takes a prize back');
  same(await figures(), [0, 1940, 20, 140, 47], 'a prize of 60');
  await b.click('#house-fields [data-kind="16"]');
  same(await figures(), [0, 2000, 0, 100, 47], 'a void takes it back');
}

// Every rehearsed hand to its end: what its words call refused is, and nothing else.
async function wholeGallery() {
  for (const hand of Gallery) {
    if (hand.name === 'The marked session') continue;
    await rehearse(hand.name);
    await b.click('#first');
    const steps = await b.ask(`(() => {
      const steps = [];
      for (const next = document.querySelector('#next'); !next.disabled; ) {
        next.click();
        steps.push([Number(document.querySelector('#number').textContent), document.querySelector('.aloud').textContent]);
      }
      return steps;
    })()`);
    for (const [number_, words] of steps) same(number_ !== 0, words.startsWith('Refused'), hand.name + ': ' + words);
  }
}

async function sessionFiles(rows) {
  const marked = fs.readFileSync(at('crates/record/stdout'));
  const put = (name, bytes) => {
    const file = path.join(b.room, name);
    fs.writeFileSync(file, bytes);
    return file;
  };

  // Saved behind the marked session it is the file that the program `record` writes.
  await b.click('#new');
  await b.click('[data-preset="The marked session"]');
  await b.click('#open');
  await markedSession();
  await b.send('Browser.setDownloadBehavior', { behavior: 'allow', downloadPath: b.room });
  await b.click('#save');
  const saved = path.join(b.room, 'session.discgauze');
  for (let i = 0; i < 200 && !fs.existsSync(saved); i += 1) await new Promise((go) => setTimeout(go, 25));
  same(fs.readFileSync(saved).equals(marked), true, 'the saved session is the file of crates/record');

  // Dropped, it is stepped through call by call.
  await b.drop([put('marked.discgauze', marked)]);
  await b.until(`document.querySelector('#place').textContent === 'call 0'`, 'the dropped file');
  for (const row of rows.filter((r) => r[1] === '0')) {
    await b.click('#next');
    same(await figures(), row.slice(1).map(Number), 'from the file: ' + row[0]);
  }
  await b.click('#next');
  same(await b.ask(`document.querySelector('#next').disabled`), true, 'the end of the file');
  await b.click('#back');
  same(await b.text('#place'), 'call 7 of 8', 'one back');

  // A refused file says its number in words and changes nothing.
  const check = (block) => block.writeUInt32LE(block.subarray(0, 508).reduce((sum, byte, i) => sum + byte * (i + 1), 0), 508);
  const altered = Buffer.from(marked);
  altered[700] += 1;
  const unknown = Buffer.from(marked);
  unknown[513] = 22;
  check(unknown.subarray(512, 1024));
  for (const [name, bytes, expected] of [['short', marked.subarray(0, 1000), '24 '], ['empty', Buffer.alloc(0), '24 '], ['altered', altered, '25 '], ['unknown', unknown, '26 ']]) {
    await b.drop([put(name + '.discgauze', bytes)]);
    await b.until(`document.querySelector('.said').textContent.includes('${name}.discgauze is refused')`, 'the refusal of ' + name);
    same((await b.text('.said')).slice(0, 3), expected, 'the number of ' + name);
    same(await b.text('#place'), 'call 7 of 8', 'the session stays');
  }

  // Nor is the file that is being stepped through lost by it.
  await b.drop([path.join(b.room, 'marked.discgauze')]);
  await b.until(`document.querySelector('#place').textContent === 'call 0'`, 'the dropped file');
  await b.click('#next');
  await b.drop([path.join(b.room, 'short.discgauze')]);
  await b.until(`document.querySelector('.said').textContent.includes('short.discgauze is refused')`, 'the refusal');
  await b.click('#next');
  same(await figures(), rows[1].slice(1).map(Number), 'the next call behind a refused file');

  // The file input takes one as well.
  const { root: page } = await b.send('DOM.getDocument');
  const { nodeId } = await b.send('DOM.querySelector', { nodeId: page.nodeId, selector: '#file' });
  await b.send('DOM.setFileInputFiles', { nodeId, files: [path.join(b.room, 'marked.discgauze')] });
  await b.until(`document.querySelector('#place').textContent === 'call 0'`, 'the chosen file');
  await b.click('#last');
  same(await figures(), [0, 860, 0, 240, 43], 'the end of the chosen file');
}

// The other ways to open: a house that is out of range is refused in the dialog; a shuffled box can be opened, dealt and loaded.
async function openings() {
  await b.click('#new');
  await b.ask(`document.querySelector('#options [name="smallest"]').value = '3'`);
  await b.click('#open');
  same(await b.text('#opening-refused'), '2 an option is outside its range', 'an odd smallest stake');
  await b.click('[data-preset="Metal box"]');
  await b.click('#open');
  await amount(5000);
  await b.click('#house-fields [data-kind="1"]');
  await b.click('.tabs [data-select="3"]');
  await b.click('#display .guest[data-position="0"] [data-kind="3"]');
  await amount(20);
  await b.click('.seat[data-select="3"] .spot.lit');
  same(await number('#figure-layout'), 20, 'a stake by touching its place');
  await b.click('#house-fields [data-kind="6"]');
  same(await number('#number'), 0, 'deal');
  await b.click('#house-fields [data-kind="16"]');
  await b.click('.seat[data-select="3"] .spot.lit');
  await b.click('#house-fields [data-kind="6"]');
  same(await b.text('.said .why'), 'refused: a load is due, or too few cards are left before the cut', 'a box before its load');
  await b.click('#house-fields [data-kind="17"]');
  await b.click('#load');
  same(await figures(), [0, 5000, 20, 4980, 52], 'load');
  await b.click('#house-fields [data-kind="6"]');
  same(await number('#figure-left'), 47, 'deal behind the load');
}

// Any fields, lit and dark, touched at random, beside a session of the same calls without a page: the page never shows another figure. The dice are the same in every run.
async function anyTouches(many) {
  let seed = 20041;
  const below = (n) => {
    seed = (Math.imul(seed, 1103515245) + 12345) >>> 0;
    return (seed >>> 8) % n;
  };
  const engine = await Engine.start(fs.readFileSync(at('target/wasm/discgauze.wasm')));
  const session = new Session(engine);
  const house = { seats: 6, decks: 1, first: 1, later: 0, hands: 4, aces: 0, double: 1, limit: 0, insurance: 1, five: 0, prize: 1, device: 1, decider: 1, cut: 0, smallest: 2, largest: 100 };
  session.open(house, Script.begun(Script.cards('51 6 5 19 32 9 45 22 3'), 1));
  await b.click('#new');
  await b.click('[data-preset="The marked session"]');
  await b.click('#open');
  const kinds = new Set();
  for (let i = 0; i < many; i += 1) {
    const much = i === 0 ? 20000 : [2, 10, 20, 20, 100][below(5)];
    if (i < 2 || below(3) === 0) await amount(much);
    const amounts = BigInt((await b.ask(`document.querySelector('#amount').value`)).replace(/,/g, ''));
    await b.click(`.tabs [data-select="${below(6)}"]`);
    // A lit field of the felt or of the house that goes on with the round, mostly; else any field, lit or dark.
    const on = ['.seat-fields .lit', '#house-fields .lit[data-kind="15"]', '#house-fields .lit[data-kind="6"]'][below(3)];
    const lit = below(4) > 0 ? '.lit' : '';
    const any = `main .field${lit}:not([data-kind="17"]), #house-fields .field${lit}:not([data-kind="17"]):not([data-kind="16"]):not([data-kind="2"])`;
    const going = below(4) > 0 && (await b.ask(`!!document.querySelector(${JSON.stringify(on)})`));
    const choice = i === 0 ? '#house-fields [data-kind="1"]' : going ? on : any;
    const place = below(1000);
    const touched = await b.ask(`(() => {
      const all = [...document.querySelectorAll(${JSON.stringify(choice)})];
      document.querySelectorAll('.touched').forEach((n) => n.classList.remove('touched'));
      const one = all[${place} % all.length];
      one.classList.add('touched');
      return { kind: Number(one.dataset.kind), seat: Number(one.dataset.seat), position: Number(one.dataset.position) };
    })()`);
    await b.click('.touched');
    const of = Words.calls[touched.kind];
    const step = session.play({ kind: touched.kind, seat: of.seat ? touched.seat : 0, position: of.seat ? touched.position : 0, amount: of.amount ? amounts : 0n });
    const shown = engine.shownTable(step.table);
    const expected = [step.number, Number(shown.tray), Number(shown.layout), Number(shown.purses), shown.left];
    same(await figures(), expected, `touch ${i}, ${Words.callWords(step.call)}`);
    kinds.add(step.number === 0 ? of.name : step.number);
    const seat = Number(await b.ask(`document.querySelector('.tabs .selected').dataset.select`));
    const own = engine.shownSeat(step.table, seat, 0);
    same(await b.ask(`[...document.querySelectorAll('.guest[data-position="0"] .figure:not(.side) dd')].map((d) => d.textContent.replace(/,/g, ''))`), [own.purse, own.stake, own.insurance, own.layout, own.prizes].map(String), 'the seat display');
  }
  same(['buy', 'stake', 'deal', 'stand', 'close'].every((name) => kinds.has(name)) && kinds.size > 10, true, 'that the touches are many: ' + [...kinds].join(' '));
}

// Every number of a refusal has words.
function numbersInWords() {
  for (let n = 0; n < 30; n += 1) same(typeof Words.numbers[n], 'string', 'the number ' + n);
  same(typeof Words.numbers[255], 'string', 'the number 255');
}

async function pictures() {
  fs.mkdirSync(at('docs/images'), { recursive: true });
  const take = async (name) => {
    await b.send('Input.dispatchMouseEvent', { type: 'mouseMoved', x: 620, y: 70 });
    const file = at('docs/images', name + '.png');
    await b.picture(file);
    fs.writeFileSync(file, smaller(fs.readFileSync(file)));
    same(fs.statSync(file).size < 300000, true, name + ' is small');
  };
  await b.size(1440, 900);
  await rehearse('Four split sevens');
  await take('four-sevens');
  await rehearse('Three guests on one seat');
  await b.click('#last');
  await take('three-guests');
  await rehearse('Nine seats, 27 guests');
  await take('full-table');
  await rehearse('The box');
  await take('box');
}

async function main() {
  const page = at('target/page/index.html');
  if (!fs.existsSync(page)) throw new Error('there is no target/page: make page builds it');
  b = await Browser.start(process.env.CHROMIUM || 'chromium');
  try {
    await b.open(page, 1440, 900);
    const rows = await markedSession();
    await rehearsedScreens();
    await fourSevens();
    await hiddenCard();
    await prizeBack();
    await wholeGallery();
    await sessionFiles(rows);
    await openings();
    await anyTouches(160);
    numbersInWords();
    if (process.argv.includes('--pictures')) await pictures();
    same(b.problems, [], 'faults on the page');
  } finally {
    await b.stop();
  }
  console.log(`page: ${checks} comparisons, all the same`);
}

main().catch((error) => {
  console.error('page: ' + error.message);
  process.exit(1);
});
