// Plays of the screen in the hall, for `tools/check script`, which gives the page as standard input, and wards in a file.
'use strict';

const assert = require('node:assert/strict');
const {readFileSync} = require('node:fs');
const {NAMES, Window, all, play, run} = require('../../tools/office_tools/page_window.js');

const TITLE = 'Election of 6 May 2027, Harbour Council';

// Wards as `tools/check script` counts them, with the texts that the program prints: in ward 7 a surplus and the last seat; in ward 8 a lot
// at stage 2, and at stage 4 a tie that stage 1 settles; ward 9 without a poll; ward 7 with names that look like markup; and made-up wards.
const COUNTS = JSON.parse(readFileSync(process.argv[2], 'utf8'));
const [harbour, town, quay, markup] = COUNTS.map((count) => (phase, stages = 0) => ({count, phase, stages}));

// A window that shows the screen of an office whose wards may change: each has its count, its phase, and how many stages are counted.
class Screen extends Window {
  constructor(page, ...wards) { super(page, {wards}, {url: 'http://127.0.0.1:8080/screen'}); }

  static open(page, ...wards) { return super.open(page, ...wards).pass(1); }

  answer(method, target) {
    const {wards} = this.office, [, number, what] = /^\/wards\/(\d+)\/(sheet|result)$/.exec(target) ?? [];
    const listed = wards.map(({count, phase, stages}) => ({name: count.name, phase, stages, ward: count.ward}));
    if (target === '/screen/wards') return {status: 200, says: {title: TITLE, wards: listed}};
    const ward = wards.find(({count}) => count.ward === Number(number));
    if (!ward || !(what === 'sheet' ? ['sealed', 'declared'] : ['declared']).includes(ward.phase)) return {status: 409, says: {refusal: 9}};
    return {status: 200, says: what === 'sheet' ? ward.count.sheets[ward.stages] : ward.count.declaration};
  }

  // Waits until the screen shows something else. Returns for how many seconds it didn't.
  async next() {
    const before = this.shown();
    let seconds = 0;
    for (; this.shown() === before; seconds += 1) await (seconds < 200 ? this.pass(1) : assert.fail(`${before} is shown for ever`));
    return seconds;
  }

  // What is shown, in short: the ward, or the list; and the stage, who is elected, or the state of the ward.
  shown() {
    const name = this.text('which') || 'nothing', view = this.at('view');
    const stage = /^Stage \d+/.exec(view.querySelector('#what')?.textContent ?? '');
    return `${name}: ${stage ?? (view.querySelector('#people') ? 'elected' : view.querySelector('.large p')?.textContent ?? 'list')}`;
  }

  rows() {
    const cells = ['number', 'name', 'votes', 'change', 'standing'];
    return all(this.at('bars'), 'li').map((row) => cells.map((it) => row.querySelector(`.${it}`).textContent));
  }

  // Returns what is shown in some turns, and for how many seconds; after that the next one is shown.
  async turns(count) {
    const found = [];
    for (let turn = 0; turn < count; turn += 1) found.push(`${this.shown()} ${await this.next()}`);
    return found;
  }

  bars() { return all(this.at('bars'), 'li .bar').map((bar) => `${Math.round(parseFloat(bar.style.width))}`); }
  notes() { return this.texts('what', 'p'); }

  async until(words, wanted = {}) {
    for (let turn = 0; turn < 60 && !this.shown().includes(words); turn += 1) await this.next();
    assert.ok(this.shown().includes(words), `${words} is never shown`);
    return this.sees(wanted);
  }
}

const PLAYS = {
  'before the seal only name and phase are asked for': play(Screen, [harbour('keying'), town('nominations')], async (window) => {
    await window.until('Ward 7 Harbour: Votes are being entered', {view: 'Votes are being entered', title: TITLE});
    await window.until('Ward 8 Old Town: Nominations are open').pass(60);
    const asked = window.asked.map((it) => [it.method, it.target, it.credentials, it.redirect, it.cache].join(' '));
    assert.deepEqual([...new Set(asked)], ['GET /screen/wards omit error no-store'], 'no code is sent, and no sheet is asked for');
  }),
  'a sealed ward shows its figures, and each stage as the sheet has it': play(Screen, [harbour('sealed')], async (window) => {
    const [ward] = window.office.wards;
    window.sees({shown: 'Ward 7 Harbour: The papers are sealed', view: /Seats2Valid papers9Rejected papers0Quota4\.00000/});
    for (const [rows, notes, bars] of [
      [[['6.00000', '', 'Elected'], ['1.00000', '', ''], ['2.00000', '', '']], ['Elected: 1 Ann'], ['98', '16', '33']],
      [[['4.00000', '\u22122.00000', 'Elected stage 1'], ['2.33332', '+1.33332', ''], ['2.66666', '+0.66666', '']], [], ['65', '38', '44']],
      [[['4.00000', '', 'Elected stage 1'], ['2.33332', '', 'Excluded'], ['2.66666', '', 'Elected']],
        ['Elected: 3 Cy', 'All seats are filled. The declaration follows.'], ['65', '38', '44']],
    ]) {
      await window.until(`Stage ${ward.stages += 1}`);
      window.sees({rows: rows.map((row, place) => [String(place + 1), ward.count.names[place], ...row]), notes, bars});
    }
    window.sees({what: /Stage 3: 2 Bob is excluded, and the last seats are filled/,
      figures: /^Seats 2Valid papers 9Rejected papers 0Quota 4\.00000Non-transferable 0\.00000Lost by/});
    const lines = all(window.document, '.quota').map((it) => Math.round(parseFloat(it.style.left)));
    assert.deepEqual(lines, [65, 65, 65, 65], 'the line is at the quota');
  }),
  'a tie is settled by an earlier stage or by lot, and a lot that is due is said': play(Screen, [town('sealed', 1)], async (window) => {
    const [ward] = window.office.wards;
    window.sees({notes: ['4 Dee and 5 Eve are tied at every stage. A lot decides who is excluded.']});
    for (const [stages, notes] of [[2, ['There was a tie between 4 Dee and 5 Eve at every stage. It was settled by lot.']], [3, []],
      [4, ['There was a tie between 2 Bob and 3 Cy. The votes at stage 1 settled it.', 'Elected: 1 Ann',
        'All seats are filled. The declaration follows.']]]) {
      ward.stages = stages;
      await window.until(`Stage ${stages}`, {notes});
    }
    assert.deepEqual(window.rows().map((it) => it.at(-1)), ['Elected', 'Not elected', 'Excluded', 'Excluded stage 2', 'Excluded stage 3']);
  }),
  'in made-up wards the ties that no stage settles are those of which lots were drawn': play(Screen, [], async (window) => {
    for (const {sheets, drawn} of COUNTS.slice(4)) {
      const found = window.window.eval(`(() => {
        const count = sheetIn(${JSON.stringify(sheets.at(-1))});
        const ties = count.stages.map((_, place) => [place + 2, tieAfter(count, count.stages.slice(0, place + 1))]);
        const lots = ties.filter(([, it]) => it?.settled === 0);
        return JSON.stringify(lots.map(([stage, it]) => [stage, it.tied.map((each) => each.candidate)]));
      })()`);
      assert.deepEqual(JSON.parse(found), drawn);
    }
  }),
  'a declared ward shows its last stage, and who is elected': play(Screen, [harbour('declared', 3)], async (window) => {
    assert.deepEqual(window.rows().map((it) => it[2]), ['6.00000', '1.00000', '2.00000']);
    const turns = ['Stage 1 5', 'Stage 2 6', 'Stage 3 6', 'elected 12', 'Stage 3 6'].map((it) => `Ward 7 Harbour: ${it}`);
    assert.deepEqual(await window.turns(5), turns);
    window.sees({people: ['1Annat stage 1', '3Cyat stage 3'], place: '1 of 1 ward declared'});
  }),
  'a ward without a poll shows its declaration, and how many seats stay empty': play(Screen, [quay('sealed')], async (window) => {
    window.sees({shown: 'Ward 9 Quay: No poll'});
    window.office.wards[0].phase = 'declared';
    await window.until('elected', {view: /Elected1Ina2JoThere was no poll: .*1 seat stays empty/});
  }),
  'the last state stays while the office doesn\u2019t respond': play(Screen, [harbour('sealed', 2), town('keying')], async (window) => {
    await window.until('Stage 2', {'down hidden': true, changed: 'No change since 21:00'});
    const rows = window.rows();
    const faults = [null, {status: 503, says: {fault: 104}}, {status: 404, says: {error: 'not found'}}, {status: 200, says: 'no JSON'}];
    for (window.office.only of faults) {
      await window.pass(60, {down: /^Not connected since 21:0\d\. /, 'down hidden': false}).until('Stage 2', {rows});
      window.office.only = undefined;
      await window.pass(6, {'down hidden': true});
    }
    window.sees({changed: 'No change since 21:00'});
    window.office.wards[0].stages = 3;
    await window.pass(6);
    await window.sees({changed: `Last change at ${window.text('clock')}`}).until('Stage 3');
  }),
  'wards take turns in a steady rhythm': play(Screen, [harbour('declared', 3), town('keying'), quay('nominations')], async (window) => {
    await window.until('Ward 9 Quay');
    const round = ['Ward 9 Quay: Nominations are open 6', 'All wards: list 12', 'Ward 7 Harbour: Stage 3 6', 'Ward 7 Harbour: elected 12',
      'Ward 8 Old Town: Votes are being entered 6'];
    assert.deepEqual(await window.turns(10), [...round, ...round]);
  }),
  'a ward with a new stage comes next': play(Screen, [harbour('sealed', 1), town('sealed', 1), quay('keying')], async (window) => {
    for (const words of ['Ward 7', 'Ward 8', 'Ward 9', 'list']) await window.until(words);
    window.office.wards[1].stages = 3;
    await window.next();
    assert.deepEqual(await window.turns(6), ['Ward 8 Old Town: Stage 1 6', 'Ward 8 Old Town: Stage 2 6', 'Ward 8 Old Town: Stage 3 12',
      'Ward 7 Harbour: Stage 1 12', 'Ward 8 Old Town: Stage 3 12', 'Ward 9 Quay: Votes are being entered 6']);
  }),
  'keys choose the ward and the stage, and hold them': play(Screen, [harbour('sealed', 3), town('sealed', 2)], async (window) => {
    await window.until('Ward 7 Harbour: Stage 3');
    for (const [key, words, held] of [
      ['ArrowUp', 'Ward 7 Harbour: Stage 2', true], ['ArrowUp', 'Ward 7 Harbour: Stage 1', true],
      ['ArrowUp', 'Ward 7 Harbour: Stage 1', true], ['ArrowDown', 'Ward 7 Harbour: Stage 2', true],
      [' ', 'Ward 7 Harbour: Stage 2', false], ['ArrowRight', 'Ward 8 Old Town: Stage 1', false],
      ['ArrowLeft', 'Ward 7 Harbour: Stage 3', false], ['PageUp', 'All wards: list', false],
      ['PageDown', 'Ward 7 Harbour: Stage 3', false], [' ', 'Ward 7 Harbour: Stage 3', true], ['x', 'Ward 7 Harbour: Stage 3', true]]) {
      await window.press([key], {shown: words, 'keys hidden': !held});
    }
    // A held ward stays, and shows what is new; a held stage stays.
    await window.pass(120, {shown: 'Ward 7 Harbour: Stage 3'});
    window.office.wards[0].phase = 'declared';
    await window.until('Ward 7 Harbour: elected').pass(120, {shown: 'Ward 7 Harbour: elected'}).press(['ArrowUp']);
    await window.pass(120, {shown: 'Ward 7 Harbour: Stage 3'});
  }),
  'names are shown whole and as they are, and none is markup': play(Screen, [markup('declared', 3)], async (window) => {
    assert.deepEqual(window.rows().map(([, name]) => name), NAMES);
    await window.until('elected', {which: 'Ward 7 Old Town <i>&', people: [`1${NAMES[0]}at stage 1`, `3${NAMES[2]}at stage 3`]});
    assert.ok(all(window.document, 'bdi').every(({children}) => children.length === 0));
  }),
  'another office at the same address is shown as it is': play(Screen, [harbour('declared', 3), town('sealed', 4)], async (window) => {
    await window.until('Ward 7 Harbour: elected').until('Ward 8 Old Town: Stage 4');
    window.office.wards = [harbour('keying'), quay('declared')];
    await window.pass(6);
    for (let turn = 0; turn < 6; turn += 1) {
      assert.doesNotMatch(window.shown(), /Old Town|Harbour: (Stage|elected)/, 'what is gone is shown');
      await window.next();
    }
    await window.until('Ward 9 Quay: elected');
    window.office.wards = [];
    await window.pass(6, {view: 'There are no wards yet'});
  }),
};

const PLANTED = {
  'the sheet of a ward in keying is asked for': ['isKnown ? office.wards.filter(isCounted) : []', 'isKnown ? office.wards : []'],
  'a code is sent': ['credentials: \'omit\'', 'credentials: \'same-origin\''],
  'an excluded candidate is shown as elected': ['letter === \'x\' ? \'Excluded\'', 'letter === \'X\' ? \'Excluded\''],
  'the votes of another stage are shown': ['for (const it of stages[part - 1].rows)', 'for (const it of stages.at(-1).rows)'],
  'the bar of another stage is shown': ['shareOf(it.units, most)', 'shareOf(votesAt(stages[0], it.candidate), most)'],
  'the line isn\u2019t at the quota': ['line.style.left = shareOf(units, most);', 'line.style.left = shareOf(most, most);'],
  'a lot is passed over': ['due?.settled === 0', 'due?.settled === 1'],
  'a tie that a stage settled is shown as a lot': ['if (settled) return', 'if (settled > 9) return'],
  'who isn\u2019t elected is named': ['{candidate: Number(candidate), name}', '{candidate: Number(candidate), name: \'Bob\'}'],
  'the screen says nothing while the office is down': ['office.isDown = !isKnown;', ''],
  'the last state is lost while the office is down': ['if (isKnown) takeWards(text);', 'takeWards(text ?? \'{"wards":[]}\');'],
  'it doesn\u2019t look again': ['setTimeout(keepLooking, 1000 * BETWEEN);', ''],
  'what is new waits for its turn': [': office.wards.find(hasNews);', ': undefined;'],
  'a held ward goes away': ['else if (shown.hold) shown.left = LONG;', ''],
  'a held stage goes away': ['if (shown.hold === \'part\') shown.left = LONG;\n  else if', 'if'],
  'a ward in keying is shown as sealed': ['if (!isCounted(ward)) return drawLarge', 'if (!ward) return drawLarge'],
  'a name is markup': ['made(\'bdi\', {}, shownName(name))', 'made(\'bdi\', {innerHTML: name})'],
  'a name is cut': ['name.replace(TURNING, \'\')', 'name.slice(0, 12).replace(TURNING, \'\')'],
  'each look is a change': ['else if (office.text !== text) office.changed = now;', 'else office.changed = now;'],
  'the script ends in an error': ['at(\'clock\').textContent', 'at(\'clocks\').textContent'],
};

run('screen', PLAYS, PLANTED);
