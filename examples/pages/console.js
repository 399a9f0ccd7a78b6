// Plays of the officer's console, for `tools/check script`, which gives the page as standard input.
'use strict';

const assert = require('node:assert/strict');
const {Window, all, play, run} = require('../../tools/office_tools/page_window.js');

const WARD = {batches: 2, candidates: 2, differing: 0, doubtful_open: 0, elected: [], name: 'Harbour', phase: 'keying', seats: 1, stages: 0,
  taken: 2, ward: 7};
const PAIR = [{candidate: 1, name: 'Ann'}, {candidate: 2, name: 'Bob <b>'}];
const TAKEN = {clerks: [{clerk: 4, keyed: true}, {clerk: 9, keyed: true}], doubtful_open: 0, round: 1, size: 5, standing: 'taken'};
const batch = (number, twin = 0) => ({...TAKEN, batch: number, twin});

// A window that shows the console of an office with one ward. Orders are answered in turn, with what each prints.
const RECORD_ASKED = JSON.stringify({files: {}, words: ['record']});

class Console extends Window {
  constructor(page, office, {storage} = {}) {
    const all = {ward: {}, batches: [], doubtful: [], receipts: [], next: {step: 'seal'}, orders: [], record: 'no second record\n', ...office};
    super(page, all, {url: 'http://127.0.0.1:8080/office/', storage});
    this.looks = 0;
  }

  // The console asks for the second record in between; only `looks` counts that.
  async fetched(target, options) {
    if (options.body !== RECORD_ASKED) return super.fetched(target, options);
    this.looks += 1;
    const says = {errors: '', output: this.office.record, status: 0};
    return {status: 200, text: async () => JSON.stringify(says)};
  }

  answer(method, target) {
    const {batches, doubtful, receipts, next, orders} = this.office, ward = {...WARD, ...this.office.ward};
    const reads = {
      wards: {receipts: receipts.length, wards: [ward]},
      'wards/7': {candidates: PAIR, next, papers_agreed: 10, papers_given_out: 10, ward},
      'wards/7/batches': {batches, ward: 7}, 'wards/7/doubtful': {candidates: PAIR, papers: doubtful, ward: 7}, receipts: {receipts},
    };
    if (target !== '/office/orders') return {status: 200, says: reads[target.slice(8)] ?? assert.fail(`the console asks for ${target}`)};
    const [output, errors = '', status = errors ? 1 : 0] = orders.shift() ?? assert.fail('an order too many is sent');
    return output === null ? null : {status: 200, says: {errors, output, status}};
  }

  prepare(window, storage) {
    super.prepare(window, storage);
    const dialog = window.HTMLDialogElement.prototype;
    dialog.showModal = function showModal() { this.open = true; };
    dialog.close = function close() { this.open = false; this.dispatchEvent(new window.Event('close')); };
    Object.assign(window, {TextEncoder, scrollTo: () => {}});
    Object.defineProperty(window.document, 'hidden', {value: false});
    // What is downloaded: the name and the text of each file.
    const saved = this.saved = [];
    window.Blob = class { constructor(parts) { this.text = parts.join(''); } };
    Object.assign(window.URL, {createObjectURL: ({text}) => `blob:${text}`, revokeObjectURL: () => {}});
    window.HTMLAnchorElement.prototype.click = function click() { saved.push([this.download, decodeURI(this.href).replace('blob:', '')]); };
  }

  has(key) { return all(this.document, '[data-key]').find((it) => it.dataset.key === key && !it.closest('[hidden]')); }
  found(key) { return this.has(key) ?? super.found(key); }
  value(key) { return this.found(key).value; }

  // Clicks a button, and answers the question whether it is meant.
  order(key, wanted) { return this.click(key).press(['y'], wanted); }

  type(key, text, wanted) {
    Object.assign(this.found(key), {value: text}).dispatchEvent(new this.window.Event('input', {bubbles: true}));
    return this.settle(wanted);
  }

  question() { return this.at('ask').open ? `${this.text('ask-title')} ${this.text('ask-text')}` : ''; }
  report() { return this.at('mending').querySelector('pre').textContent; }
  warning(part) { return this.at(part).querySelector('.warning')?.textContent; }
  bodies() { return this.asked.filter(({method}) => method === 'POST').map(({body}) => body); }

  // The words of the orders that were sent. An id is written as ID.
  sent() { return this.bodies().map((body) => JSON.parse(body.replace(/\bc-[a-z0-9]+-[a-z]{2}\b/g, 'ID')).words); }
}

// What `sheet` and `table` print of a ward of which no stage is counted yet.
const READ = [['Ward 7 Harbour\nSeats 1, valid 2, quota 2.00000\nRejected 1: 0, 2: 0, 3: 0, 4: 0, 5: 0\n'],
  ['candidate,name\n1,Ann\n2,Bob <b>\n']];
const [FIRST, ADDED, REJECTED, WARD_7, KEYED, ACCEPTED, LATER] = [
  [0, 'a1', 'ward 7 stage 1 first preferences', 'advance 7'], [0, 'c1', 'candidate 1 of ward 7 added', 'candidate 7 1'],
  [0, 'v2', 'batch 13 paper 6 rejected 4', 'judge 13 6'], [0, 'w1', 'ward 7 added', 'ward 7'],
  [4, 'v2', 'batch 13 round 1 keyed', 'key 13 1'], [0, 'v3', 'batch 13 paper 6 accepted', 'judge 13 6'],
  [9, 'k9', 'batch 13 round 1 keyed', 'key 13 1'],
].map(([actor, id, reply, subject]) => ({actor, id, reply, subject}));
const RECEIPTS = [FIRST, ADDED, REJECTED, WARD_7, KEYED], NEW_RECEIPTS = [ADDED, WARD_7, ACCEPTED, LATER];
const JOURNAL = 'ward 7 1 "--id w1" --id w1\ncandidate 7 1 --id=c1 -- "-Ann  \u00e9"\nkey 4 13 1 --id v2 D\njudge 13 6 reject:4 --id v2\n';
const REPORT = 'replaced v2, judge 13 6: by v3\nleft out a1, advance 7: ward 7 changed before it\n- ward 7 sealed: Harbour  <b>\n'
  + 'mended: 3 orders kept, 1 replaced, 1 left out\n';

// A window in which a verdict is to be replaced, and a keying left out.
const mending = {open: (page, ...orders) => Console.open(page, {receipts: [...RECEIPTS], orders: [[JOURNAL], ...orders]})
  .click(['tab journal', 'right v2', 'replace v2'], {'value rest v2': 'reject:4'}).type('rest v2', 'accept:,1')
  // Nobody keys in a teller's place.
  .click('right 4:v2', {'has replace 4:v2': undefined}).type('mended-name', 'town-5.db')};
// A window in which a new office was made, and another one with the same changes can take the place of the served one.
const goingOver = {open: async (page, ...orders) => {
  const window = await mending.open(page, [REPORT], ...orders).order('make-mended');
  window.storage.setItem('console copy', JSON.stringify({at: 1, name: 'copy.db'}));
  return window;
}};
const NOT_MENDED = 'not mended: 0 orders can be replaced, not just one: ward 7\n';
const MENDED = ['mend', 'town-5.db', '--with=judge --id ID 13 6 accept:,1', '--without=4:v2'];

const RECORD = 'second record: /media/stick/town.script, last line 21:04:07 UTC, room for at least 16 MB\n';

const PLAYS = {
  'a ward is sealed once read back': play(Console, [{batches: [batch(12), batch(15)], orders: [['ward 7 sealed\n']]}], async (window) => {
    await window.pass(3, {steps: /All batches agreed, all doubtful papers judged: seal the ward/}).click('tab count');
    await window.type('expected-seal', '10', {'count-now': /All expected papers were given out: 10/});
    await window.click('seal', {question: /^Seal Ward 7 Harbour\?(?![^]*(same papers|Some checks failed))/, sent: []});
    await window.click('ask-no', {question: '', sent: []});
    await window.order('seal', {sent: [['seal', '--id', 'ID', '--', '7']], result: /Done: seal ward 7/});
    assert.deepEqual(window.office.orders, []);
  }),
  'the head says where the second record is, and warns': play(Console, [{record: RECORD}], async (window) => {
    window.sees({recorded: 'Second record: /media/stick/town.script, last line 21:04:07 UTC, room for at least 16 MB.', 'recorded className': ''});
    assert.equal(window.looks, 1);
    window.office.record = `${RECORD}warning: it is on the same disk as the office\nit failed\n`;
    await window.pass(30, {'recorded className': ''});
    await window.pass(40, {recorded: /at least 16 MB\. Warning: it is on the same disk as the office\. It failed\.$/, 'recorded className': 'down'});
    await window.click('tab journal', {copies: /No copy made from this browser yet.*Second record: \/media.*It failed\./});
    window.office.record = 'no second record\n';
    await window.pass(60, {recorded: 'No second record.', 'recorded className': ''});
    assert.ok(window.looks <= 4, 'it is asked for too often');
  }),
  'batches with the same papers are named before their ward is sealed': play(Console, [
    {batches: [batch(12, 15), batch(15, 12), batch(16), batch(18, 12), batch(20, 31)], ward: {batches: 5, taken: 5}}], async (window) => {
    const named = /Batches 12, 15 and 18 have the same papers. Batches 20 and 31 have the same papers/;
    await window.pass(3, {steps: named}).click('step count 7', {sent: [], 'warning count-now': named});
    await window.type('expected-seal', '25').click('seal', {question: named, 'ask-yes': 'Seal anyway (Y)'});
    window.sees({question: /^(?![^]*Some checks failed)[^]*its papers count twice/});
  }),
  'orders read back are put right in a new office, and its report is shown as it is': play(mending, [[REPORT]], async (window) => {
    const wishes = /judge 13 6 \(batch 13 paper 6 rejected 4\): replaced by judge 13 6 accept:,1Teller 4, v2: key 13 1/;
    await window.click('make-mended', {question: new RegExp(`^Make the new office town-5\\.db\\? .*${wishes.source}`)});
    await window.click('ask-no', {sent: [['journal']]});
    await window.order('make-mended', {sent: [['journal'], MENDED], mending: /New office: town-5\.db/, report: REPORT});
    window.sees({'warning mending': undefined});
    // An order that is accepted later isn't in the new office. The report stays after a reload.
    window.office.receipts.push(LATER);
    await window.pass(3, {mending: /lacks what was accepted here since it was made: 1 order\./});
    const later = window.another({receipts: window.office.receipts}).click('tab journal', {report: REPORT});
    await later.click(['close-mended', 'forget-wishes'], {mending: '', sent: []});
  }),
  'an order is replaced as it was': play(Console, [{receipts: RECEIPTS, orders: [[JOURNAL], ['', NOT_MENDED]]}], async (window) => {
    await window.click(['tab journal', 'right w1', 'replace w1'], {'value rest w1': '1 "--id w1"'});
    await window.click(['right c1', 'replace c1'], {'value rest c1': '-- "-Ann  \u00e9"'});
    // A stage can't be replaced.
    await window.click('right a1', {'has replace a1': undefined}).type('mended-name', 'town-5.db').order('make-mended');
    const replaced = ['--with=ward --id ID 7 1 "--id w1"', '--with=candidate --id ID 7 1 -- "-Ann  \u00e9"'];
    window.sees({sent: [['journal'], ['mend', 'town-5.db', ...replaced, '--without=a1']],
      mending: /Not made: town-5\.db/, result: /No office was made/, report: NOT_MENDED});
  }),
  'no office is made under a name that isn\u2019t one, or with an order that is missing': play(mending, [], async (window) => {
    for (const [key, text] of [['mended-name', 'a/b.db'], ['mended-name', '-b.db'], ['mended-name', ''], ['rest v2', ' ']]) {
      const value = window.value(key);
      await window.type(key, text).click('make-mended', {question: '', sent: [['journal']], result: /No office was made/}).type(key, value);
    }
  }),
  'a report that ends in a fault is shown whole': play(mending, [[REPORT, 'fault 110: copy failed\n', 3]], async (window) => {
    await window.order('make-mended');
    window.sees({mending: /New office, with a fault: town-5\.db/, report: `${REPORT}fault 110: copy failed\n`,
      result: /^Not done: make the new office town-5\.db\.fault 110: copy failed(?![^]*parts of the order)/});
  }),
  'an office whose report was lost is made again': play(mending, [[null], ['', 'fault 109: destination exists\n', 3]], async (window) => {
    await window.order('make-mended', {unsent: /Not confirmed yet: make the new office town-5\.db/});
    await window.pass(2, {mending: /If the reply to this order was lost before, the office may have been made then/});
    const [, first, second] = window.bodies();
    assert.deepEqual([window.sent(), first], [[['journal'], MENDED, MENDED], second], 'the same order is sent again');
  }),
  'the office goes over to a new one, with the words of the report, and the console waits': play(goingOver, [[REPORT]], async (window) => {
    window.office.receipts.push(LATER);
    await window.pass(30, {mending: /since it was made: 1 order\. Go over to it includes it/});
    const asked = /judge 13 6 accept:,1Left out: 4:v2.*nothing they sent is lost.*isn\u2019t served any more/;
    await window.click('go-over', {question: new RegExp(`^Go over to the new office town-5-2\\.db\\? .*${asked.source}`)});
    await window.click('ask-no', {sent: [['journal'], MENDED]});
    window.office.first = [null, {status: 503, says: {fault: 113}}];
    await window.order('go-over', {result: /^Going over to town-5-2\.db/, health: /waiting for the new office/});
    const [, made, switched] = window.bodies();
    assert.equal(switched, made.replace('mend', 'switch').replace('town-5.db', 'town-5-2.db'));
    // The old office still answers, and then the new one.
    await window.pass(30, {result: /^Going over/, mending: /^Put right in a new officeGoing over: town-5-2\.db/});
    window.office.receipts = NEW_RECEIPTS;
    await window.pass(30, {mending: /The office is now: town-5-2\.db/, report: REPORT, health: /^Updated/, 'other hidden': true,
      result: /^The office is now town-5-2\.db\.What belonged .* discarded: the time of the last copy, /, 'has go-over': undefined});
    assert.equal(window.storage.getItem('console copy'), null);
    window.office.receipts = NEW_RECEIPTS.slice(0, 2);
    await window.pass(30, {'other hidden': false});
  }),
  'a switch that failed is sent once': play(goingOver, [['', 'fault 110: copy failed\n', 3], [null]], async (window) => {
    await window.order('go-over', {result: /^Not done: go over/,
      mending: /The office didn\u2019t go over: town-5-2\.db.*fault 110: copy failed\n.*This office is as it was/});
    await window.type('next-name', 'a/b.db').click('go-over', {question: '', result: /The office didn\u2019t go over/});
    await window.type('next-name', 'town-6.db');
    await window.order('go-over', {result: /^It isn\u2019t known whether the office went over to town-6\.db/, 'unsent hidden': true,
      mending: /the office went over if a file of the same name with -moved/});
    const later = window.another({receipts: window.office.receipts}).pass(30);
    await later.click('tab journal', {sent: [], mending: /It isn\u2019t known/, 'other hidden': true});
    await window.another({receipts: NEW_RECEIPTS}).sees({result: /^The office is now town-6\.db/, 'other hidden': true});
  }),
  'the results are published once read back, with ballots only if asked': play(Console, [{ward: {phase: 'sealed'},
    orders: [['published 1 wards, 7 files\n'], [null], ['', 'fault 109: copy is there already\n', 3]]}], async (window) => {
    const asked = /^Publish the results\? Folder: results-\S+, next to .*Title: TownWithout ballotsWard: 7Not declared yet: ward 7\./;
    await window.click('tab journal').type('title publication', 'Town').click('publish', {question: asked}).click('ask-no', {sent: []});
    await window.order('publish', {result: /^Done: publish the results in results-\S+\.published 1 wards, 7 files/});
    await window.click(['publish-ballots', 'publish'], {question: /With the ballots of each ward/});
    await window.press(['y'], {unsent: /Not confirmed yet: publish/});
    // If the reply was lost, the folder is there when the order is sent again.
    await window.pass(2, {result: /^Done: publish .*results already published/});
    const [first, second, again] = window.sent();
    assert.deepEqual([first.slice(2), second.slice(2), again], [['--title=Town'], ['--title=Town', '--ballots'], second]);
  }),
  'the forms of a ward are offered where they are needed, and saved as the office prints them': async (page) => {
    const ward = {phase: 'keying', batches: 2, taken: 2, doubtful_open: 1};
    const doubtful = [{batch: 12, code: 0, marks: '', paper: 3, preferences: [], verdict: 'open'}];
    const next = {decides: 'exclusion', stage: 2, step: 'lot', tied: [1, 2]};
    for (const [part, form, parts, before = []] of [
      ['batches', 'covers', {ward, batches: [batch(12), batch(15)]}], ['doubtful', 'adjudication', {ward, doubtful}],
      ['count', 'lots', {ward: {phase: 'sealed', seats: 1}, next}, READ],
      ['count', 'declaration', {ward: {phase: 'declared', elected: [1]}, next: {step: 'nothing'}}, READ],
    ]) {
      const window = await Console.open(page, {...parts, orders: [...before, [`<html>${form}</html>`]]});
      await window.click([`tab ${part}`, `form ${form}`]);
      assert.deepEqual([window.sent().at(-1), window.saved], [['forms', form, '7'], [[`${form}-7.html`, `<html>${form}</html>`]]]);
    }
    // No form of nothing is offered.
    const none = {'has form covers': undefined, 'has form adjudication': undefined};
    await Console.open(page, {ward: {batches: 0, taken: 0}}).click('tab batches', none).click('tab doubtful', none);
  },
};

const PLANTED = {
  'an order is sent without a question': ['if (isSure) await orderWithId(`seal ward', 'await orderWithId(`seal ward'],
  'the seal is offered without a warning of equal batches': ['twinsWarning(checks), made(', 'made('],
  'equal batches aren\u2019t read back before the seal': ['twinsWarning(checks), checks.isWhole', 'checks.isWhole'],
  'a new office is made without a question': ['  if (!isSure) return undefined;\n  const options', '  const options'],
  'a replaced order is left out': ['it.isReplaced ? `--with=', 'it.isReplaced === 0 ? `--with='],
  'a teller\u2019s order is named as the office\u2019s': ['(actor ? `${actor}:${id}` : id)', '(id)'],
  'a keying can be replaced': ['const REPLACEABLE = {', 'const REPLACEABLE = {\n  key: \'\','],
  'the report loses its first line': ['shownName(output + errors)', 'shownName(output.slice(output.indexOf(\'\\n\') + 1) + errors)'],
  'the report isn\u2019t shown after a reload': ['if (/^(mend|switch)$/.test(order.words[0])) storeMended(order, printed);', ''],
  'what was accepted since isn\u2019t named': ['return counts ? office.receipts -', 'return counts && -'],
  'a name in quotes is taken apart': ['/(?:"[^"]*"|\'[^\']*\'|[^\\s"\'])+/g', '/\\S+/g'],
  'the lost report isn\u2019t named': ['explainedError(errors).fault === 109', 'explainedError(errors).fault === 110'],
  'the office goes over without a question': ['return isSure ? order(`go over', 'return true ? order(`go over'],
  'the officer is asked about the new office': ['if (switched) acceptSwitch(switched); else if (!isGoingOver())', 'if (true)'],
  'the old office is taken for the new one': ['return lacks && receipts.length', 'return receipts.length'],
  'a switch is sent twice': ['words[0] === \'switch\' && isUnknown(answer)', 'words[0] === \'switches\' && isUnknown(answer)'],
  'the switch has other words': ['[\'switch\', next, ...options]', '[\'switch\', next, ...options.slice(1)]'],
  'the form of another ward is downloaded': ['\'text/html\', \'forms\', form, ward)', '\'text/html\', \'forms\', form, 1)'],
  'covers are offered without batches': ['batches.length ? formButton(', 'true ? formButton('],
  'the second record is looked at once': ['Date.now() - recording.at < RECORD_AFTER', 'recording.lines.length'],
  'a warning about the second record looks like any line': ['recording.lines.length > 1 ?', 'recording.lines.length > 9 ?'],
  'the results are published without a question': ['if (isSure) await order(`publish', 'await order(`publish'],
  'ballots are published unasked': ['...(withBallots ? [\'--ballots\'] : [])', '\'--ballots\''],
  'a publication is taken for refused if its reply was lost': ['publish: \'results already published\\n\'', ''],
  'of three equal batches two are named': ['[...groups.get(first) ?? [], batch, twin]', '[batch, twin]'],
};

run('console', PLAYS, PLANTED);
