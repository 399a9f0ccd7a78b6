// Plays of the page on which clerks key, for `tools/check script`, which gives the page as standard input.
'use strict';

const assert = require('node:assert/strict');
const {NAMES, Window, all, play, run, settled} = require('../../tools/office_tools/page_window.js');

// A window that shows the page on which a clerk keys. Its office has work, perhaps an earlier keying, and answers to keyings, in turn.
class Clerk extends Window {
  constructor(page, office, {clerk = 4, batch = '', storage} = {}) {
    super(page, {work: WORK, answers: [], ...office}, {url: `http://127.0.0.1:8080/clerks/${clerk}/${batch}`, storage});
  }

  answer(method, target) {
    const {work, keyed, answers} = this.office;
    if (method === 'POST') return answers.shift();
    if (target === '/clerks/4/work') return {status: 200, says: {clerk: 4, work}};
    if (target === '/clerks/4/batches/12/keyed') return {status: keyed ? 200 : 404, says: keyed ?? {error: 'not found'}};
    return {status: 200, says: target === '/clerks/4/batches/12/candidates' ? CANDIDATES : {left: true}};
  }

  drafts() { return Object.values(this.storage).map((text) => JSON.parse(text)); }
  papers() { return this.drafts().map(({rows}) => rows.map(({text}) => text)); }
  isKept() { return /has kept it|is kept\b/.test(this.text('said')); }
  sent() { return this.asked.filter(({method}) => method === 'POST').map(({target, body}) => ({target, ...JSON.parse(body)})); }
}

const OPEN = {batch: 12, columns: [1, 2, 3], keyed: false, round: 1, size: 3, ward: 7};
const WORK = [OPEN, {...OPEN, batch: 13, keyed: true, size: 2}];
const CANDIDATES = {batch: 12, candidates: NAMES.map((name, place) => ({candidate: place + 1, name})), name: 'Old Town <i>&', ward: 7};
const kept = (batch, round = 1) => ({status: 200, says: {reply: `batch ${batch} round ${round} keyed`}});
const REFUSED = {status: 409, says: {refusal: 17, text: 'wrong number of papers'}};
const FAILED = {status: 503, says: {fault: 101}};
const DENIED = {status: 401, says: {error: 'unauthorized'}};
const TOO_MANY = {status: 429, says: {error: 'too many wrong codes'}};
const PAPERS = ['1,2,', ',,12', 'D'];
const KEYS = [['1', '2', 'Enter'], ['0', '0', '.', '1', '2', 'Enter'], ['d', 'Enter']];
const NAMED = 'ward 7 Old Town <i>&, round 1';
const SENT = `Batch 13: ${NAMED}, 2 papers. The office has your keying.`;
const ROUND_2 = [{...OPEN, round: 2}];

// What opens a window where keys were pressed: batch 12 is open, at its first paper; or all its papers are keyed, and nothing is sent.
const keyedAt = (keys, wanted) => ({open: (page, ...answers) => Clerk.open(page, {answers}).press(['Enter', 'Enter', ...keys], wanted)});
const begun = keyedAt([], {paper: 'Paper 1 of 3'});
const finished = keyedAt(KEYS.flat(), {'end hidden': false, sent: []});

// What a clerk sees of whom nothing was kept: the draft is there, and can be sent again, at once or by itself.
const notKept = (said, isRepeated) => ({said, isKept: false, papers: [PAPERS], 'send disabled': false, 'back disabled': isRepeated});

const PLAYS = {
  'a clerk without a code is told so, and lists his batches by a code': play(Clerk, [{first: [DENIED, TOO_MANY]}], async (window) => {
    for (const words of [/code is wrong, or none was sent/, /code is wrong, and very many wrong codes/]) {
      await window.sees({asked: words, list: []}).click('look');
    }
    window.sees({list: [`Batch 12 ${NAMED}, 3 papers.`, SENT], who: 'clerk 4'});
    assert.equal(window.document.title, 'Clerk 4: keying');
  }),
  'papers are sent once as keyed, and shown as kept; only its clerk\u2019s is asked for': play(finished, [kept(12)], async (window) => {
    await window.press('s').pass(120);
    const [{id, ...keying}, ...more] = window.sent();
    assert.deepEqual([keying, more], [{target: '/clerks/4/batches/12/keying', round: 1, papers: PAPERS}, []]);
    assert.match(id, /^page-12-1-[a-z0-9]{16}$/);
    await window.sees({said: /^The office has kept it: batch 12 round 1 keyed/, drafts: []}).click(['leave', 'go-away']);
    assert.match(window.document.body.textContent, /Clerk 4 has left/);
    const asked = window.asked.map(({method, target, redirect, cache}) => `${method} ${target} ${redirect} ${cache}`);
    const own = /^(GET \/clerks\/4\/(work|leave|batches\/12\/candidates)|POST \/clerks\/4\/batches\/12\/keying) error no-store$/;
    assert.deepEqual(asked.filter((it) => !own.test(it)), []);
  }),
  'a refused or denied keying stays, not shown as kept': play(finished, [REFUSED, DENIED, TOO_MANY, kept(12)], async (window) => {
    for (const words of [/refused it: wrong number of papers \(refused 17\)/, /code is wrong, or none was sent/, /very many wrong codes/]) {
      await window.press('s', notKept(words, false)).pass(120);
    }
    assert.equal(window.sent().length, 3, 'nothing of it is sent again by itself');
    await window.press('s', {said: /has kept it/});
  }),
  'a keying without an answer is sent again until there is one': play(finished, [FAILED, null, kept(13), REFUSED], async (window) => {
    await window.press('s');
    for (const seconds of [5, 10, 20]) {
      await window.sees(notKept(new RegExp(`sent again as it is every ${seconds} seconds`), true)).pass(seconds);
    }
    const [first, ...others] = window.sent();
    assert.deepEqual(others, [first, first, first], 'each sending is the same');
    window.sees(notKept(/refused it/, false));
    const later = await window.another({answers: [FAILED, kept(12)]}, {batch: '#12'}).press('s').pass(5, {said: /has kept it/, drafts: []});
    assert.deepEqual(later.sent().at(-1), first);
  }),
  'names are shown as they are, and none is markup': play(begun, [], async (window) => {
    assert.deepEqual(all(window.at('heads'), 'bdi').map(({textContent, children}) => [textContent, ...children]), NAMES.map((it) => [it]));
    const labels = NAMES.map((name, place) => `Paper 1, candidate ${place + 1} \u2068${name}\u2069`);
    assert.deepEqual(all(window.at('rows'), 'input').map(({ariaLabel}) => ariaLabel), labels, 'what a screen reader gets');
    await window.press('1', {which: 'Batch 12, round 1, ward 7 Old Town <i>&', cursor: `2 ${NAMES[1]}`});
  }),
  'the paper that is asked for is shown, and it is the one that is keyed': play(begun, [], async (window) => {
    await window.press([...KEYS[0], ...KEYS[1]]);
    for (const [keys, paper, marks, papers] of [
      [[], 3, ['', '', ''], ['1,2,', ',,12', ',,']], [['g', '1', 'Enter'], 1, ['1', '2', ''], ['1,2,', ',,12', ',,']],
      [['ArrowDown'], 2, ['', '', '12'], ['1,2,', ',,12', ',,']], [['ArrowUp', 'Delete', '3'], 1, ['3', '', ''], ['3,,', ',,12', ',,']],
      [['/', '3', '9', 'Enter', 'ArrowUp'], 1, ['3', '', '9'], ['3,,9', ',,12', ',,']],
      [['ArrowDown', 'Insert', 'd', 'Enter'], 3, ['', '', '12'], ['3,,9', 'D', ',,12']],
    ]) {
      await window.press(keys);
      const now = window.at('rows').querySelector('.now');
      assert.deepEqual([now.querySelector('th').textContent, ...all(now, 'input').map(({value}) => value)], [String(paper), ...marks]);
      assert.equal([...window.at('rows').rows].indexOf(now), 3, 'the current row is at the same height as ever');
      window.sees({paper: `Paper ${paper} of 3`, papers: [papers]});
    }
  }),
  'a key that isn\u2019t taken says why, and changes nothing': play(begun, [], async (window) => {
    for (const [keys, words, text, more] of [
      [['Enter'], /Nothing is keyed for paper 1/, ',,'], [['x'], /The key x means nothing here/, ',,'],
      [['ArrowLeft'], /Num Lock is off/, ',,', {code: 'Numpad4'}], [['1', 'Enter'], /Num Lock is off/, ',,', {repeat: true}],
      [['1', 'Tab', '2', 'End'], /isn\u2019t ended. Enter ends it/, '1,2,'], [['0', '4'], /at its end, and another key came/, '1,2,'],
      [['Enter'], /at its end, and another key came/, '1,2,'], [['Backspace', 'Backspace', '.', '0'], /A mark never begins with 0/, '1,2,'],
    ]) {
      await window.press(keys, {notice: words, paper: 'Paper 1 of 3', papers: [[text]]}, more);
    }
  }),
  'a clerk goes on where he was in a page loaded again; another one in that browser sees none of it': play(begun, [], async (before) => {
    await before.press([...KEYS[0], '0']);
    await before.another().sees({list: /1 keyed here/});
    const other = await before.another({only: {status: 200, says: {clerk: 9, work: WORK.slice(1), ...CANDIDATES}}}, {clerk: 9});
    other.sees({list: [SENT]});
    assert.deepEqual(other.asked.map(({target}) => target), ['/clerks/9/work', '/clerks/9/batches/13/candidates']);
    const window = await before.another({}, {batch: '#12'});
    before.window.dispatchEvent(new before.window.StorageEvent('storage', {key: 'keying 4 12 1'}));
    await settled();
    before.sees({asked: /Batch 12 was opened in another window/});
    await window.sees({paper: 'Paper 2 of 3'}).press([...KEYS[1].slice(1), ...KEYS[2]], {papers: [PAPERS]});
  }),
  'an earlier keying is gone through paper by paper, mended, and sent as the keying of the new round': play(Clerk, [
    {work: ROUND_2, keyed: {batch: 12, round: 1, papers: PAPERS}, answers: [kept(12, 2)]}], async (before) => {
    await before.press(['Enter', 'Enter', '3', 'Enter', 'Enter'], {}, {repeat: true});
    await before.press(['5'], {'start-title': /round 2/, notice: /as you keyed it in round 1/});
    for (const [keys, paper, lines, more] of [
      [['Enter'], 2, ['12 <img src=x onerror=alert(1)>']], [['Enter', 'Enter'], 2, ['12 <img src=x onerror=alert(1)>'], {repeat: true}],
      [['Backspace'], 1, ['1 Ann', `2 ${NAMES[1]}`]], [['Delete', '0', '1', 'ArrowDown'], 2, ['12 <img src=x onerror=alert(1)>']],
    ]) {
      await before.press(keys, {paper: `Paper ${paper} of 3`, 'read-marks': lines}, more);
    }
    const window = await before.another(before.office, {batch: '#12'}).press(['ArrowDown', 'Enter']);
    // Each paper must be looked at.
    await window.sees({paper: 'Paper 1 of 3', done: /^1 of 3 looked at/}).press(['Enter', 'Enter', 'Enter', 's']);
    const [{id, ...sent}] = window.sent();
    assert.deepEqual(sent, {target: '/clerks/4/batches/12/keying', round: 2, papers: [',1,', ...PAPERS.slice(1)]});
    assert.match(id, /^page-12-2-[a-z0-9]{16}$/);
    window.sees({summary: /Corrected: 1 paper, by number 1$/});
    assert.deepEqual(new Set([...before.asked, ...window.asked].map(({target}) => target.replace('/clerks/4/', ''))),
      new Set(['work', 'batches/12/candidates', 'batches/12/keyed', 'batches/12/keying']));
  }),
  'who has no earlier keying keys from the papers, and whoever can\u2019t have it is told so': async (page) => {
    for (const keyed of [undefined, {batch: 12, round: 2, papers: PAPERS}, {batch: 12, round: 1, papers: ['1,2,']}]) {
      const seen = keyed ? {asked: /can\u2019t be opened/} : {anew: /Key every paper again/};
      const window = await Clerk.open(page, {work: ROUND_2, keyed}).press(['Enter'], seen);
      assert.ok(window.at('through').closest('[hidden]'), 'nothing can be gone through');
    }
  },
  'a draft goes on after the number of papers was put right': play(begun, [], async (before) => {
    await before.press([...KEYS[0], ...KEYS[1]]);
    for (const [size, first, keys, then] of [
      [4, {notice: /The batch has 4 paper/}, ['Enter'], {notice: /Nothing is keyed for paper 3/}],
      [1, {notice: /The batch has 1 paper/}, ['End'], {notice: /2 papers are keyed here, and the batch has 1/}],
      [2, {'end hidden': false}, ['ArrowUp', 'End'], {'end-title': /2 papers keyed/}],
    ]) {
      const window = await before.another({work: [{...OPEN, size}]}, {batch: '#12'}).sees(first).press(keys, then);
      assert.deepEqual(window.papers()[0].slice(0, 2), PAPERS.slice(0, 2));
    }
  }),
  'the names of candidates have the room that the window has': play(begun, [], async (window) => {
    for (const [pixels, layout, rems] of [[1920, 'across', 16], [640, 'across', 10.167], [300, 'upright', 3.083], [80, 'upright', 1.75]]) {
      Object.defineProperty(window.document.body, 'clientWidth', {value: pixels, configurable: true});
      window.window.dispatchEvent(new window.window.Event('resize'));
      const table = window.at('table'), field = parseFloat(table.style.getPropertyValue('--field'));
      assert.deepEqual([table.className, Math.round(1000 * field) / 1000], [layout, rems], `${pixels} pixels`);
    }
  }),
  'the list follows the office by itself, and leaves the cursor where it is': play(Clerk, [], async (window) => {
    window.office.work = [{...OPEN, batch: 11}, ...WORK];
    await window.pass(30);
    assert.deepEqual([window.texts('list').length, window.document.activeElement.value], [3, '12']);
    for (window.office.only of [null, undefined]) {
      await window.pass(30);
      const isAsked = /office is not responding/.test(window.text('asked'));
      assert.deepEqual([isAsked, window.texts('list').length], [window.office.only === null, 3]);
    }
    const {length} = (await window.press(['Enter'])).asked;
    assert.equal((await window.pass(120)).asked.length, length, 'nothing is asked while a batch is open');
  }),
};

// What somebody tired or hostile might write in the page: a text that is there once, and what is written in its place.
const PLANTED = {
  'a refused keying is shown as kept': ['if (kept) return showKept(kept);', 'if (kept || refusal) return showKept(kept);'],
  'whatever is answered by 200 is kept': [' && answer.says?.reply === `batch ${batch} round ${round} keyed`', ''],
  'a keying that failed isn\u2019t sent again': ['timer = setTimeout(sendNow, 1000 * seconds);', ''],
  'each sending has an id of its own': ['sent.sent = true;\n', 'sent.sent = true;\n  sent.id = newId(sent.batch, sent.round);\n'],
  'a keying that may have been kept is changed': ['once.`, {sends: true, goesBack: false}', 'once.`, {sends: true, goesBack: true}'],
  'a draft is forgotten once it was sent': ['if (draft !== sent) return undefined;', 'forget(draftName(sent.batch, sent.round));'],
  'the drafts of all clerks are listed': ['name.startsWith(FRONT)', 'name.startsWith(\'keying\')'],
  'another paper is shown than the one asked for': ['draft.at = index;', 'draft.at = Math.max(index - 1, 0);'],
  'the marks of another paper are shown': ['const marks = row().text.split(\',\');', 'const marks = draft.rows[0].text.split(\',\');'],
  'a paper is sent twice, in place of another': ['papers: rows.map((it) => it.text)', 'papers: rows.map(() => rows[0].text)'],
  'a key that stays down is taken again': ['if (event.repeat && !key.startsWith(\'Arrow\')) return;', ''],
  'a mark behind the last candidate ends the paper': ['if (extra) return refuseBehind();', ''],
  'a name is markup': ['made(\'bdi\', {}, name)', 'made(\'bdi\', {innerHTML: name})'],
  'the name of another candidate is shown': ['name: shownName(names.get(number))', 'name: shownName(names.get(1))'],
  'the office is asked for another clerk\u2019s work': ['await ask(\'work\')', 'await ask(\'../9/work\')'],
  'an earlier keying is sent without a look at its papers': ['state: EARLIER, column', 'state: KEYED, column'],
  'what is mended isn\u2019t sent': ['papers: rows.map((it) => it.text)', 'papers: rows.map((it) => it.was ?? it.text)'],
  'an earlier keying is shown beside other names': ['isolated(candidates[column].name))]', 'isolated(candidates[0].name))]'],
  'the keying of another clerk is gone through': ['ask(`batches/${work.batch}/keyed`)', 'ask(`../9/batches/${work.batch}/keyed`)'],
  'a keying of this round is gone through': ['says.round < round', 'says.round <= round'],
  'a draft of too many papers is sent': ['rows.length === size && rows.every', 'rows.every'],
  'a draft keeps the size that its batch had': ['kept.size = size;', ''],
  'each name has the least room': ['Math.min(Math.max(room / candidates.length, 1.75), 16)', '1.75'],
  'the list stays as it was': ['timer = setTimeout(refresh, 1000 * REFRESH);', ''],
  'the list is asked for while a batch is open': ['clearTimeout(timer);\n  turns += 1;\n  const turn', 'turns += 1;\n  const turn'],
  'the script ends in an error': ['at(\'who\').textContent', 'at(\'whom\').textContent'],
};

run('clerks', PLAYS, PLANTED);
