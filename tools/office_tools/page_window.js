// The windows of jsdom in which `tools/check script` runs the script of a page. The plays of each page are in examples/pages/.
'use strict';

const assert = require('node:assert/strict');
const {readFileSync} = require('node:fs');
const {JSDOM, VirtualConsole} = require('jsdom');

process.env.TZ = 'UTC';

// What broke on a page outside a play.
let broken = null;
const note = (error) => { broken = error; };
process.on('unhandledRejection', note);
const noting = new VirtualConsole().on('jsdomError', note);

// Lets everything run that waits for nothing but its turn.
const settled = async () => { for (let turn = 0; turn < 12; turn += 1) await new Promise(setImmediate); };
const all = (element, selector) => [...element.querySelectorAll(selector)];

// Adds to what a step of a window returns the steps themselves: a play is read as rows of steps, each done after the one before it.
const STEPS = ['press', 'pass', 'click', 'order', 'type', 'until'];
const row = (window, done) => Object.assign(done, Object.fromEntries([...STEPS, 'sees'].map((step) => [
  step, (...words) => row(window, done.then(() => window[step](...words)))])));

// A window that shows a page of an office. `answer` responds to its requests: with a status and what the office says, or nothing if the
// line breaks. The responses that the office has as `first` are to what is read first; if it has `only`, that is every one.
class Window {
  constructor(page, office, {url, storage} = {}) {
    Object.assign(this, {page, office, timers: new Map(), now: 0, asked: []});
    const words = {url, runScripts: 'dangerously', virtualConsole: noting, beforeParse: (window) => this.prepare(window, storage)};
    const {window} = new JSDOM(page.replace(/<style>[^]*<\/style>/, ''), words);
    Object.assign(this, {window, document: window.document, storage: window.localStorage});
    for (const step of STEPS.filter((it) => this[it])) {
      const act = this[step].bind(this);
      this[step] = (...given) => row(this, act(...given));
    }
  }

  // Opens a window, and waits until its page has read what it reads first.
  static open(...words) {
    const window = new this(...words);
    return row(window, window.settle());
  }

  another(office, how) { return this.constructor.open(this.page, office, {...how, storage: this.storage}); }

  prepare(window, storage) {
    window.HTMLElement.prototype.scrollIntoView = () => {};
    if (storage) Object.defineProperty(window, 'localStorage', {value: storage});
    window.fetch = (address, options) => this.fetched(address.replace(window.location.origin, ''), options);
    window.setTimeout = (act, wait) => (wait ? this.timers.set(act, this.now + wait) && act : setImmediate(act));
    window.clearTimeout = (timer) => this.timers.delete(timer);
    window.Date.now = () => Date.UTC(2027, 4, 6, 21) + this.now;
  }

  async fetched(target, {method = 'GET', body, ...rest}) {
    this.asked.push({method, target, body, ...rest});
    const {first = [], only = method === 'GET' ? first.shift() : undefined} = this.office;
    const answer = only === undefined ? this.answer(method, target) : only;
    if (!answer) throw new TypeError('the line broke');
    const text = typeof answer.says === 'string' ? answer.says : JSON.stringify(answer.says);
    return {status: answer.status, text: async () => text, json: async () => JSON.parse(text)};
  }

  // Ends a step of a play: the page must show what is wanted then.
  async settle(wanted = {}) {
    await settled();
    return this.sees(wanted);
  }

  async pass(seconds, wanted) {
    for (const end = this.now + 1000 * seconds; this.now < end; await settled()) {
      this.now += 1000;
      for (const [act, at] of [...this.timers]) if (at <= this.now && this.timers.delete(act)) act();
    }
    return this.settle(wanted);
  }

  at(id) { return this.document.getElementById(id) ?? assert.fail(`the page has no ${id}`); }

  // Presses keys at whatever has the focus, with what a browser does by itself then. `more` is what else their events say.
  async press(keys, wanted, more = {}) {
    for (const key of keys) {
      const target = this.document.activeElement;
      const event = new this.window.KeyboardEvent('keydown', {key, bubbles: true, cancelable: true, ...more});
      const isOwn = target.dispatchEvent(event);
      if (isOwn && target.tagName === 'BUTTON' && key === 'Enter') target.click();
      if (isOwn && target.tagName === 'INPUT' && key.length === 1) target.value += key;
      await settled();
    }
    return this.settle(wanted);
  }

  found(id) { return this.at(id).closest('[hidden]') ? assert.fail(`${id} isn\u2019t shown`) : this.at(id); }

  async click(names, wanted) {
    for (const name of [names].flat()) {
      assert.ok(!this.found(name).disabled, `${name} is disabled`);
      this.found(name).click();
      await settled();
    }
    return this.settle(wanted);
  }

  text(id) { return this.at(id).textContent; }
  texts(id, selector = 'li') { return all(this.at(id), selector).map(({textContent}) => textContent); }

  // Checks what the page shows: each part by the method of this name, perhaps with a word, as `ID hidden` or `ID disabled`, or else as the
  // text of an element, or the texts of its items. A text may be given as a pattern.
  sees(wanted) {
    for (const [part, value] of Object.entries(wanted)) {
      const [id, ...rest] = part.split(' ');
      const found = typeof this[id] === 'function' ? this[id](rest.join(' ')) : rest.length ? this.at(id)[rest[0]]
        : Array.isArray(value) ? this.texts(part) : this.text(part);
      if (value instanceof RegExp) assert.match(found, value, part);
      else assert.deepEqual(found, value, part);
    }
    return this;
  }
}

// A play: what opens its window of the page, with which words, and what is done then.
const play = (kind, words, act) => async (page) => act(await kind.open(page, ...structuredClone(words)));

async function* faults(page, plays) {
  for (const [what, played] of Object.entries(plays)) {
    broken = null;
    await played(page).then(settled).catch(note);
    if (broken) yield `${what}: ${broken.message}`;
  }
}

// Runs plays on the page that is read from standard input, and then with each fault planted in it: a text that is there once, and what is
// written in its place. Prints a line for each thing that isn't as it must be, and ends with status 1 then.
const played = async (name, plays, planted) => {
  process.exitCode = 1;
  const page = readFileSync(0, 'utf8');
  const wrong = [];
  for await (const fault of faults(page, plays)) wrong.push(fault);
  for (const [what, [found, put]] of wrong.length ? [] : Object.entries(planted)) {
    const parts = page.split(found);
    if (parts.length !== 2) wrong.push(`a planted fault needs a text that stands once in the page: ${found}`);
    else if ((await faults(parts.join(put), plays).next()).done) wrong.push(`not noticed: ${what}`);
  }
  wrong.forEach((line) => console.error(`${name}: ${line}`));
  if (!wrong.length) console.log(`${name}: ${Object.keys(plays).length} plays, ${Object.keys(planted).length} planted faults noticed`);
  process.exitCode = wrong.length ? 1 : 0;
};
const run = (...words) => played(...words).catch((error) => console.error(error.message));

// Names that look like markup.
const NAMES = ['Ann', 'Bob & <b>Cy</b>', '<img src=x onerror=alert(1)>'];

module.exports = {NAMES, Window, all, play, run, settled};
