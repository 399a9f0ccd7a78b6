// What a page from elsewhere tries, with the address of an office, the batch of its first keying, and how often it tries each. Its value
// is a list: of each way what it is, the id of its keying, and the text that it could read.
(async ({office, batch, turns}) => {
  const wait = (seconds) => new Promise((done) => setTimeout(() => done(''), 1000 * seconds));
  const made = (name, fields) => Object.assign(document.createElement(name), fields);
  const work = `${office}/clerks/4/work`;
  const read = async (address, options) => (await fetch(address, {credentials: 'include', ...options})).text();
  const key = (options) => (target, body) => read(target, {method: 'POST', headers: {'Content-Type': 'text/plain'}, body, ...options});
  const framed = async (fields, act = () => {}) => {
    const frame = made('iframe', fields);
    document.body.append(frame);
    act(frame);
    await wait(2);
    return frame.contentDocument ? frame.contentDocument.body.innerText : '';
  };
  const opened = async () => {
    const other = open(`${office}/clerks/4/`);
    await wait(2);
    try { return other.document.body.innerText; } finally { other.close(); }
  };
  const form = (target, body) => framed({name: `answers${Math.random()}`}, ({name}) => {
    const [front, rest] = body.split('"id":');
    const it = made('form', {method: 'POST', enctype: 'text/plain', action: target, target: name});
    it.append(made('input', {name: `${front}"id":"`, value: `","id":${rest}`}));
    document.body.append(it);
    it.submit();
  });
  const ways = {
    'a POST of text/plain (fetch, no-cors)': key({mode: 'no-cors'}),
    'a POST of text/plain (fetch)': key({}),
    'a POST of text/plain (sendBeacon)': async (target, body) => { navigator.sendBeacon(target, body); return wait(2); },
    'a form of text/plain': form,
    'the work (fetch)': () => read(work),
    'the work in a frame': () => framed({src: work}),
    'the page in a window': opened,
  };
  const tries = [];
  for (const [number, [what, way]] of Object.entries(ways).entries()) {
    const id = `f${batch + number}`;
    let text = '';
    for (let turn = 0; turn < turns && !text; turn += 1) {
      const body = `{"round":1,"papers":["1,2,"],"id":"${id}"}`;
      try { text = String(await Promise.race([way(`${office}/clerks/4/batches/${batch + number}/keying`, body), wait(60)])); } catch { }
    }
    tries.push([what, id, text]);
  }
  return tries;
})(SETTING)
