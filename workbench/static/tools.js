// What the parts of the page share: elements, requests to the server, tabs.
export const $ = id => document.getElementById(id);

// An element with a class and what is in it: texts and elements. A text is never read as HTML.
export function element(tag, cls, ...parts) {
  const e = document.createElement(tag);
  if (cls) e.className = cls;
  e.append(...parts.filter(it => it !== undefined && it !== null));
  return e;
}

export function button(text, act, cls) {
  const e = element('button', cls, text);
  e.type = 'button';
  e.addEventListener('click', act);
  return e;
}

export const kept = {
  get(key, other = '') { try { return localStorage.getItem('pool.' + key) ?? other; } catch { return other; } },
  set(key, value) { try { localStorage.setItem('pool.' + key, value); } catch { /* nothing is kept in this browser */ } },
};

// Asks the server. The answer has one of: what was asked for; `refused`, `limit`, `trouble`: a sentence; `error`: a fault of the program.
// Where the answer comes in lines, each line of counts is handed to `counts`. Where the server is busy, it is asked again.
export async function ask(path, body, more) {
  busy(path, 1);
  try { return await request(path, body, more); } finally { busy(path, -1); }
}

// Says that the server works, if its answer takes a while. It is not said of the check after each pause in typing.
let asked = 0, soon = 0;
function busy(path, by) {
  if (path === 'api/check' || path === 'api/setting') return;
  asked += by;
  clearTimeout(soon);
  if (!asked) $('busy').hidden = true;
  else soon = setTimeout(() => { $('busy').hidden = !asked; }, 400);
}

async function request(path, body, { counts, signal } = {}) {
  for (let times = 0; ; times++) {
    let told;
    try {
      const response = await fetch(path, body === undefined ? { signal } : { method: 'POST', signal, headers: { 'Content-Type': 'application/json' }, body: JSON.stringify(body) });
      if (response.status === 503 && times < 3) {
        counts?.('the workbench is busy, and is asked again');
        await new Promise(done => setTimeout(done, 1500 + 1500 * Math.random()));
        continue;
      }
      told = (response.headers.get('Content-Type') || '').includes('x-ndjson') ? await lines(response, counts) : await response.json();
    } catch (e) {
      if (signal?.aborted) return { stopped: true };
      return { refused: 'The server does not answer. Is the workbench still running?' };
    }
    return told;
  }
}

async function lines(response, counts) {
  const reader = response.body.getReader(), decoder = new TextDecoder();
  let rest = '', last = { refused: 'The answer is not complete.' };
  for (;;) {
    const { done, value } = await reader.read();
    rest += done ? decoder.decode() : decoder.decode(value, { stream: true });
    const found = rest.split('\n');
    rest = found.pop();
    for (const line of found) {
      if (!line) continue;
      const told = JSON.parse(line);
      if ('counts' in told) { if (told.counts) counts?.(told.counts); } else last = told;
    }
    if (done) return last;
  }
}

// The sentence of an answer that is none of those that were hoped for; nothing where it is one.
export function trouble(told) {
  if (told.error) return `line ${told.error.line}, column ${told.error.column}: ${told.error.sentence}`;
  return told.refused || told.limit || told.trouble || (told.stopped ? 'Stopped.' : '');
}

const tabs = () => [...document.querySelectorAll('#tabs [role=tab]')];

// the pane that was open before Step
let last = 'run';
export const lastTab = () => last;

export function show(name, focus = false) {
  if (shownTab() !== 'step') last = shownTab();
  document.body.dataset.tab = name;
  for (const tab of tabs()) {
    const chosen = tab.id === 'tab-' + name;
    tab.setAttribute('aria-selected', chosen);
    tab.tabIndex = chosen ? 0 : -1;
    $(tab.getAttribute('aria-controls')).hidden = !chosen;
    if (chosen && focus) tab.focus();
  }
}

export const shownTab = () => tabs().find(it => it.getAttribute('aria-selected') === 'true').id.slice(4);

export function beginTabs() {
  for (const tab of tabs()) tab.addEventListener('click', () => show(tab.id.slice(4)));
  $('tabs').addEventListener('keydown', event => {
    const all = tabs(), at = all.findIndex(it => it.id === 'tab-' + shownTab());
    const to = { ArrowRight: at + 1, ArrowLeft: at - 1, Home: 0, End: all.length - 1 }[event.key];
    if (to === undefined) return;
    event.preventDefault();
    show(all[(to + all.length) % all.length].id.slice(4), true);
  });
}

export function fill(select, sizes, chosen) {
  for (const size of sizes) select.append(new Option(size, size, size === chosen, size === chosen));
}

export async function copy(text, field) {
  try { await navigator.clipboard.writeText(text); return true; } catch { /* this address is not a safe one for the browser */ }
  field.focus();
  field.select();
  try { return document.execCommand('copy'); } catch { return false; }
}
