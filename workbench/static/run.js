// The panes Run and Step: a run that nobody steers, and the page on which a run is stepped through.
import { $, ask, button, element, lastTab, show, trouble } from './tools.js';
import { goTo, program, showError } from './editor.js';

// The objects that wait for good or met an error, each with a button for its place in the program.
export function waitsList(waits, lines = Infinity) {
  const list = element('ul', 'waits');
  for (const it of waits) {
    const item = element('li', '', it.text);
    if (it.line && it.line <= lines) item.append(' ', button(`line ${it.line}`, () => goTo(it.line, it.column)));
    list.append(item);
  }
  return list;
}

// What is left at the end of a run: a heading, which tells of a deadlock if there is one, and the objects.
export function atTheEnd(waits, bad) {
  const dead = waits.find(it => it.text.startsWith('deadlock: '));
  const says = dead ? `D${dead.text.slice(1)}.` : bad ? 'At the end:' : 'Note:';
  return [element('p', 'bad', says), waitsList(waits.filter(it => it !== dead))];
}

export const details = (summary, text) => {
  const pre = element('pre', '', text);
  pre.tabIndex = 0;
  return element('details', '', element('summary', '', summary), pre);
};

// Shows why there is no answer. An error of the program is shown in its place, too.
export function refuse(out, told) {
  const says = trouble(told);
  out.replaceChildren(element('p', 'bad', told.error ? 'The program has an error: ' + says : says));
  if (told.error && told.error.input === 'program') {
    showError(told.error);
    out.append(button('show the place', () => goTo(told.error.line, told.error.column)));
  }
}

export const written = items => items.map(it => /^".*"$/.test(it) ? it.slice(1, -1) : it).join('\n');

let ran = '';
export const stale = () => { $('run-stale').hidden = ran === '' || ran === program(); };

export async function run() {
  const text = ran = program(), out = $('run-out'), seed = $('run-random').checked ? Number($('run-seed').value) : null;
  stale();
  out.setAttribute('aria-busy', 'true');
  const told = await ask('api/run', { program: text, nodes: Number($('run-nodes').value), seed });
  out.removeAttribute('aria-busy');
  if (!told.end) return refuse(out, told);
  const bad = told.waits.length > 0;
  const writes = element('pre', '', written(told.writes));
  writes.tabIndex = 0;
  out.replaceChildren(element('h3', '', 'written'), writes, element('p', 'says', told.says));
  if (bad) out.append(...atTheEnd(told.waits, told.status === 1 || told.waits.some(it => /waits for good/.test(it.text))));
  out.append(element('p', 'row', button('step through it', () => step({ program: text, placement: told.placement, schedule: told.schedule, title: 'a run' })),
    button('step through it, with each local step', () => step({ program: text, placement: told.placement, schedule: told.schedule, title: 'a run', each: true })),
    button('ask about all runs', () => show('ask', true))));
  if (!bad) out.append(element('p', 'dim', 'This is one run of many. With another order of events it may end otherwise, also in a deadlock: “ask about all runs” finds out.'));
  out.append(details('the record', told.record), details('the objects at the end', told.report), details('the placement', told.placement), details('the schedule', told.schedule));
}

// ---------------------------------------------------------------- step

let page = '';

// Shows the page of a run in the frame. The frame is a world of its own: it is handed the page, and reads nothing.
export function showPage(html, named, at = '') {
  page = html;
  $('step-none').hidden = true;
  $('step-head').hidden = false;
  const old = $('step-frame'), frame = old.cloneNode();
  frame.title = `${named}, step by step`;
  frame.hidden = false;
  frame.src = 'frame' + at;
  const hand = event => {
    if (event.source !== frame.contentWindow || event.data !== 'ready') return;
    removeEventListener('message', hand);
    frame.contentWindow.postMessage(page, '*');
    frame.focus();
  };
  addEventListener('message', hand);
  old.replaceWith(frame);
  show('step');
  if (matchMedia('(max-width: 800px)').matches) $('step-head').scrollIntoView();
}

export async function step(run, at = '') {
  const told = await ask('api/page', run);
  if (told.html) return showPage(told.html, run.title, at);
  $('step-none').hidden = false;
  refuse($('step-none'), told);
  show('step');
}

export function begin() {
  $('run-form').addEventListener('submit', event => { event.preventDefault(); run(); });
  $('run-seed').addEventListener('input', () => { $('run-random').checked = true; });
  $('step-back').addEventListener('click', () => show(lastTab(), true));
  $('step-save').addEventListener('click', () => {
    const a = element('a');
    a.href = URL.createObjectURL(new Blob([page], { type: 'text/html' }));
    a.download = 'run.html';
    a.click();
    setTimeout(() => URL.revokeObjectURL(a.href), 1000);
  });
}
