// The pane By hand: a person chooses each event. What is shown of it was written by `pool record` and `explore watch`.
import { $, ask, button, copy, element } from './tools.js';
import { program } from './editor.js';
import { atTheEnd, refuse, step, written } from './run.js';

let text = '', placement = null, schedule = null, last = null;

const SAYS = {
  finished: () => 'finished', local: () => 'local step', new: r => `creates ${r[0]}`, send: r => `calls ${r[0]} ${r[1]}`, async: r => `sends ${r[0]} ${r[1]}`, write: r => `writes ${r.join(' ')}`,
  answer: r => `at answer ${r.join(', ')}`, select: () => 'at select', return: r => `returns ${r[1]} to ${r[0]}`, waits: r => `waits for ${r[0]} ${r[1]}`, fault: r => `meets ${r[0]}`, faulted: r => `error ${r[0]}`,
};

// The last block of each object and the last line of each pair are the configuration.
function stateOf(watched) {
  const objects = new Map(), mails = new Map();
  let now = null, event = false;
  for (const line of watched.split('\n')) {
    const words = line.split(' ');
    if (words[0] === 'event') event = true;
    else if (words[0] === 'object') objects.set(words[1], now = { name: words[1], cls: words[2], vars: words.slice(3), does: [], levels: [], changed: event });
    else if (words[0] === 'at') now.does = words.slice(2);
    else if (['body', 'own', 'serve', 'take'].includes(words[0])) now.levels.push(line);
    else if (words[0] === 'mail') mails.set(`${words[1]} ${words[2]}`, line.split(' : ').slice(1));
  }
  return { objects, mails };
}

function card(it, mails) {
  const kind = it.does[0], rest = it.does.slice(1);
  const box = element('article', it.changed ? 'card changed' : 'card', element('h4', '', it.name, ' ', element('i', '', it.cls)), element('div', 'does ' + kind, (SAYS[kind] || (() => it.does.join(' ')))(rest)));
  box.setAttribute('aria-label', `object ${it.name} ${it.cls}`);
  if (it.vars.length) box.append(element('p', '', it.vars.map(v => v.replace('=', ' = ')).join('  ')));
  for (const line of it.levels) {
    const at = line.indexOf(' :'), head = line.slice(0, at).split(' '), left = line.slice(at + 2).trim();
    const from = left.indexOf('[ '), to = left.lastIndexOf(' ]'), level = element('p', 'level');
    if (head[0] !== 'body') level.append(element('b', '', head[2]), head[0] === 'serve' ? ` for ${head[3]}: ` : ': ');
    if (from >= 0 && to > from) level.append(left.slice(0, from), element('span', 'redex', left.slice(from + 2, to)), left.slice(to + 2));
    else level.append(left || 'done');
    box.append(level);
  }
  for (const [pair, messages] of mails) {
    const [sender, receiver] = pair.split(' ');
    if (receiver === it.name) for (const m of messages) box.append(element('p', 'mail', `from ${sender}: ${m}`));
  }
  return box;
}

function showState(watched) {
  const { objects, mails } = stateOf(watched), nodes = new Map();
  for (const it of objects.values()) {
    const node = it.name.split('.')[0];
    if (!nodes.has(node)) nodes.set(node, []);
    nodes.get(node).push(it);
  }
  const slot = it => Number(it.name.split('.')[1]);
  $('hand-state').replaceChildren(...[...nodes].sort((a, b) => a[0] - b[0]).map(([node, all]) =>
    element('div', 'node', element('h4', '', `node ${node}`), element('div', 'in', ...all.sort((a, b) => slot(a) - slot(b)).map(it => card(it, mails))))));
}

const GROUPS = [['turns', /^turn/], ['links', /^link/], ['frames sent', /^send/], ['acknowledgements', /^ack/], ['losses, doubles and delays', /^(lose|twice|late)/]];

function showEvents(could) {
  const focused = document.activeElement?.dataset?.event, box = $('hand-could'), had = box.contains(document.activeElement);
  box.replaceChildren();
  for (const [name, pattern] of GROUPS) {
    const these = could.filter(it => pattern.test(it.event));
    if (!these.length) continue;
    box.append(element('h4', '', name));
    for (const it of these) {
      const b = button('', () => choose(it.event));
      b.append(element('b', '', it.event), element('span', '', it.effect));
      b.dataset.event = it.event;
      box.append(b);
    }
  }
  if (had) (box.querySelector(`[data-event="${focused}"]`) || box.querySelector('button') || $('hand-undo')).focus();
}

async function look(next, on = false) {
  $('hand').setAttribute('aria-busy', 'true');
  const told = await ask('api/hand', { program: text, nodes: Number($('hand-nodes').value), lossy: $('hand-lossy').checked, quantum: Number($('hand-quantum').value), placement, schedule: next, on });
  $('hand').removeAttribute('aria-busy');
  const none = $('hand-none');
  none.hidden = true;
  if (told.state === undefined) {
    none.hidden = false;
    return refuse(none, told);
  }
  last = told;
  ({ placement, schedule } = told);
  $('hand').hidden = false;
  $('hand-says').textContent = told.says;
  $('hand-says').className = 'says';
  showEvents(told.could);
  $('hand-undo').disabled = !events();
  $('hand-on').disabled = told.could.length !== 1;
  $('hand-waits').replaceChildren(...told.waits.length ? atTheEnd(told.waits, true) : []);
  $('hand-writes').textContent = written(told.writes);
  showState(told.state);
  $('hand-schedule').value = schedule;
  $('hand-placement').value = placement;
  $('hand-record').textContent = told.record;
}

const lines = () => schedule.split('\n').filter(it => it.trim());
const isHead = line => /^\s*(quantum|wires|#)/.test(line);
const events = () => schedule !== null && lines().some(it => !isHead(it));
const choose = event => look(schedule + event + '\n');

export const stale = () => { $('hand-stale').hidden = text === '' || text === program(); };

export function beginRun(own = null) {
  text = program();
  placement = own;
  schedule = null;
  stale();
  return look(null);
}

export function begin() {
  $('hand-form').addEventListener('submit', event => { event.preventDefault(); beginRun(); });
  $('hand-undo').addEventListener('click', () => {
    const all = lines(), line = all.pop(), more = /^(.* )(\d+)$/.exec(line), counted = /^\s*(turn \d+|.* \d+ \d+|round) \d+\s*$/.test(line);
    // (of a line with a count, one event is taken back)
    if (counted && Number(more[2]) > 1) all.push(more[1] + (Number(more[2]) - 1));
    look(all.join('\n') + '\n');
  });
  $('hand-on').addEventListener('click', () => look(schedule, true));
  $('hand-again').addEventListener('click', () => look(lines().filter(isHead).join('\n') + '\n'));
  $('hand-step').addEventListener('click', () => step({ program: text, placement, schedule: last.could.length ? schedule : schedule + 'turn 0\n', title: 'a run by hand' }, '#end'));
  $('hand-use').addEventListener('click', () => look($('hand-schedule').value));
  $('hand-place').addEventListener('click', () => beginRun($('hand-placement').value));
  $('hand-copy').addEventListener('click', () => copy($('hand-schedule').value, $('hand-schedule')));
}
