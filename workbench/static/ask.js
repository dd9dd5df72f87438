// The pane Ask: the questions about all runs that the server has in its table.
import { $, ask, button, element } from './tools.js';
import { program } from './editor.js';
import { details, refuse, step, waitsList } from './run.js';

let stop = null, questions = [];
const chosen = () => questions.find(it => it.name === document.querySelector('#ask-questions input:checked').value);

const KINDS = { fault: 'a run-time error', stuck: 'a deadlock', left: 'an object is left at an answer, or a message', done: 'nothing is left' };

async function put(question, more, text, out) {
  stop?.abort();
  stop = new AbortController();
  $('ask-stop').disabled = false;
  $('ask-counts').textContent = 'Searching.';
  const told = await ask('api/ask', { program: text, question: question.name, bound: Number($('ask-bound').value), ...more }, { signal: stop.signal, counts: it => { $('ask-counts').textContent = it; } });
  $('ask-stop').disabled = true;
  $('ask-counts').textContent = '';
  if (told.kind === undefined) { refuse(out, told); return null; }
  return told;
}

function outcomes(told, text) {
  const table = element('table', 'outcomes', element('tr', '', ...['', 'written', 'the end', ''].map(it => element('th', '', it))));
  told.outcomes.forEach((line, i) => {
    const [kind, ...items] = line.split(' ');
    const act = button('a run with it', async () => {
      const which = i + 1, found = await put({ name: 'outcome' }, { which }, text, $('ask-out'));
      if (found?.run) step({ program: text, found: found.text, title: `a run with outcome ${which}` });
    });
    act.setAttribute('aria-label', `a run with outcome ${i + 1}`);
    table.append(element('tr', '', element('td', 'dim', `${i + 1}`), element('td', '', items.length ? element('code', '', items.join(' ')) : element('span', 'dim', 'nothing')), element('td', kind === 'stuck' || kind === 'fault' ? 'bad' : '', KINDS[kind] || kind), element('td', '', act)));
  });
  return table;
}

let asked = '';
export const stale = () => { $('ask-stale').hidden = asked === '' || asked === program(); };

export async function putQuestion() {
  const question = chosen(), text = asked = program(), out = $('ask-out');
  stale();
  out.replaceChildren();
  const told = await put(question, question.fields.includes('outputs') ? { outputs: $('ask-lines').value } : {}, text, out);
  if (!told) return;
  out.replaceChildren(element('p', told.status === 1 ? 'says bad' : told.status === 0 ? 'says good' : 'says', told.says));
  if (told.wrote !== null) out.append(element('p', '', 'That run writes ', told.wrote ? element('code', '', told.wrote) : 'nothing', '.'));
  if (told.waits.length) out.append(waitsList(told.waits));
  if (told.run) out.append(element('p', 'row', button('step through it', () => step({ program: text, found: told.text, title: question.label }, '#end'))));
  if (told.outcomes.length && question.name === 'outcomes') out.append(outcomes(told, text));
  out.append(details('what explore wrote', told.text));
}

export function begin(setting) {
  questions = setting.questions.filter(it => it.shown);
  for (const it of questions) {
    const input = element('input');
    Object.assign(input, { type: 'radio', name: 'question', value: it.name, checked: it === questions[0] });
    $('ask-questions').append(element('label', '', input, ' ', it.label));
  }
  const fields = () => {
    const it = chosen();
    $('ask-outputs').hidden = !it.fields.includes('outputs');
    $('ask-hint').textContent = it.hint;
  };
  $('ask-questions').addEventListener('change', fields);
  fields();
  $('ask-form').addEventListener('submit', event => { event.preventDefault(); putQuestion(); });
  $('ask-stop').addEventListener('click', () => stop?.abort());
}
