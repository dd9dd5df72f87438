// The pane Exercises. The browser has the texts; what an answer is compared with stays on the server.
import { $, ask, button, element, kept, trouble } from './tools.js';
import { editor, openText, opened, program, setText, showError } from './editor.js';
import { showPage, waitsList } from './run.js';

let all = [], now = null, stop = null, tries = false;

// A text in a few forms of Markdown: headings, paragraphs, lists, blocks of code, `code` and **strong**.
export function marked(text) {
  const out = [], inline = line => line.split(/(`[^`]+`|\*\*[^*]+\*\*)/).map(it => it.startsWith('`') && it.length > 1 ? element('code', '', it.slice(1, -1)) : it.startsWith('**') ? element('b', '', it.slice(2, -2)) : it);
  const lines = text.split('\n');
  for (let i = 0; i < lines.length; i++) {
    const line = lines[i];
    if (line.startsWith('```')) {
      const code = [];
      while (++i < lines.length && !lines[i].startsWith('```')) code.push(lines[i]);
      out.push(element('pre', '', code.join('\n')));
    } else if (/^#+ /.test(line)) out.push(element('h2', '', line.replace(/^#+ /, '')));
    else if (/^- /.test(line)) {
      const list = element('ul');
      for (; i < lines.length && /^- /.test(lines[i]); i++) list.append(element('li', '', ...inline(lines[i].slice(2))));
      i--;
      out.push(list);
    } else if (line.trim()) {
      const part = [line];
      while (i + 1 < lines.length && lines[i + 1].trim() && !/^(```|#|- )/.test(lines[i + 1])) part.push(lines[++i]);
      out.push(element('p', '', ...inline(part.join(' '))));
    }
  }
  return out;
}

const passed = name => kept.get('passed.' + name) === 'yes';

function list() {
  $('exercise-list').replaceChildren(...all.map(it => {
    const b = button(it.title, () => choose(it));
    b.setAttribute('aria-current', it === now);
    return element('li', '', b, passed(it.name) ? element('span', 'good', ' ✓ passed') : '');
  }));
}

const narrow = () => matchMedia('(max-width: 800px)').matches;

function choose(it) {
  now = it;
  openText('exercise.' + it.name, it.start);
  $('which').textContent = `exercise: ${it.title}`;
  $('own').hidden = false;
  $('exercise').hidden = false;
  $('exercise-text').replaceChildren(...marked(it.text));
  $('exercise-out').replaceChildren();
  checked = '';
  stale();
  list();
  if (narrow()) $('exercise').scrollIntoView();
}

export function leave() {
  now = null;
  if (opened() !== 'own') openText('own');
  $('which').textContent = 'your program';
  $('own').hidden = true;
  $('exercise').hidden = true;
  list();
}

let checked = '';
export const stale = () => { $('exercise-stale').hidden = checked === '' || checked === program() || !now; };

export async function check() {
  if (!now) return;
  checked = program();
  stale();
  const mine = now, out = $('exercise-out');
  stop?.abort();
  stop = new AbortController();
  $('exercise-stop').disabled = false;
  out.replaceChildren();
  $('exercise-counts').textContent = 'Trying all runs of your program.';
  if (tries) kept.set('who', $('exercise-who').value);
  const told = await ask('api/exercise', { program: checked, exercise: mine.name, who: tries ? $('exercise-who').value : '' }, { signal: stop.signal, counts: it => { $('exercise-counts').textContent = it; } });
  $('exercise-stop').disabled = true;
  $('exercise-counts').textContent = '';
  if (now !== mine) return;
  const says = told.says || (told.error ? 'The program has an error: ' : '') + trouble(told);
  out.append(element('p', told.passed ? 'good' : 'bad', says));
  if (told.error) showError(told.error);
  if (told.waits?.length) out.append(waitsList(told.waits));
  if (told.html) {
    out.append(element('p', 'row', button('step through this run', () => showPage(told.html, `${mine.title}: a run that is not allowed`, ''))));
    if (told.others) out.append(element('p', 'dim', 'In this run the check’s own objects use your classes. It shows each of their steps, and not what they would do next.'));
  }
  if (told.passed) {
    kept.set('passed.' + mine.name, 'yes');
    list();
    const next = all.find(it => !passed(it.name));
    if (next) out.append(element('p', 'row', button(`next: ${next.title}`, () => choose(next))));
  }
}

export function begin(setting) {
  all = setting.exercises;
  tries = setting.tries;
  $('exercise-who-label').hidden = !tries;
  $('exercise-who').value = kept.get('who');
  if (!all.length) $('exercise-list').replaceWith(element('p', 'dim', 'This workbench has no exercises.'));
  else list();
  $('own').addEventListener('click', () => { leave(); editor.focus(); });
  $('exercise-check').addEventListener('click', check);
  $('exercise-stop').addEventListener('click', () => stop?.abort());
  $('exercise-start').addEventListener('click', () => { if (now) setText(now.start); });
}
