// The page: it begins its parts, and opens the program of the address.
import { $, ask, beginTabs, copy, fill, kept, shownTab } from './tools.js';
import { editor, onChange, opened, openText, program, setText } from './editor.js';
import { packed, unpacked } from './share.js';
import * as run from './run.js';
import * as hand from './hand.js';
import * as questions from './ask.js';
import * as exercises from './exercises.js';
import * as language from './language.js';

const WELCOME = `# Two objects: Main creates a Server, and calls it twice.
# Press Run, or Control and Enter. Other words and examples are under Language.
class Server
method double(n : Int) : Int
begin
  result n + n
end
body
  while true do answer(double) od
end

class Main
var s : Server
body
  s := new Server;
  write s ! double(21);
  write s ! double(4)
end
`;

async function openLink() {
  const hash = location.hash.slice(1);
  if (!hash) return false;
  try {
    const text = await unpacked(hash);
    exercises.leave();
    if (text !== program() && text !== editor.getValue()) setText(text);
    return true;
  } catch {
    $('linked').textContent = 'The address has no program that this browser can read.';
    return false;
  }
}

// The address is a link to one's own program, as long as it is short enough for an address.
let waiting = 0, link = '';
async function address() {
  if (opened() !== 'own') return;
  try {
    const hash = '#' + await packed(editor.getValue());
    if (hash.length > 30000 || opened() !== 'own') return;
    link = hash;
    history.replaceState(null, '', hash);
  } catch { /* a browser without deflate */ }
}

async function start() {
  beginTabs();
  const setting = await ask('api/setting');
  if (!setting.examples) {
    $('fault').textContent = setting.refused || 'The server does not answer.';
    return;
  }
  $('unproved').hidden = setting.proved;
  fill($('run-nodes'), setting.sizes, 1);
  fill($('hand-nodes'), setting.sizes, 4);
  for (const it of setting.examples) $('examples').append(new Option(it.name.replaceAll('_', ' '), it.name));
  $('examples').addEventListener('change', () => {
    const found = setting.examples.find(it => it.name === $('examples').value);
    if (!found) return;
    exercises.leave();
    setText(found.program);
    $('examples').value = '';
  });
  run.begin();
  hand.begin();
  questions.begin(setting);
  exercises.begin(setting);
  language.begin();
  onChange(() => {
    $('linked').textContent = '';
    $('link-label').hidden = true;
    for (const it of [run, hand, questions, exercises]) it.stale();
    clearTimeout(waiting);
    waiting = setTimeout(address, 600);
  });
  if (!await openLink()) {
    const says = $('linked').textContent;
    openText('own', WELCOME);
    $('linked').textContent = says;
  }
  addEventListener('hashchange', () => { if (location.hash !== link) openLink(); });
  $('link').addEventListener('click', async () => {
    const text = location.href.split('#')[0] + '#' + await packed(editor.getValue());
    $('link-text').value = text;
    $('link-label').hidden = false;
    $('linked').textContent = await copy(text, $('link-text')) ? 'Copied.' : 'Copy the text of the link:';
  });
  addEventListener('keydown', event => {
    if (event.key !== 'Enter' || !(event.ctrlKey || event.metaKey)) return;
    event.preventDefault();
    const act = { run: run.run, hand: () => hand.beginRun(), ask: questions.putQuestion, exercises: exercises.check }[shownTab()];
    if (act) act();
    else { document.getElementById('tab-run').click(); run.run(); }
  }, true);
  document.body.dataset.ready = 'yes';
}

start();
