// The editor: CodeMirror with the words of POOL, and the error of the program in its place.
import { $, ask, element, kept, trouble } from './tools.js';

const DECLARES = 'class var method local begin result post end body', STEPS = 'if then else fi while do od answer select when write new', OTHERS = 'not and or self';
const words = text => new Set(text.split(' '));
const KEYWORDS = words(`${DECLARES} ${STEPS} ${OTHERS}`), ATOMS = words('nil true false'), TYPES = words('Int Bool');
const OPENS = words('begin body if while select'), CLOSES = words('end fi od');

CodeMirror.defineMode('pool', config => ({
  startState: () => ({ depth: 0 }),
  token(stream, state) {
    if (stream.eatSpace()) return null;
    if (stream.match(/^#.*/)) return 'comment';
    if (stream.match(/^"[ !#-~]*"/)) return 'string';
    if (stream.match(/^[0-9]+/)) return 'number';
    if (stream.match(/^[A-Za-z_][A-Za-z_0-9]*/)) {
      const word = stream.current();
      if (OPENS.has(word)) state.depth++;
      if (CLOSES.has(word)) state.depth = Math.max(0, state.depth - 1);
      if (KEYWORDS.has(word)) return 'keyword';
      if (ATOMS.has(word)) return 'atom';
      if (TYPES.has(word) || /^[A-Z]/.test(word)) return 'type';
      return stream.match(/^\s*\(/, false) ? 'def' : 'variable';
    }
    if (stream.match(/^(:=|!!|==|!=|<=|>=|[:;,()!<>+*/%-])/)) return null;
    stream.next();
    return 'error';
  },
  indent: (state, rest) => Math.max(0, state.depth - /^(end|fi|od|else|result|post|when)\b/.test(rest)) * config.indentUnit,
  // (also with one letter more, so that a name as `first` is moved back)
  electricInput: /^\s*(end|fi|od|else|result|post|when)\w?$/,
  lineComment: '#',
}));

export const editor = CodeMirror($('editor'), {
  mode: 'pool', lineNumbers: true, indentUnit: 2, tabSize: 2, lineWrapping: true, matchBrackets: true, viewportMargin: 50, screenReaderLabel: 'program',
  spellcheck: false,
  // (the key goes on to the next part of the page, so that nobody is caught in the editor)
  extraKeys: { Tab: false, 'Shift-Tab': false },
});

export const program = () => editor.getValue() + (editor.getValue().endsWith('\n') ? '' : '\n');

// A place of a line and a column, both from 1, the column in bytes.
function placeOf(line, column) {
  const bytes = new TextEncoder().encode(editor.getLine(line - 1) ?? '').slice(0, Math.max(0, column - 1));
  return { line: line - 1, ch: new TextDecoder().decode(bytes).length };
}

let shown = null;
export function goTo(line, column) {
  const place = placeOf(line, column), token = editor.getTokenAt({ line: place.line, ch: place.ch + 1 });
  shown?.clear();
  shown = editor.markText(place, { line: place.line, ch: Math.max(token.end, place.ch + 1) }, { className: 'shown' });
  editor.focus();
  editor.setCursor(place);
  editor.scrollIntoView(place, 60);
}

// ---- errors in place

let wrong = [], waiting = 0, asked = null;

// The sentence of an error. The tokens that are expected stand in boxes, since some are a colon or a semicolon.
function sentence(text) {
  const at = text.indexOf('; expected: ');
  if (at < 0) return [text];
  const words = text.slice(at + 12).split(/(, | or )/);
  return [text.slice(0, at + 12), ...words.map((it, i) => i % 2 || /^an? |^the /.test(it) ? it : element('code', 'token', it))];
}

export function showError(error, says = '') {
  for (const it of wrong) it.clear();
  wrong = [];
  const line = $('fault');
  line.classList.toggle('bad', !!error || !!says);
  if (!error) {
    line.textContent = says || (editor.getValue().trim() ? 'No error.' : 'The program is empty.');
    return;
  }
  const from = error.line ? placeOf(error.line, error.column) : null;
  line.replaceChildren(from ? `Line ${error.line}, column ${error.column}: ` : '', ...sentence(error.sentence));
  if (!from) return;
  const last = editor.lineCount() - 1, at = Math.min(from.line, last);
  let to = { line: from.line, ch: from.ch + (error.token && error.length ? error.token.length : 1) };
  if (from.ch >= editor.getLine(at).length) { // the end of a line: the mark is on its last character
    from.ch = Math.max(0, editor.getLine(at).length - 1);
    to = { line: at, ch: editor.getLine(at).length };
  }
  wrong.push(editor.markText({ line: at, ch: from.ch }, to, { className: 'wrong', attributes: { title: error.sentence } }));
  const widget = editor.addLineWidget(at, element('div', 'wrong-line', '▲ ', ...sentence(error.sentence)), { coverGutter: false, noHScroll: true });
  wrong.push({ clear: () => widget.clear() });
}

async function check() {
  asked?.abort();
  asked = new AbortController();
  if (!editor.getValue().trim()) return showError(null);
  const mine = asked, told = await ask('api/check', { program: program() }, { signal: mine.signal });
  if (mine.signal.aborted) return;
  const says = trouble(told);
  showError(told.error, told.error ? '' : says);
}

export function checkSoon(pause = 400) {
  clearTimeout(waiting);
  waiting = setTimeout(check, editor.getValue().trim() ? pause : 0);
}

// ---- the texts: one of one's own, and one for each exercise

let open = null, whenChanged = () => {};
export const opened = () => open;
export const onChange = act => { whenChanged = act; };

export function openText(name, start = '') {
  if (open) kept.set('program.' + open, editor.getValue());
  const text = kept.get('program.' + name, start);
  open = name;
  editor.setValue(text);
  editor.clearHistory();
  checkSoon(0);
}

export function setText(text) {
  editor.setValue(text);
  checkSoon(0);
}

editor.on('change', () => {
  shown?.clear();
  if (open) kept.set('program.' + open, editor.getValue());
  checkSoon();
  whenChanged();
});
