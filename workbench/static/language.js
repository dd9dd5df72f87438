// The pane Language: the language on one page, with programs to try.
import { $, button, element, show } from './tools.js';
import { marked, leave } from './exercises.js';
import { editor, setText } from './editor.js';

const PARTS = [
  ['A program', `A program is a list of **classes**. A run begins with one object of the **last** class. Each object runs its own \`body\`, at the same time as all others.

- A class has its variables first, then its methods, and then its body.
- \`;\` stands **between** two statements, and not behind the last one.
- \`:=\` assigns, and \`==\` compares. An \`if\` ends with \`fi\`, and its \`else\` may be left out.
- \`#\` begins a comment. Line ends have no meaning.`,
  `class Main
var sum, i : Int
body
  sum := 0; i := 1;
  while i <= 10 do
    sum := sum + i;
    i := i + 1
  od;
  if sum == 55 then write "right" else write sum fi
end
`],
  ['Values', `A variable is of the type \`Int\`, \`Bool\` or a class, and is \`nil\` at first. Arithmetic with \`nil\` is a run-time error, and so is a division by 0. There are no arrays. A string can only be written.

- Numbers: \`+ - * / %\`; comparisons: \`== != < <= > >=\`; truth values: \`and or not\`, \`true\`, \`false\`.
- \`not\` binds most strongly: write \`not (a == b)\`.`],
  ['Methods', `A method has parameters, each with a type of its own, variables of its own (\`local\`) and statements. A method with a result ends with \`result\` and an expression. \`gcd(12, 18)\` calls a method of the own object.`,
  `class Main
method gcd(a : Int, b : Int) : Int
local r : Int
begin
  if b == 0 then r := a else r := gcd(b, a % b) fi
  result r
end
body
  write gcd(252, 105)
end
`],
  ['Objects and calls', `\`new Server\` makes an object. \`s ! double(21)\` **calls** its method, and waits for the value. The call is served only when the body of \`s\` comes to an \`answer\` with this name. An object serves one call at a time.

\`answer(m, n)\` accepts one call or message of \`m\` or \`n\`, whichever is there first, and waits if there is none. A server repeats it: \`while true do answer(m, n) od\`. An object that is left at an \`answer\` is no error.`,
  `class Server
method double(n : Int) : Int
begin
  result n + n
end
body
  while true do answer(double) od
end

class Main
var s : Server
body
  s := new Server;
  write s ! double(21)
end
`],
  ['Messages', `\`s !! put(1)\` **sends** a message: the sender goes on at once, and gets no value. Messages from one object to another stay in their order. Those of two senders come in any order, so this program has two outcomes: choose **Ask**, and “What can it write”.`,
  `class Log
method put(n : Int)
begin
  write n
end
body
  answer(put); answer(put)
end

class Friend
method tell(l : Log)
begin
  l !! put(2)
end
body
  answer(tell)
end

class Main
var l : Log
var f : Friend
body
  l := new Log; f := new Friend;
  f !! tell(l);
  l !! put(1)
end
`],
  ['Choices', `\`select\` accepts what its guards allow. An alternative is possible if its guard is true, and a call or message that it names is there. An object without a possible alternative waits. If no guard is true, it is a run-time error.`,
  `class Buffer
var value : Int
var full : Bool
method put(n : Int)
begin
  value := n; full := true
end
method get() : Int
begin
  full := false
  result value
end
body
  full := false;
  while true do
    select
    when not full answer(put) then
    when full answer(get) then
    end
  od
end

class Producer
method fill(b : Buffer)
begin
  b ! put(1); b ! put(2)
end
body
  answer(fill)
end

class Main
var b : Buffer
var p : Producer
body
  b := new Buffer; p := new Producer;
  p !! fill(b);
  write b ! get(); write b ! get()
end
`],
  ['Deadlock', `In a **deadlock** objects wait in calls **for good**: each for another one, and none can ever go on. Run this program: it says who waits for whom, and where. “Step through it” shows how it came to that. “Ask” says whether any order of events leads to a deadlock.`,
  `# Each asks the other at the same time, and nobody answers.
class Peer
var other : Peer
method meet(p : Peer)
begin
  other := p
end
method ask()
begin
  write "asked"
end
body
  answer(meet);
  other ! ask();
  answer(ask)
end

class Main
var a, b : Peer
body
  a := new Peer; b := new Peer;
  a ! meet(b); b ! meet(a)
end
`],
];

const WORDS = [
  ['node', 'one of the machines that run the program together; each object is on one of them'],
  ['placement', 'says how many nodes there are, and which objects are on which'],
  ['event', 'a turn of a node, in which one of its objects goes on; or a message that goes over a link'],
  ['schedule', 'the order of the events: fair, random, or chosen by hand'],
  ['record', 'the list of the events of a run, and of their effects'],
  ['silent step', 'a step of one object that no other object can notice, such as an assignment; also called local'],
  ['quiet', 'nothing can change any more: the run is at its end'],
  ['waits for good', 'the object is in a call, and can never go on'],
  ['configuration', 'what all objects and mailboxes are at one moment; a search keeps each one once'],
];

const EVENTS = [
  ['local O K', 'object O makes K silent steps'], ['new O P C', 'O makes the object P of class C'], ['send O P m', 'O sends the message m to P'], ['take P O m', 'P begins to execute the message of O'],
  ['post call O P m', 'the call of O is on its way, or in the mailbox of P'], ['answer P O m', 'P begins to execute the call of O'], ['return P O v', 'P returns the value v to O'],
  ['write O v', 'O writes v'], ['pick O i', 'O takes alternative i of a select'], ['fault O E', 'O meets the run-time error E'],
  ['post create, created, arrive, result, pass', 'something travels between nodes'], ['frame, lost, stale, acked, late', 'something happens to a frame on a lossy wire'], ['idle', 'nothing could be done'],
];

export function begin() {
  const pane = $('pane-language');
  for (const [title, text, example] of PARTS) {
    pane.append(element('h2', '', title), ...marked(text));
    if (!example) continue;
    const pre = element('pre', '', example.trimEnd());
    pre.tabIndex = 0;
    const act = button('put this into the editor', () => { leave(); setText(example); show('run'); editor.focus(); });
    act.setAttribute('aria-label', `put the program of “${title}” into the editor`);
    pane.append(pre, element('p', 'try row', act, element('span', 'dim', 'Control and Z brings your program back.')));
  }
  pane.append(element('h2', '', 'Words of this page'));
  const words = element('table');
  for (const [word, meaning] of WORDS) words.append(element('tr', '', element('td', '', element('b', '', word)), element('td', '', meaning)));
  pane.append(words);
  pane.append(element('h2', '', 'Events'), element('p', '', 'An object is named by its node and its number there: 0.1 is object 1 of node 0. The lines of a record have these words.'));
  const table = element('table');
  for (const [word, meaning] of EVENTS) table.append(element('tr', '', element('td', '', element('code', '', word)), element('td', '', meaning)));
  pane.append(table);
}
