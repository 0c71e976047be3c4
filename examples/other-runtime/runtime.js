#!/usr/bin/env node
// A runtime in another language, by the page alone (docs/your-system.md): two fronts of eight loops each call a server, which calls a store.
// The store is replaced ten times, with its sum, while they go on. At the end each answer is in the store, or the run ends with status 1.
//
// Usage: examples/other-runtime/runtime.js [DARWIN_RUN ..]. Else it takes darwin_run of the shell or of this clone, with `apply`, or tests/plain.
'use strict';
const { spawn, spawnSync } = require('child_process');
const fs = require('fs'), os = require('os'), path = require('path');

const ours = (name) => path.join(__dirname, '..', '..', name);
const hasSessions = (program) => /^\s*darwin_run apply\b/m.test(spawnSync(program, ['--help'], { encoding: 'utf8' }).stdout);
const FOUND = ['darwin_run', ours('crates/darwin_run/out/darwin_run')].find(hasSessions);
const MANAGER = process.argv.length > 2 ? process.argv.slice(2) : FOUND ? [FOUND] : ['python3', ours('tests/plain')];
const ROUNDS = 20;
const PORTS = { source: ['out'], map: ['next'], account: [] };
const TEXT = `component source(int n) { require out; }
component map(int k) { provide in; require next; }
component account(int b) { provide post; }
component All(int v) {
  array front[2]:source(0); inst server:map(0); store:account(v);
  forall i:0..1 { inst front[i]; bind front[i].out -- server.in; }
  bind server.next -- store.post;
}
`;
const sleep = (milliseconds) => new Promise((done) => setTimeout(done, milliseconds));

// The gate of a port at which its owner begins roots, with how many of these are under way.
class Gate {
  constructor() { this.isOpen = true; this.count = 0; this.waiting = []; this.onIdle = null; }

  async root(work) {
    while (!this.isOpen) await new Promise((woken) => this.waiting.push(woken));
    this.count++;
    try {
      return await work();
    } finally {
      if (--this.count === 0 && this.onIdle) { const tell = this.onIdle; this.onIdle = null; tell(); }
    }
  }

  // Whether it is busy; then `onIdle` is called once it no longer is.
  close(onIdle) { this.isOpen = false; this.onIdle = this.count > 0 ? onIdle : null; return this.count > 0; }

  reopen() { this.isOpen = true; this.onIdle = null; for (const woken of this.waiting.splice(0)) woken(); }
}

// A store that reads, waits, and writes behind what came before.
class Store {
  constructor(sum) { this.sum = sum; this.last = Promise.resolve(); }

  post(value) {
    const write = async () => { const seen = this.sum; await sleep(Math.random()); this.sum = seen + value; return value; };
    return (this.last = this.last.then(write));
  }
}

const system = {
  store: new Store(0),
  gates: { 'front[0].out': new Gate(), 'front[1].out': new Gate() },
  serve(value) { return this.store.post(value); },
};

// The lines of a stream. What stands behind the last line feed is none: a manager that dies may have said half a word.
async function* linesOf(stream) {
  let rest = '';
  for await (const piece of stream.setEncoding('utf8')) {
    const lines = (rest + piece).split('\n');
    rest = lines.pop();
    yield* lines;
  }
}

// A session with the manager: from the system of version `from` to that of `to`. What was told is in `ports` and `asked`.
async function change(file, from, to, within) {
  const words = ['apply', String(ROUNDS), file, 'All', String(from), '--', 'All', String(to)];
  const manager = spawn(MANAGER[0], [...MANAGER.slice(1), ...words]);
  manager.stdin.on('error', () => {}); // its end is seen at its output
  const say = (line) => manager.stdin.write(line + '\n');
  const ports = [], asked = [];
  let hasBegun = false, isMade = false, clock = null, fresh = null, closedAt = 0, held = 0;
  for await (const line of linesOf(manager.stdout)) {
    const [word, number, at, node] = line.split(' ');
    if (word === 'make' && !hasBegun) ports.push(...PORTS[node.split('(')[0]].map((name) => at + '.' + name));
    if (word === 'change') hasBegun = true;
    if (word === 'close') asked.push(Number(number));
    if (word === 'wait') {
      closedAt = performance.now();
      clock = setInterval(() => say('round'), within / ROUNDS);
      for (const port of asked) {
        const gate = system.gates[ports[port]];
        if (gate && gate.close(() => say('idle ' + port))) say('busy ' + port);
        say('closed ' + port);
      }
    }
    if (word === 'ready') { fresh = new Store(system.store.sum); say('go'); }
    if (word === 'commit' && hasBegun) {
      system.store = fresh;
      isMade = true;
      held = performance.now() - closedAt;
      for (const port of asked) system.gates[ports[port]]?.reopen();
    }
  }
  clearInterval(clock);
  if (!isMade) for (const port of asked) system.gates[ports[port]]?.reopen();
  return { isMade, held };
}

async function main() {
  const folder = fs.mkdtempSync(path.join(os.tmpdir(), 'runtime-'));
  const file = path.join(folder, 'all.dar');
  fs.writeFileSync(file, TEXT);
  let isGoing = true, answered = 0;
  const loop = async (gate) => { while (isGoing) { const got = await gate.root(() => system.serve(1)); answered += got; } };
  const loops = Object.values(system.gates).flatMap((gate) => Array.from({ length: 8 }, () => loop(gate)));
  const times = [];
  for (let version = 0; version < 10; version++) {
    await sleep(50);
    const { isMade, held } = await change(file, version, version + 1, 2000);
    if (!isMade) throw new Error('the change to version ' + (version + 1) + " wasn't made");
    times.push(held);
  }
  isGoing = false;
  await Promise.all(loops);
  fs.rmSync(folder, { recursive: true });
  const [least, most] = [Math.min(...times), Math.max(...times)].map((time) => time.toFixed(1));
  console.log(`10 changes, held ${least} to ${most} ms; ${answered} answered, ${system.store.sum} in the store`);
  process.exitCode = answered === system.store.sum ? 0 : 1;
}

main();
