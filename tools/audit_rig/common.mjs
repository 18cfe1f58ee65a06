// What the recorders share.
import fs from 'node:fs';
import os from 'node:os';
import path from 'node:path';
import { Server } from './server.mjs';

export const sleep = (milliseconds) => new Promise((done) => setTimeout(done, milliseconds));

// A file with one JSON object a line.
export function lines(folder, name) {
  const file = fs.openSync(path.join(folder, name), 'w');
  return (value) => fs.writeSync(file, JSON.stringify(value) + '\n');
}

export const write = (folder, name, value) =>
  fs.writeFileSync(path.join(folder, name), JSON.stringify(value, null, 1) + '\n');

// A folder for the recording, a running server, and a folder for what is thrown away.
export async function begin(out, log) {
  fs.mkdirSync(out, { recursive: true });
  const folder = fs.mkdtempSync(path.join(os.tmpdir(), 'audit-rig-'));
  const server = new Server(lines(out, log));
  await server.start(folder);
  return { folder, server };
}

// Ends the browser and the server, and throws the folder away.
export async function end(browser, { folder, server }) {
  browser.kill('SIGTERM');
  await sleep(1500);
  browser.kill('SIGKILL');
  server.stop();
  fs.rmSync(folder, { recursive: true, force: true });
  process.exit(0);
}

// What a started program says on standard error, up to a line that matches.
export function said(child, pattern, seconds = 30) {
  let text = '';
  return new Promise((good, bad) => {
    child.stderr.on('data', (bytes) => {
      text += bytes;
      const found = pattern.exec(text);
      if (found) good(found);
    });
    setTimeout(() => bad(new Error(`no ${pattern}: ${text.slice(-500)}`)), seconds * 1000);
  });
}

// A web socket on which commands have numbers, and all else is an event.
export class Connection {
  constructor(url, onEvent) {
    this.socket = new WebSocket(url);
    this.count = 0;
    this.waiting = new Map();
    this.opened = new Promise((good, bad) => {
      this.socket.addEventListener('open', good);
      this.socket.addEventListener('error', bad);
    });
    this.socket.addEventListener('message', (event) => {
      const message = JSON.parse(event.data);
      if (!message.id) return onEvent(message);
      const { good, bad, method } = this.waiting.get(message.id);
      this.waiting.delete(message.id);
      const fault = message.error?.message || message.message;
      if (message.error) bad(new Error(`${method}: ${fault}`));
      else good(message.result);
    });
  }

  send(method, params = {}, more = {}) {
    this.count += 1;
    return new Promise((good, bad) => {
      this.waiting.set(this.count, { good, bad, method });
      this.socket.send(JSON.stringify({ id: this.count, method, params, ...more }));
    });
  }
}
