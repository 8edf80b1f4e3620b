// Chromium without a window, by the DevTools protocol over two pipes. The tests use it.
import { spawn } from 'node:child_process';
import fs from 'node:fs';
import path from 'node:path';

export function findChromium() {
  const folders = (process.env.PATH ?? '').split(path.delimiter);
  const files = ['chromium', 'chromium-browser'].flatMap((name) => folders.map((folder) => path.join(folder, name)));
  return files.find((file) => fs.existsSync(file));
}

const FLAGS = [
  '--headless=new',
  '--no-sandbox',
  '--remote-debugging-pipe',
  '--no-first-run',
  '--disable-gpu',
  '--disable-background-networking',
  '--disable-component-update',
  '--disable-sync',
  '--hide-scrollbars',
  // No other host has an address.
  '--host-resolver-rules=MAP * ~NOTFOUND , EXCLUDE 127.0.0.1',
  'about:blank',
];

export class Browser {
  #sent = 0;
  #waiting = new Map();
  #partial = '';
  onEvent = () => {};

  /** Starts the program. It writes to a folder, which the caller removes. */
  constructor(program, room) {
    const stdio = ['ignore', 'ignore', 'ignore', 'pipe', 'pipe'];
    this.process = spawn(program, [`--user-data-dir=${room}/profile`, ...FLAGS], { stdio });
    this.process.stdio[4].setEncoding('utf8').on('data', (text) => this.#take(text));
  }

  send(method, params = {}, sessionId = undefined) {
    const id = (this.#sent += 1);
    this.process.stdio[3].write(`${JSON.stringify({ id, method, params, sessionId })}\0`);
    return new Promise((resolve, reject) => this.#waiting.set(id, { method, resolve, reject }));
  }

  async close() {
    const ended = new Promise((resolve) => this.process.on('exit', resolve));
    await this.send('Browser.close');
    await ended;
  }

  #take(text) {
    const messages = (this.#partial + text).split('\0');
    this.#partial = messages.pop();
    messages.forEach((message) => this.#settle(JSON.parse(message)));
  }

  #settle(message) {
    if (!message.id) return this.onEvent(message);
    const { method, resolve, reject } = this.#waiting.get(message.id);
    this.#waiting.delete(message.id);
    if (message.error) reject(new Error(`${method}: ${message.error.message}`));
    else resolve(message.result);
  }
}
