// The worker that makes all calls of the package, so that the page stays responsive.
import { MESSAGE_ITEMS } from './limits.js';

/** A worker, and its calls that have not returned. */
export class Engine {
  #worker = null;
  #waiting = new Map();
  #calls = 0;

  call(call, ...values) {
    if (!this.#worker) this.#start();
    const id = (this.#calls += 1);
    return new Promise((resolve, reject) => {
      this.#waiting.set(id, { resolve, reject });
      this.#worker.postMessage({ id, call, values });
    });
  }

  /** Ends the worker if it is at work. Its calls never return. */
  stop() {
    if (this.#waiting.size === 0) return;
    this.#worker.terminate();
    this.#worker = null;
    this.#waiting.clear();
  }

  #start() {
    this.#worker = new Worker(new URL('./worker.js', import.meta.url), { type: 'module' });
    this.#worker.onmessage = ({ data: { id, value, error } }) => {
      const { resolve, reject } = this.#waiting.get(id);
      this.#waiting.delete(id);
      if (error) reject(error);
      else resolve(value);
    };
    this.#worker.onerror = () => {
      const waiting = [...this.#waiting.values()];
      this.#waiting.clear();
      this.#worker = null;
      waiting.forEach(({ reject }) => reject({ message: 'worker.js does not start as a worker' }));
    };
  }
}

/**
 * A list of this length, which comes in messages of some items each. `call` returns those from a
 * position on. All are asked for at once, so that the worker does not wait for the page, and each is
 * a task of the page.
 */
export async function received(count, call, each = (item) => item) {
  const items = [];
  const take = (message) => {
    for (const item of message) items.push(each(item));
  };
  const messages = [];
  for (let at = 0; at < count; at += MESSAGE_ITEMS) messages.push(call(at).then(take));
  await Promise.all(messages);
  return items;
}

export const reader = new Engine();
export const minimizer = new Engine();
