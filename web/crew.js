// @ts-check
// Parallel workers. Each does one call of the engine at a time; a call waits until a worker is free.

export class Crew {
  /**
   * Up to SIZE workers, each made by MAKE when it is first needed. CODEC turns texts into bytes and back.
   * @param {number} size
   * @param {() => EngineWorker} make
   * @param {Codec} codec
   */
  constructor(size, make, codec) {
    this.size = size;
    this.make = make;
    this.codec = codec;
    /** @type {EngineWorker[]} */
    this.idle = [];
    /** @type {Set<Task>} */
    this.busy = new Set();
    /** @type {((value?: unknown) => void)[]} */
    this.waiting = [];
    this.isStopped = false;
  }

  /** Resolves once a worker is free. */
  async free() {
    while (!this.idle.length && this.busy.size >= this.size) {
      await new Promise(wake => { this.waiting.push(wake); });
    }
  }

  /**
   * Passes a call to a worker. Resolves to status and text.
   * @param {Call & { text: string }} call
   */
  ask(call) {
    const worker = this.idle.pop() ?? this.make();
    const task = /** @type {Task} */ ({ worker });
    this.busy.add(task);
    task.answer = new Promise((answer, refuse) => {
      // (the memory of a failed worker is in an unknown state: it gets no other call)
      const fail = (/** @type {string} */ fault) => {
        this.drop(task);
        refuse(new Error(fault));
      };
      worker.onmessage = ({ data: { failed, status, bytes } }) => {
        if (failed) return fail(failed);
        if (this.busy.delete(task)) this.idle.push(worker);
        this.wake();
        answer({ status, text: this.codec.decode(bytes) });
      };
      worker.onerror = fault => fail(fault.message ?? String(fault));
    });
    worker.postMessage({ ...call, text: this.codec.encode(call.text) });
    return task;
  }

  /**
   * Ends a call whose result isn't needed any more; its promise never resolves.
   * @param {Task} task
   */
  drop(task) {
    if (!this.busy.delete(task)) return;
    task.worker.terminate();
    this.wake();
  }

  wake() {
    if (this.isStopped) return;
    for (const wake of this.waiting.splice(0)) wake();
  }

  /** Ends all calls and all workers; pending calls never resolve. */
  stop() {
    this.isStopped = true;
    for (const { worker } of this.busy) worker.terminate();
    for (const worker of this.idle) worker.terminate();
    this.busy.clear();
    this.idle = [];
  }
}
