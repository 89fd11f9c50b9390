/** How a text is solved. `Text` is a string, or a Uint8Array for a text in bytes. */
export interface SolveOptions<Text> {
  /** Shows keys, tries with their refutations, threats and zugzwang, as the program pops-tries. */
  tries?: boolean;
  /** With `tries`: the most refutations of a try, from 0 to 200; 1 by default. */
  refutations?: number;
  /** The number of workers; by default that of the processors. */
  workers?: number;
  /** Stops solving after this many seconds. */
  seconds?: number;
  /** Stops solving at once. */
  signal?: AbortSignal;
  /** Tests the text without solving it: the line `sound` takes the place of the solutions. */
  check?: boolean;
  /** Shows no boards. */
  noBoard?: boolean;
  /** Receives the report as it grows. The parts joined are the report. */
  onText?: (text: Text) => void;
}

/** What solving gives. */
export interface Solved<Text> {
  /**
   * 0: no problem has a fault; 1: some problem has one; 3: the report is cut, since the part of a problem is longer than 4 MiB;
   * 4: there is too little memory; null: solving was stopped.
   */
  status: number | null;
  /** The report, or a beginning of it if solving was stopped or the report is cut. */
  report: Text;
  /** Whether `signal` or `seconds` stopped solving. */
  stopped: boolean;
}

/** Solves the problems of a text; rejects if the engine fails or can't be loaded. */
export function solve(text: string, options?: SolveOptions<string>): Promise<Solved<string>>;
export function solve(text: Uint8Array, options?: SolveOptions<Uint8Array>): Promise<Solved<Uint8Array>>;

/** A worker that runs worker.js and has received `{ engine }`, the compiled pops.wasm. */
export interface EngineWorker {
  onmessage: ((event: any) => unknown) | null;
  onerror: ((fault: any) => unknown) | null;
  postMessage(message: unknown): void;
  terminate(): void;
}

/** `solve` by workers that `make` makes, for other hosts than web pages and Node; `workers` is 1 by default. */
export function solveWith(make: () => EngineWorker, text: string, options?: SolveOptions<string>): Promise<Solved<string>>;
export function solveWith(make: () => EngineWorker, text: Uint8Array, options?: SolveOptions<Uint8Array>): Promise<Solved<Uint8Array>>;
