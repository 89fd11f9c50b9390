// The page's data, for the type checker: every module knows these names.

/** A square, as `e4`. */
type Square = string;
/** A colour: `w` or `b`. */
type Colour = string;
/** A man: its colour and its kind, as `wK` or `bS`. */
type Man = string;
/** A position. */
type Men = Map<Square, Man>;
/** A part of a text. */
interface Span { from: number; to: number }
/** A part of a text, and what replaces it. */
interface Replacement extends Span { said: string }
/** An edit of a text: parts that are removed, with the blanks before them, and parts that are replaced. */
interface Edit { gone: Span[]; put: Replacement[] }

/** A position in FEN: the squares that NoCastling would name, and the square that a pawn has just crossed. */
interface Fen { men: Men; turn: Colour; noCastling: Square[]; crossed: Square | null }

// The text.

/** A word of a text, the command that it means, and for a text line its end. */
interface Token extends Span { word: string; command?: string; end?: number }
/** A problem of a text: from its opening word to the end of its last word; its words come after `start`. */
interface Block { words: Token[]; from: number; start: number; end: number; number: number }
/** The men of a problem, the parts of the text that name them, and the words that a board can't show. */
interface MenRead { men: Men; parts: Span[]; unknown: string[] }
/** A command, and how many words follow it. */
interface Section extends Span { words: number; command?: string }
/** A field of a problem: where it stands, its value, the command that it follows, and the same field before it. */
interface Field { name?: string; parts: Span[]; said: string; section: Section | null; earlier?: Field }
type Fields = Record<string, Field>;
/** Where a reading of fields is: the last command, the field that awaits its value, the last option. */
interface FieldState { section: Section | null; awaited: Field | null; last: Field | null }

// The report.

/** A man reborn, and where. */
interface Rebirth { square: Square; man: Man }
/** A move of a report, and its number among the half-moves. */
interface Move {
  said: string; label: string; half: number; colour: Colour; kind: string; from: Square; to: Square; captures: boolean; enPassant: boolean;
  castling: string | null; promotion: string | null; rebirth: Rebirth | null; mark: string | null;
}
/** A stipulation with its condition. */
interface Asked { line: string; text: string; isHelp: boolean; moves: number; halfMoves: number; condition: string | null }
/** A line of a phase; `level` counts the lines that it continues. It has moves, or a word below a first move. */
interface Solution { line: string; moves: Move[]; level: number; word?: string }
/** Set play, play or tries; its total is null while it isn't complete. */
interface Phase {
  kind: string; isPossible: boolean; lines: string[]; solutions: Solution[]; count: number | null; total: string | null; isStopped?: boolean;
}
/** A fault of a problem: its line, its number and its text. */
interface ReportFault { line: number; number: number; text: string }
/** A problem of a report. `asked` is null only for a faulty problem and for a beginning of a report. */
interface Item {
  number: number; title: string | null; author: string | null; ranks: string[]; asked: Asked | null; phases: Phase[];
  fault: ReportFault | null; isChecked: boolean; isWhole: boolean;
}
/** A problem of a report that isn't faulty. */
interface SoundItem extends Item { asked: Asked }
/** A faulty problem of a report. */
interface FaultyItem extends Item { fault: ReportFault }
/** Moves of a tree or a word, the moves before them, and the rows after them, which are made when they are asked for; the lines that it is
    made of, and the number of rows above it. */
interface Row extends Span { moves: Move[]; path: Move[]; level: number; word?: string; hasBelow: boolean; readonly below: Row[] }
/** What rows are made of: the lines of a phase, what receives each list of rows, what makes the rows of some lines. */
interface RowsGiven {
  solutions: Solution[];
  made: (rows: Row[], above: Row | null) => void;
  rowsIn: (given: RowsGiven, span: Span, above: { level: number, path: Move[] }) => Row[];
}

// Names, twins, and what the text says of a problem.

interface Label { text: string; number: number; isDuplex: boolean }
/** A problem of the text, as the list of problems names it. */
interface Content { number: number; title: string | null; author: string | null; asked: string | null; men: Men }
/** A problem among its twins: its label, the title with it, and what changes in it. */
interface ContentTwin extends Content { label: Label; whole: string | null; change: string }
/** A problem of the printed sheet. */
interface PrintedProblem { number: number; title: string | null; author: string | null; asked: string | null; men: Men; label: { text: string }; change: string }

// The store.

/** A stored text, and when it was stored; whether it came by a link; of which tab it was the text in work. */
interface KeptText { text: string; time: number; isLinked?: boolean; tab?: string }
/** The texts for undo and redo, and the place of the text that is shown. */
interface StoredSteps { texts: string[]; place: number }
/** A text that was solved, its report, whether more may follow it, the number of the one problem that was solved, or 0, and whether another
    text had replaced it. */
interface StoredReport { text: string; report: string; isBeginning: boolean; only: number; isReplaced: boolean }
/** What a reload of the page shows again: the texts, the number of the problem on the board, the link opened last, the report. */
interface Visit { steps: StoredSteps; number: number; link: string; solved: StoredReport | null }

// The engine and its workers.

/** A call of the engine. */
interface Call { call: string; check?: boolean; noBoard?: boolean; refutations?: number; depth?: number; isSet?: boolean; number?: number }
/** A call as a worker receives it; the first message has only the engine. */
interface CallMessage extends Call { text: Uint8Array; engine?: WebAssembly.Module }
/** A worker's reply: status and bytes of the result, or how the call failed. */
interface Reply { status: number; bytes: Uint8Array; failed?: string }
/** The result of a call. */
interface Answer { status: number; text: string }
/** What the page needs of a worker. */
interface EngineWorker {
  onmessage: ((event: MessageEvent<Reply>) => unknown) | null;
  onerror: ((fault: ErrorEvent) => unknown) | null;
  postMessage(message: unknown): void;
  terminate(): void;
}
/** A call under way. */
interface Task { worker: EngineWorker; answer: Promise<Answer> }
/** Turns texts into bytes and back. */
interface Codec { encode(text: string): Uint8Array; decode(bytes: Uint8Array): string }
/** A phase and the number of its parts; null if it isn't possible. */
interface PhaseParts { kind: string; parts: number | null }
/** The solutions of a part; if they are cut, the last one may be incomplete. */
interface PartSolutions { all: string[]; isCut: boolean }
/** The text of an item as `--check` reports it: the head of a sound one. */
interface Head { text: string; isSound: boolean; isHelp: boolean; halfMoves: number }
/** How solving ended. */
interface Ended { status?: number; failed?: string; isStopped?: boolean }

/** What work of chores.js is given: a text, a report of it, and the numbers of the problems that are wanted. */
interface ChoreGiven { text: string; report?: string; numbers?: number[] }

/** How a program wants a text solved (npm/pops.d.ts says what each means). */
interface SolveOptions {
  tries?: boolean; refutations?: number; workers?: number; seconds?: number; signal?: AbortSignal; check?: boolean; noBoard?: boolean;
  onText?: (text: any) => void;
}
/** What a program gets: status and report, of which more may follow if solving was stopped. */
interface Solved { status: number | null; report: string | Uint8Array; stopped: boolean }

// Explanations of faults.

/** What is wrong and what to do, with the places to look at. */
interface Explanation { text: string; marks: Span[] }
/** A text in which faults were corrected, whether a word that was left out asks for tries, and the most refutations of a try; 0 if no word says. */
interface Corrected { text: string; asksForTries: boolean; refutations: number }
/** A line of a corrected text: its number, and how it begins. */
interface CorrectedLine { line: number; said: string }
/** Work in steps, which may return further work. */
interface WorkSteps extends Generator<void, WorkSteps | void> {}
/** The words of a problem, and the one that closes it. */
interface ProblemWords { tokens: Token[]; closing: Token | null }
/** A line of the text, in pieces. */
interface MarkedLine { line: number; pieces: { text: string; isMarked: boolean }[] }

// Texts of other programs.

/** The problems of a text, null if none can be posed, why some were left out, and what its options ask for, as in `Corrected`. */
interface Imported { text: string | null; lost: string[]; asksForTries: boolean; refutations: number }
/** A line of YAML with content. */
interface YamlLine { indent: number; text: string; raw: string }

// What the page shows.

/** An element whose children are all HTML elements. */
interface ButtonParent extends HTMLElement { children: HTMLCollectionOf<HTMLElement>; firstElementChild: HTMLElement }
/** The elements of the page with their own types. */
interface PageElements {
  text: HTMLTextAreaElement; fen: HTMLInputElement; check: HTMLInputElement; tries: HTMLInputElement; refutations: HTMLInputElement; file: HTMLInputElement; problems: HTMLSelectElement; problemNumber: HTMLInputElement; language: HTMLSelectElement;
  solve: HTMLButtonElement; solveThis: HTMLButtonElement; stop: HTMLButtonElement; live: HTMLInputElement; undo: HTMLButtonElement; redo: HTMLButtonElement; men: ButtonParent; squares: ButtonParent;
  gutter: ButtonParent; promotion: ButtonParent; twins: ButtonParent;
}

/** The moves from a position, and the item of the report that is walked through. */
interface Place { start: Men; moves: Move[]; item: { number: number } | null }
/** What the board's gestures do. */
interface BoardPage {
  change(changer: (men: Men) => Men | null): void;
  move(from: Square, to: Square): void;
  note(text: string, holds?: () => boolean): void;
  check(): void;
}
/** A list of elements that are drawn a number at a time. */
interface ListBox extends HTMLElement {
  filling: { things: any[]; draw: (thing: any) => Element; drawn: number; most: number; more: HTMLElement | null };
}
/** The element of an item. */
interface ItemBox extends HTMLElement { groups: Group[]; head: HTMLElement; age: HTMLElement; compared: HTMLDetailsElement }
/** A phase as it is drawn. */
interface Group { kind: string; item: SoundItem; men: Men; rows: TreeRow[]; list: ListBox; lines: number; total: HTMLElement }
/** A phase or a first move beside others: what it threatens, and the replies to it. */
interface ComparedColumn<T> { kind: string; label: string; row: T | null; head: T | null; replies: T[]; refutations: T[] }
/** White's moves after a reply, and whether they are others than in the play; `!` if the reply refutes. */
interface ComparedCell<T> { rows: T[]; said: string[]; isChanged: boolean }
/** Phases side by side, and the number of tries that are left out. */
interface Comparison<T> { columns: ComparedColumn<T>[]; rows: { label: string; cells: ComparedCell<T>[] }[]; left: number; leftKeys: number }
/** A row with its place in the tree, and its elements once they are drawn. */
interface TreeRow extends Row {
  readonly below: TreeRow[]; parent: TreeRow | null; group: Group; wasOpen?: boolean;
  line?: HTMLElement; list?: ListBox; turn: HTMLElement; buttons: HTMLElement[]; brief?: HTMLElement;
}
/** A move of a row. */
interface RowPlace { row: TreeRow; index: number }

// Classes of modules, by name.

type Crew = import('./crew.js').Crew;

// What browsers have and the checker's library lacks.

interface Array<T> {
  findLast(holds: (value: T, index: number, all: T[]) => boolean): T | undefined;
  findLastIndex(holds: (value: T, index: number, all: T[]) => boolean): number;
}

