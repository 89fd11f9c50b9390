// @ts-check
// The men: their names by their letters. Written by scripts/men.

/** @type {Record<string, string>} */
export const MAN_NAMES = { K: 'king', Q: 'queen', R: 'rook', B: 'bishop', S: 'knight', P: 'pawn', G: 'grasshopper', N: 'nightrider' };
export const KINDS = 'KQRBSPGN';
