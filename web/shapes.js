// @ts-check
// The shapes of the men, which the companions write into the page.
import { partText } from './elements.js';
import { py } from './python.js';

/** Returns the shapes by the names of the men's kinds. */
export const men_shapes = () => py.dict([...partText('men-shapes').matchAll(/<g id="(\w+)">[^]*?<\/g>\n/g)].map(([shape, name]) => [name, shape]));
