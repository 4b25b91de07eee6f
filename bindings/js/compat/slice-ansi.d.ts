/** The columns of the text from `begin`, of which the first is 0, up to `end` or the last one, in their styles and links. */
export default function sliceAnsi(string: string, begin: number, end?: number): string;
