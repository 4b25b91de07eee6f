export interface Options {
  /** Whether a word that is wider than a line is broken. Default: false. */
  readonly hard?: boolean;
  /** Whether the blanks at both ends of a line go. Default: true. */
  readonly trim?: boolean;
  /** Whether lines break at blanks alone. If false, each line is filled. Default: true. */
  readonly wordWrap?: boolean;
}

/** The text wrapped to lines of a number of columns, joined by line feeds. Each line closes the link and style it leaves open. */
export default function wrapAnsi(string: string, columns: number, options?: Options): string;
