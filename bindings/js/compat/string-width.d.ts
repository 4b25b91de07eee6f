export interface Options {
  /** Whether a letter of ambiguous width (East Asia) has one column. True is all there is: a RangeError for false. Default: true. */
  readonly ambiguousIsNarrow?: boolean;
  /** Whether the characters of sequences count, all but ESC. Default: false. */
  readonly countAnsiEscapeCodes?: boolean;
}

/** The display width of the text in columns, or 0 for what is no string. */
export default function stringWidth(string: string, options?: Options): number;
