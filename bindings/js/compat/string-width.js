// In place of the package string-width. README.md says what differs.
import { width } from 'ansi_str';

export default function stringWidth(string, { ambiguousIsNarrow = true, countAnsiEscapeCodes = false } = {}) {
  if (!ambiguousIsNarrow) {
    throw new RangeError('ambiguousIsNarrow must be true: no other count is here');
  }
  if (typeof string !== 'string') {
    return 0;
  }
  return width(countAnsiEscapeCodes ? string.replaceAll('\x1b', '') : string);
}
