// In place of the package slice-ansi. README.md says what differs.
import { sliceColumns } from 'ansi_str';

/** Past the last column of any text. */
const END = Number.MAX_SAFE_INTEGER;

/** The column before which a slice begins or ends: 0 for what is below it. */
const columnOf = (place) => Math.min(Math.max(Math.floor(place), 0), END);

export default function sliceAnsi(string, begin, end) {
  return sliceColumns(string, columnOf(begin), typeof end === 'number' ? columnOf(end) : END);
}
