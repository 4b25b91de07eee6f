// In place of the package strip-ansi. README.md says what differs.
import { strip } from 'ansi_str';

export default function stripAnsi(string) {
  return strip(string);
}
