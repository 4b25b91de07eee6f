/** The plain text: the text without its sequences. Throws a TypeError for what is no string. */
export default function stripAnsi(string: string): string;
