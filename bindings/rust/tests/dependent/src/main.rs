//! Asks for a table whose crate depends on `ansi-str`.

fn main() {
    let cells = [("\x1b[31mlion\x1b[39m", "4"), ("ox", "2")];
    let want = "\x1b[31mlio\x1b[39m 4\nox  2\n";
    assert_eq!(small_table::rows(&cells, 3), want);
}
