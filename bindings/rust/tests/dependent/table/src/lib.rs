//! A small table.

use ansi_str::AnsiStr;

/// Rows of two cells, the first cut to a width or filled up to it.
pub fn rows(cells: &[(&str, &str)], width: usize) -> String {
    let row = |(name, value): &(&str, &str)| {
        let name = name.ansi_cut(..width);
        let blanks = width - name.ansi_strip().len();
        format!("{name}{:blanks$} {value}\n", "")
    };
    cells.iter().map(row).collect()
}
