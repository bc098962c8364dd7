//! Rows under each other.

/// Columns apart by two spaces. The first row has all of them; one that has fewer (a refusal in place of figures) widens the first column alone.
pub fn aligned(rows: &[Vec<String>]) -> String {
    let columns = rows.first().map_or(0, Vec::len);
    let wide = |at: usize| {
        let full = rows.iter().filter(|row| row.len() == columns || at == 0);
        full.map(|row| row[at].len()).max().unwrap_or(0)
    };
    let widths: Vec<usize> = (0..columns).map(wide).collect();
    let line = |row: &Vec<String>| {
        let cells: Vec<String> =
            row.iter().zip(&widths).map(|(cell, width)| format!("{cell:<width$}")).collect();
        format!("{}\n", cells.join("  ").trim_end())
    };
    rows.iter().map(line).collect()
}
