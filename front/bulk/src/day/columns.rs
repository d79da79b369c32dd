//! Rows of text under each other, each column as wide as it must be.

/// The rows as lines; the first so many columns stand to the left, the others, which are numbers,
/// to the right.
pub fn lines(rows: &[Vec<String>], left: usize) -> String {
    let columns = rows.iter().map(Vec::len).max().unwrap_or(0);
    let cell = |row: &Vec<String>, column: usize| row.get(column).cloned().unwrap_or_default();
    let width = |column: usize| rows.iter().map(|row| cell(row, column).chars().count()).max();
    let widths: Vec<usize> = (0..columns).map(|column| width(column).unwrap_or(0)).collect();
    let line = |row: &Vec<String>| {
        let cells = widths.iter().enumerate().map(|(column, &width)| match column < left {
            true => format!("{:width$}", cell(row, column)),
            false => format!("{:>width$}", cell(row, column)),
        });
        format!("{}\n", cells.collect::<Vec<_>>().join("  ").trim_end())
    };
    rows.iter().map(line).collect()
}

#[cfg(test)]
mod tests {
    use super::*;

    #[test]
    fn columns_are_as_wide_as_they_must_be() {
        let row = |cells: [&str; 3]| cells.map(str::to_string).to_vec();
        let rows = [row(["Für", "", "Cent"]), row(["a", "bcd", "1"])];
        assert_eq!(lines(&rows, 2), "Für       Cent\na    bcd     1\n");
        assert_eq!(lines(&[], 2), "");
    }
}
