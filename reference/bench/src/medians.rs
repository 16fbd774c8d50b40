//! The median of a ratio over several runs, by call and setting.

use crate::measure::{median, CALLS};
use crate::{head, row};

/// The ratios that a table of one run may have, a column each.
pub const RATIOS: [&str; 2] = ["capi / fast", "capi / quick"];

/// A table of one run: its setting, and its cells by row.
struct Section<'a> {
    setting: &'a str,
    rows: Vec<Vec<&'a str>>,
}

/// The tables of calls in a report of `bench`.
fn sections(report: &str) -> Vec<Section<'_>> {
    let mut sections: Vec<Section> = Vec::new();
    for part in report.split("\n## ").skip(1) {
        let Some((setting, _)) = part.split_once(" (") else {
            continue;
        };
        let rows = part.lines().filter(|line| line.starts_with("| "));
        let cells = |line| str::split(line, '|').map(str::trim).collect();
        sections.push(Section {
            setting,
            rows: rows.map(cells).collect(),
        });
    }
    sections.retain(|section| section.setting.starts_with("B = "));
    sections
}

impl Section<'_> {
    /// The number in a call's row and the column of a name.
    fn number(&self, call: &str, column: &str) -> Option<f64> {
        let at = self.rows.first()?.iter().position(|&name| name == column)?;
        let row = self.rows.iter().find(|row| row.get(1) == Some(&call))?;
        row.get(at)?.parse().ok()
    }
}

/// The table of one ratio over all reports. What is above 1 is bold.
fn table(reports: &[Vec<Section>], ratio: &str) -> String {
    let settings: Vec<&str> = reports[0].iter().map(|section| section.setting).collect();
    let names = settings.iter().map(|setting| setting.replace("load ", ""));
    let title = std::iter::once(ratio.to_string());
    let mut text = head(&title.chain(names).collect::<Vec<_>>());
    for (call, _) in CALLS {
        let mut cells = vec![call.to_string()];
        for setting in &settings {
            let of = |report: &Vec<Section>| {
                let section = report.iter().find(|section| section.setting == *setting)?;
                section.number(call, ratio)
            };
            let numbers: Option<Vec<f64>> = reports.iter().map(of).collect();
            cells.push(match numbers.and_then(median) {
                Some(median) if median > 1.0 => format!("**{median:.3}**"),
                Some(median) => format!("{median:.3}"),
                None => String::new(),
            });
        }
        text += &row(&cells);
    }
    text
}

/// One table for each ratio: the median over the reports, empty where not all have it.
pub fn tables(reports: &[String]) -> String {
    let reports: Vec<_> = reports.iter().map(|report| sections(report)).collect();
    let tables = RATIOS.map(|ratio| table(&reports, ratio));
    tables.join("\n")
}

#[cfg(test)]
mod tests {
    use super::*;

    fn report(fast: &str, quick: &str) -> String {
        format!(
            "# Times\n\n## B = 8, load 50 % (896 members)\n\n\
             | call | ns a | capi | capi / fast | capi / quick |\n|---|---|---|---|---|\n\
             | ask, hit | call | 40 | {fast} | {quick} |\n\n## Rows\n\n| B | load |\n"
        )
    }

    #[test]
    fn middle_of_three() {
        let runs = [
            report("1.100", "1.000"),
            report("0.900", "0.998"),
            report("1.001", "1.200"),
        ];
        let text = tables(&runs);
        assert!(text.starts_with("| capi / fast | B = 8, 50 % |\n|---|---|\n"));
        assert!(text.contains("\n| ask, hit | **1.001** |\n"));
        assert!(text.contains("\n| ask, hit | 1.000 |\n"));
        assert!(text.contains("\n| count |  |\n"));
    }
}
