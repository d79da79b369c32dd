//! The pages of the refusals. Their texts live in docs/REFUSALS.md alone, and are read from it.

use crate::language::Language;

const TEXT: &str = include_str!("../../../docs/REFUSALS.md");
const WIDTH: usize = 78;

/// A text in English and in German.
pub type Both = [&'static str; 2];

/// One refusal number: its sentence of the overview, and the rows of its page.
pub struct Page {
    pub number: u64,
    pub sentence: [String; 2],
    pub rows: Vec<(Both, Both)>,
}

/// All pages in their order.
pub fn all() -> Vec<Page> {
    let mut parts = TEXT.split("\n## ");
    let overview = parts.next().unwrap_or("");
    let mut pages: Vec<Page> = rows(overview)
        .filter_map(|[number, english, german]| {
            let number = number.parse().ok()?;
            // The marks of the page's own layout are no part of a sentence.
            let sentence = [english, german].map(|text| text.replace('`', ""));
            Some(Page { number, sentence, rows: Vec::new() })
        })
        .collect();
    for part in parts {
        let (number, body) = part.split_once('\n').unwrap_or((part, ""));
        let page = pages.iter_mut().find(|page| number.trim() == page.number.to_string());
        if let Some(page) = page {
            page.rows = rows(body).filter_map(row).collect();
        }
    }
    pages
}

/// The rows of a table with three columns.
fn rows(text: &'static str) -> impl Iterator<Item = [&'static str; 3]> {
    text.lines().filter_map(|line| {
        let inside = line.strip_prefix('|')?.strip_suffix('|')?;
        let mut cells = inside.split('|').map(str::trim);
        Some([cells.next()?, cells.next()?, cells.next()?])
    })
}

/// A row of a page: its label in both languages, and its text. The heading has no label.
fn row([label, english, german]: [&'static str; 3]) -> Option<(Both, Both)> {
    let (one, other) = label.split_once(" · ")?;
    Some(([one, other], [english, german]))
}

/// The sentence of a number.
pub fn sentence(number: u64, language: Language) -> String {
    let page = all().into_iter().find(|page| page.number == number);
    page.map_or(String::new(), |Page { sentence: [english, german], .. }| {
        language.say(english, german)
    })
}

/// The page of a number in each of these languages, 0 English, 1 German; none where there is no such number.
pub fn page(number: u64, languages: &[usize]) -> Option<String> {
    let page = all().into_iter().find(|page| page.number == number)?;
    let told: Vec<String> = languages.iter().map(|&of| told(&page, of)).collect();
    Some(told.join("\n"))
}

/// A line or two for each number: its sentence in each of the languages.
pub fn list(languages: &[usize]) -> String {
    let mut text = String::new();
    for page in all() {
        let number = format!("{:2}", page.number);
        for (at, &of) in languages.iter().enumerate() {
            let before = if at == 0 { &number } else { "  " };
            text.push_str(&wrapped(&format!("{before}  {}", page.sentence[of]), 0, 4));
        }
    }
    text
}

/// One page in one language.
fn told(page: &Page, of: usize) -> String {
    let mut text = wrapped(&format!("{:2}  {}", page.number, page.sentence[of]), 0, 4);
    for (label, content) in &page.rows {
        text.push_str(&format!("\n  {}\n", label[of]));
        text.push_str(&wrapped(content[of], 4, 4));
    }
    text
}

/// The text in lines that fit a screen, the first one and the others indented.
fn wrapped(text: &str, first: usize, others: usize) -> String {
    let mut lines = " ".repeat(first);
    let mut width = first;
    for (at, word) in text.split(' ').enumerate() {
        let length = word.chars().count();
        if at > 0 && width + 1 + length > WIDTH {
            lines.push('\n');
            lines.push_str(&" ".repeat(others));
            width = others;
        } else if at > 0 {
            lines.push(' ');
            width += 1;
        }
        lines.push_str(word);
        width += length;
    }
    lines.push('\n');
    lines
}

#[cfg(test)]
mod tests {
    use super::*;

    #[test]
    fn every_number_has_a_whole_page_in_both_languages() {
        let pages = all();
        let numbers: Vec<u64> = pages.iter().map(|page| page.number).collect();
        assert_eq!(numbers, (1..=29).collect::<Vec<u64>>());
        for page in pages {
            assert_eq!(page.rows.len(), 4, "page {}", page.number);
            let rows = page.rows.iter().flat_map(|row| [row.0, row.1]).flatten();
            let mut texts = rows.chain(page.sentence.iter().map(String::as_str));
            assert!(texts.all(|text| !text.is_empty()), "page {}", page.number);
        }
    }

    #[test]
    fn no_row_is_lost_to_a_stray_bar() {
        let rows = TEXT.lines().filter(|line| line.starts_with('|'));
        rows.for_each(|line| assert_eq!(line.matches('|').count(), 4, "{line}"));
    }

    #[test]
    fn a_sentence_is_the_overview_s() {
        assert_eq!(sentence(8, Language::English), "The check digits are wrong.");
        assert_eq!(sentence(8, Language::German), "Die Prüfziffern stimmen nicht.");
        assert_eq!(sentence(30, Language::English), "");
    }

    #[test]
    fn lines_fit_and_keep_every_word() {
        for page in all() {
            for of in [0, 1] {
                let text = told(&page, of);
                let words: Vec<&str> = text.split_whitespace().collect();
                for row in &page.rows {
                    let content: Vec<&str> = row.1[of].split_whitespace().collect();
                    let there = words.windows(content.len()).any(|part| part == content);
                    assert!(there, "page {}: {}", page.number, row.1[of]);
                }
                // Only a word that is longer than a line may stand out.
                let long = |line: &&str| line.chars().count() > WIDTH && line.trim().contains(' ');
                assert_eq!(text.lines().find(long), None);
            }
        }
    }
}
