//! The two languages: which one, and what both share.

use crate::euro;
use std::ffi::OsString;

#[derive(Clone, Copy, Debug, PartialEq, Eq)]
pub enum Language {
    English,
    German,
}

impl Language {
    /// The language of the locale: the first of the three variables that is set decides.
    pub fn of_locale(variable: impl Fn(&str) -> Option<OsString>) -> Language {
        let set = |name: &&str| variable(name).filter(|value| !value.is_empty());
        let locale = ["LC_ALL", "LC_MESSAGES", "LANG"].iter().find_map(set).unwrap_or_default();
        // `de_DE.UTF-8`: the language ends where its country, its encoding or its variant begins.
        match locale.to_string_lossy().split(['_', '.', '@']).next() {
            Some("de") => Language::German,
            _ => Language::English,
        }
    }

    /// The text in this language.
    pub fn say<T>(self, english: T, german: T) -> T {
        match self {
            Language::English => english,
            Language::German => german,
        }
    }

    /// In the quotation marks of the language; quotes inside need no escape then.
    pub fn quoted(self, text: &str) -> String {
        self.say(format!("“{text}”"), format!("„{text}“"))
    }

    /// A number grouped for the eye: `10,000`, German `10.000`.
    pub fn number(self, number: u128) -> String {
        euro::grouped(number, self.say(",", "."))
    }

    /// `5 items`; German has one word for both numbers.
    pub fn items(self, count: u128) -> String {
        let english = if count == 1 { "item" } else { "items" };
        format!("{} {}", self.number(count), self.say(english, "Posten"))
    }

    /// `2,024.90 EUR`, German `2.024,90 EUR`.
    pub fn euros(self, cents: u128) -> String {
        let point = self.say('.', ',');
        format!("{}{point}{:02} EUR", self.number(cents / 100), cents % 100)
    }

    /// `2,024.90 EUR (202490 cents)`: the cents as `--plain` has them.
    pub fn money(self, cents: u64) -> String {
        let english = if cents == 1 { "cent" } else { "cents" };
        format!("{} ({cents} {})", self.euros(cents.into()), self.say(english, "Cent"))
    }

    /// `A`, `A or B`, `A, B or C`.
    pub fn one_of(self, choices: &[String]) -> String {
        match choices {
            [] => String::new(),
            [only] => only.clone(),
            [first @ .., last] => format!("{} {} {last}", first.join(", "), self.say("or", "oder")),
        }
    }
}

#[cfg(test)]
mod tests {
    use super::*;

    /// The language that these three variables choose.
    fn locale(all: &str, messages: &str, lang: &str) -> Language {
        let set = [("LC_ALL", all), ("LC_MESSAGES", messages), ("LANG", lang)];
        let value = |name: &str| set.iter().find(|pair| pair.0 == name).map(|pair| pair.1);
        Language::of_locale(|name| value(name).map(OsString::from))
    }

    #[test]
    fn the_first_set_variable_decides() {
        assert_eq!(locale("", "", ""), Language::English);
        assert_eq!(locale("", "", "de_DE.UTF-8"), Language::German);
        assert_eq!(locale("", "de_AT", "en_US.UTF-8"), Language::German);
        assert_eq!(locale("C", "de_DE", "de_DE"), Language::English);
        assert_eq!(locale("", "en_GB", "de_DE"), Language::English);
        assert_eq!(locale("de", "C", "C"), Language::German);
        assert_eq!(Language::of_locale(|_| None), Language::English);
    }

    #[test]
    fn only_de_is_german() {
        for german in ["de", "de_CH", "de.UTF-8", "de@euro", "de_DE.ISO-8859-15@euro"] {
            assert_eq!(locale("", "", german), Language::German, "{german}");
        }
        for other in ["den_CA", "dev", "d", "DE", "nl_DE", "C.UTF-8"] {
            assert_eq!(locale("", "", other), Language::English, "{other}");
        }
    }

    #[test]
    fn money_is_grouped_for_the_eye() {
        assert_eq!(Language::English.euros(404_980_000), "4,049,800.00 EUR");
        assert_eq!(Language::German.euros(404_980_000), "4.049.800,00 EUR");
        assert_eq!(Language::English.money(1), "0.01 EUR (1 cent)");
        assert_eq!(Language::German.money(202_490), "2.024,90 EUR (202490 Cent)");
        assert_eq!(Language::English.items(1), "1 item");
        assert_eq!(Language::German.items(10_000), "10.000 Posten");
    }
}
