//! The system's own errors, in both languages.

use crate::language::Language;
use std::io;

// The numbers of the system, the same on every Linux that we build for.
const GERMAN: [(i32, &str); 26] = [
    (1, "Vorgang nicht erlaubt"),
    (2, "Datei oder Ordner nicht gefunden"),
    (4, "Unterbrochen"),
    (5, "Ein-/Ausgabefehler"),
    (6, "Gerät nicht gefunden"),
    (9, "Datei nicht geöffnet"),
    (11, "Vorübergehend nicht verfügbar"),
    (12, "Nicht genügend Speicher"),
    (13, "Keine Berechtigung"),
    (16, "Gerät oder Datei in Benutzung"),
    (17, "Datei existiert bereits"),
    (18, "Nicht auf demselben Datenträger"),
    (20, "Kein Ordner"),
    (21, "Ist ein Ordner"),
    (22, "Ungültiges Argument"),
    (23, "Zu viele offene Dateien im System"),
    (24, "Zu viele offene Dateien"),
    (26, "Datei wird gerade ausgeführt"),
    (27, "Datei zu groß"),
    (28, "Kein Platz mehr auf dem Datenträger"),
    (30, "Datenträger schreibgeschützt"),
    (32, "Niemand liest die Ausgabe"),
    (36, "Name zu lang"),
    (40, "Zu viele Verweise hintereinander"),
    (116, "Die Datei auf dem Server gibt es nicht mehr"),
    (122, "Speicherkontingent überschritten"),
];

/// What the system says went wrong.
pub fn cause(error: &io::Error, language: Language) -> String {
    let told = error.to_string();
    let english = told.split(" (os error").next().unwrap_or(&told);
    let german = || match error.raw_os_error() {
        Some(number) => GERMAN.iter().find(|pair| pair.0 == number).map_or_else(
            || format!("Systemfehler {number} ({english})"),
            |pair| pair.1.to_string(),
        ),
        None => english.to_string(),
    };
    match language {
        Language::English => english.to_string(),
        Language::German => german(),
    }
}

#[cfg(test)]
mod tests {
    use super::*;

    #[test]
    fn in_both_languages() {
        let told = |number, language| cause(&io::Error::from_raw_os_error(number), language);
        assert_eq!(told(28, Language::English), "No space left on device");
        assert_eq!(told(28, Language::German), "Kein Platz mehr auf dem Datenträger");
        assert_eq!(told(5, Language::German), "Ein-/Ausgabefehler");
        assert!(told(71, Language::German).starts_with("Systemfehler 71 ("));
        assert!(GERMAN.windows(2).all(|pair| pair[0].0 < pair[1].0));
    }
}
