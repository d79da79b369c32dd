//! The help page and the version.

use crate::language::Language;

/// The page on how to call the command.
pub fn page(language: Language) -> &'static str {
    language.say(ENGLISH, GERMAN)
}

/// The page on `day`.
pub fn day(language: Language) -> &'static str {
    language.say(DAY_ENGLISH, DAY_GERMAN)
}

pub const VERSION: &str = concat!("bulk ", env!("CARGO_PKG_VERSION"), "\n");

const ENGLISH: &str = "\
bulk judges a SEPA direct-debit bulk, pacs.003.001.02 or .08, before signing.

  bulk judge FILE..       one line per file: accepted or why not; or bulk FILE..
  bulk items FILE         table of the items; what looks doubled is marked
  bulk records FILE OUT   write the posting records to OUT, whole or not at all
  bulk plain FILE [OUT]   the plain form: no indentation, no needless zeros
  bulk same FILE FILE     whether two plain forms are the same, or what differs
  bulk play REC FILE..    rerun a day from its recording and its bulks
  bulk book SCRIPT        a day book; lines: enter, withdraw, find, total, list
  bulk day CALL           a day kept in a folder; more: bulk help day
  bulk check KIND VALUE   one value; KIND is iban, creditor-id, bic, bicfi,
                          count, item-amount, header-amount, date, time,
                          reference, end-to-end, text70 (name), text140 (text)
  bulk explain [N]        what refusal N means, its causes, what to do

- is standard input, as OUT standard output; a folder means its .xml files.
Places count bytes (in a book: bulks) from 0; lines, columns, items from 1.
  --de, --en   German or English; else LC_ALL, LC_MESSAGES or LANG decides
  --plain      for scripts: `accepted COUNT CENTS` or `refused NUMBER PLACE`
  --json       for programs: one object per file, item or call
  --csv        items for a spreadsheet; more on all three: front/bulk/README.md
  --help       this page, also bulk help; --version; -- ends the options

Exit status: 0 accepted, same; 1 refused, different; 2 could not do its work.
";

const GERMAN: &str = "\
bulk prüft einen SEPA-Lastschrift-Bulk (Sammler), pacs.003.001.02 oder .08.

  bulk judge DATEI..       je Datei eine Zeile: Urteil, Grund. Kurz: bulk DATEI
  bulk items DATEI         Tabelle der Posten, doppelt aussehende markiert
  bulk records DATEI ZIEL  Buchungssätze nach ZIEL, ganz oder gar nicht
  bulk plain DATEI [ZIEL]  Normalform: ohne Einrückung und überflüssige Nullen
  bulk same DATEI DATEI    ob zwei Normalformen gleich sind, sonst was abweicht
  bulk play AUFZ DATEI..   einen Tag aus seiner Aufzeichnung nachspielen
  bulk book SKRIPT         Tagebuch; Zeilen: enter, withdraw, find, total, list
  bulk day ANWEISUNG       ein Tag in einem Ordner; mehr: bulk help day
  bulk check ART WERT      ein Wert; ART ist iban, bic, bicfi, count, date,
                           time, reference, end-to-end, creditor-id, text140
                           (Zweck), text70 (Name), item-amount, header-amount
  bulk explain [N]         Bedeutung von Ablehnung N, Ursachen, was zu tun ist

- ist die Standardeingabe, als ZIEL die Standardausgabe. Ein Ordner meint seine
.xml-Dateien. Stellen (Bytes) und Plätze zählen ab 0, alles andere ab 1.
  --de, --en   Deutsch oder Englisch; sonst nach LC_ALL, LC_MESSAGES oder LANG
  --plain      für Skripte: `accepted ANZAHL CENT` oder `refused NUMMER STELLE`
  --json       für Programme: ein Objekt je Datei, Posten oder Anweisung
  --csv        Posten als Tabelle; Näheres zu allen drei: front/bulk/README.md
  --help       diese Seite, auch bulk help; --version; -- beendet die Optionen

Status: 0 angenommen/gleich, 1 abgelehnt/ungleich, 2 Fehler bei der Ausführung.
";

const DAY_ENGLISH: &str = "\
bulk day keeps one day in a folder: a recording of every entry and withdrawal,
and the messages. Each call plays the recording back from nothing; an entry or
withdrawal is on the disk before it is answered.

  bulk day new DIR                          make the folder of a new day
  bulk day enter FILE                       enter a bulk
  bulk day withdraw SERVICE MSGID BIC DATE  withdraw an open bulk
  bulk day total                            how many are open, and their total
  bulk day list                             the open bulks; --csv
  bulk day report                           by service and sequence type; --csv
  bulk day play [REPORT]                    play back; compare with the clearer
  bulk day repair                           set aside what a cut-off call left

REPORT is a CSV of the clearer: service;MsgId;BIC;settlement date;amount.

  --day DIR    the folder; else BULK_DAY, else the one in which it is called
  --time T     of an entry or withdrawal, as 2026-10-25T02:30:00+02:00; else now
  --plain, --json, --de, --en as in bulk help; more: front/bulk/README.md

Exit status: 0 done, agrees; 1 refused, does not agree; 2 could not do its work.
";

const DAY_GERMAN: &str = "\
bulk day führt einen Tag in einem Ordner: eine Aufzeichnung jeder Eintragung und
Zurückziehung und die Nachrichten. Jeder Aufruf spielt sie von vorn nach; was
eingetragen oder zurückgezogen wird, ist vor der Antwort auf dem Datenträger.

  bulk day new ORDNER                          Ordner für einen neuen Tag
  bulk day enter DATEI                         einen Bulk eintragen
  bulk day withdraw VERFAHREN MSGID BIC DATUM  einen Bulk zurückziehen
  bulk day total                               wie viele offen sind, ihre Summe
  bulk day list                                die offenen Bulks; --csv
  bulk day report                              je Verfahren und Typ; --csv
  bulk day play [BERICHT]                      nachspielen; Clearer-Abgleich
  bulk day repair                              Reste eines Abbruchs weglegen

BERICHT ist eine CSV des Clearers: Verfahren;MsgId;BIC;Abrechnungsdatum;Betrag.

  --day ORDNER der Ordner; sonst BULK_DAY, sonst der aktuelle
  --time ZEIT  einer Eintragung, als 2026-10-25T02:30:00+02:00; sonst jetzt
  --plain, --json, --de, --en wie in bulk help; mehr: front/bulk/README.md

Status: 0 erledigt/gleich, 1 abgelehnt/ungleich, 2 Fehler bei der Ausführung.
";

#[cfg(test)]
mod tests {
    use super::*;

    #[test]
    fn help_fits_a_screen() {
        for help in [ENGLISH, GERMAN, DAY_ENGLISH, DAY_GERMAN] {
            assert!(help.lines().count() <= 24, "{} lines", help.lines().count());
            for line in help.lines() {
                assert!(line.chars().count() <= 80, "{line}");
            }
        }
    }
}
