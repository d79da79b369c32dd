//! The command line: which command, which options, which words.

use crate::day;
use crate::language::Language;
use crate::play;
use crate::read;
use crate::same;
use crate::trouble::Trouble;
use std::ffi::{OsStr, OsString};
use std::fs;
use std::os::unix::ffi::OsStrExt;
use std::path::Path;

#[derive(Clone, Copy, Debug, PartialEq, Eq)]
pub enum Command {
    Judge,
    Items,
    Records,
    Plain,
    Same,
    Play,
    Book,
    Day,
    Check,
    Explain,
    Help,
}

/// The form of what is printed.
#[derive(Clone, Copy, Debug, PartialEq, Eq)]
pub enum Form {
    Words,
    Plain,
    Json,
    Csv,
}

/// What is asked: the options, and the words beside them.
#[derive(Debug)]
pub struct Call {
    pub language: Language,
    /// Whether the language was chosen by an option.
    pub is_chosen: bool,
    pub form: Form,
    pub is_help: bool,
    pub is_version: bool,
    /// The values of --day and --time.
    pub day: Option<OsString>,
    pub time: Option<OsString>,
    words: Vec<OsString>,
    /// The first word that looks like an option and is none.
    unknown: Option<OsString>,
    /// An option whose value is missing.
    valueless: Option<OsString>,
    has_several_forms: bool,
}

impl Call {
    /// Options may stand anywhere before a `--`. A value to be checked may begin with a `-` too.
    pub fn of(mut words: impl Iterator<Item = OsString>, locale: Language) -> Call {
        let mut call = Call {
            language: locale,
            is_chosen: false,
            form: Form::Words,
            is_help: false,
            is_version: false,
            day: None,
            time: None,
            words: Vec::new(),
            unknown: None,
            valueless: None,
            has_several_forms: false,
        };
        let mut may_be_option = true;
        while let Some(word) = words.next() {
            if may_be_option && word == "--" {
                may_be_option = false;
            } else if may_be_option && call.has_value(&word) {
                call.take(word, words.next());
            } else if !may_be_option || !call.option(&word) {
                call.words.push(word);
            }
        }
        call
    }

    /// Whether a word is an option with a value behind it.
    fn has_value(&self, word: &OsStr) -> bool {
        (word == "--day" || word == "--time") && !self.awaits_value()
    }

    /// Takes the value of an option.
    fn take(&mut self, option: OsString, value: Option<OsString>) {
        match value {
            Some(value) if option == "--day" => self.day = Some(value),
            Some(value) => self.time = Some(value),
            None => self.valueless = Some(option),
        }
    }

    /// Takes a word as an option, or tells that it is none.
    fn option(&mut self, word: &OsStr) -> bool {
        match word.to_str() {
            Some("--de") => self.choose(Language::German),
            Some("--en") => self.choose(Language::English),
            Some("--plain") => self.print_as(Form::Plain),
            Some("--json") => self.print_as(Form::Json),
            Some("--csv") => self.print_as(Form::Csv),
            Some("--help" | "-h") => self.is_help = true,
            Some("--version" | "-V") => self.is_version = true,
            _ if !is_option(word) || self.awaits_value() => return false,
            _ => {
                self.unknown.get_or_insert(word.to_owned());
            }
        }
        true
    }

    /// Takes a language by an option.
    fn choose(&mut self, language: Language) {
        self.language = language;
        self.is_chosen = true;
    }

    /// Takes a form by an option.
    fn print_as(&mut self, form: Form) {
        self.has_several_forms |= self.form != Form::Words && self.form != form;
        self.form = form;
    }

    /// Whether the next word is the value to be checked.
    fn awaits_value(&self) -> bool {
        self.words.len() == 2 && self.words[0] == "check"
    }

    /// The command and its words. A file alone is to be judged.
    pub fn command(&self) -> Result<(Command, Vec<&OsStr>), Trouble> {
        if let Some(word) = &self.unknown {
            return Err(Trouble::UnknownOption(word.clone()));
        }
        if let Some(option) = &self.valueless {
            return Err(Trouble::NoValue(option.clone()));
        }
        if self.has_several_forms {
            return Err(Trouble::SeveralForms);
        }
        let words: Vec<&OsStr> = self.words.iter().map(OsString::as_os_str).collect();
        let first = *words.first().ok_or(Trouble::NoCommand)?;
        let (command, words) = match Command::of(first) {
            Some(command) => (command, words[1..].to_vec()),
            None if is_file(first) => (Command::Judge, words),
            None => return Err(Trouble::UnknownCommand(first.to_owned())),
        };
        match (&self.day, &self.time) {
            (Some(_), _) if command != Command::Day => {
                Err(Trouble::OptionOf("--day", command.name()))
            }
            (_, Some(_)) if command != Command::Day => {
                Err(Trouble::OptionOf("--time", command.name()))
            }
            _ if command.has(self.form) => Ok((command, words)),
            _ => Err(Trouble::FormOf(self.form, command)),
        }
    }

    /// Whether it is about a day.
    pub fn is_of_day(&self) -> bool {
        self.words.first().is_some_and(|word| word == "day")
    }
}

/// Whether a word looks like an option.
fn is_option(word: &OsStr) -> bool {
    word.len() > 1 && word.as_bytes()[0] == b'-'
}

/// Whether a word that is no command means a file: there is one of that name, or it looks like one.
fn is_file(word: &OsStr) -> bool {
    let has_slash = word.as_bytes().contains(&b'/');
    word == read::INPUT
        || has_slash
        || read::is_xml(Path::new(word))
        || fs::symlink_metadata(word).is_ok()
}

impl Form {
    /// The option that asks for it.
    pub fn option(self) -> &'static str {
        match self {
            Form::Words => "",
            Form::Plain => "--plain",
            Form::Json => "--json",
            Form::Csv => "--csv",
        }
    }
}

impl Command {
    const ALL: [Command; 11] = [
        Command::Judge,
        Command::Items,
        Command::Records,
        Command::Plain,
        Command::Same,
        Command::Play,
        Command::Book,
        Command::Day,
        Command::Check,
        Command::Explain,
        Command::Help,
    ];

    /// The word for it.
    pub fn name(self) -> &'static str {
        match self {
            Command::Judge => "judge",
            Command::Items => "items",
            Command::Records => "records",
            Command::Plain => "plain",
            Command::Same => "same",
            Command::Play => "play",
            Command::Book => "book",
            Command::Day => "day",
            Command::Check => "check",
            Command::Explain => "explain",
            Command::Help => "help",
        }
    }

    /// All of them, as a list.
    pub fn names() -> String {
        Command::ALL.map(Command::name).join(", ")
    }

    /// The command of that name.
    fn of(word: &OsStr) -> Option<Command> {
        Command::ALL.into_iter().find(|command| word == command.name())
    }

    /// Whether the command prints in this form. Where there is only text, --plain changes nothing.
    fn has(self, form: Form) -> bool {
        match form {
            Form::Words | Form::Plain => true,
            Form::Json => !matches!(self, Command::Explain | Command::Help),
            Form::Csv => matches!(self, Command::Items | Command::Day),
        }
    }

    /// How it is to be called.
    pub fn usage(self, language: Language) -> &'static str {
        let (english, german) = self.usages();
        language.say(english, german)
    }

    /// How it is to be called, in English and in German.
    fn usages(self) -> (&'static str, &'static str) {
        match self {
            Command::Judge => (
                "Usage: bulk judge FILE.. At least one FILE, and - at most once.",
                "Aufruf: bulk judge DATEI.. Mindestens eine DATEI, und - höchstens einmal.",
            ),
            Command::Items => ("Usage: bulk items FILE", "Aufruf: bulk items DATEI"),
            Command::Records => (
                "Usage: bulk records FILE OUT. OUT is a file for the records, or - for standard \
                 output.",
                "Aufruf: bulk records DATEI ZIEL. ZIEL ist eine Datei für die Buchungssätze oder - \
                 für die Standardausgabe.",
            ),
            Command::Plain => (
                "Usage: bulk plain FILE [OUT]. OUT is a file for the plain form; without it, or with \
                 -, the form goes to standard output.",
                "Aufruf: bulk plain DATEI [ZIEL]. ZIEL ist eine Datei für die Normalform; ohne ZIEL \
                 oder mit - geht sie auf die Standardausgabe.",
            ),
            Command::Same => same::USAGE,
            Command::Play => play::USAGE,
            Command::Book => (
                "Usage: bulk book SCRIPT. A line of SCRIPT is enter FILE, withdraw SERVICE MSGID BIC \
                 DATE, find SERVICE MSGID BIC DATE, total, or list.",
                "Aufruf: bulk book SKRIPT. Eine Zeile von SKRIPT ist enter DATEI, withdraw VERFAHREN \
                 MSGID BIC DATUM, find VERFAHREN MSGID BIC DATUM, total oder list.",
            ),
            Command::Day => day::USAGE,
            Command::Check => (
                "Usage: bulk check KIND VALUE. A VALUE with spaces stands in quotes.",
                "Aufruf: bulk check ART WERT. Ein WERT mit Leerzeichen steht in Anführungszeichen.",
            ),
            Command::Explain => (
                "Usage: bulk explain 14, or bulk explain for the list.",
                "Aufruf: bulk explain 14 oder bulk explain für die Liste.",
            ),
            Command::Help => ("Usage: bulk help", "Aufruf: bulk help"),
        }
    }
}
