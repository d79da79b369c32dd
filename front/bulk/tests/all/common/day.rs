//! A day in a folder, calls on it, and what it holds.

use super::*;
use std::collections::BTreeMap;

/// The time of every call that names none.
pub const TIME: &str = "2026-10-28T17:00:00+01:00";

/// What the evening's key has beside service and MsgId.
pub const REST: &str = "HAFNDEHHXXX 2026-10-30";

/// A folder with a day in it, and bulks beside the day.
pub struct Day {
    pub folder: Folder,
}

/// A call of a day: `enter` with the name of a bulk, or `withdraw` with service and MsgId.
pub type Asked<'a> = [&'a str; 3];

/// What a folder holds: each file with its bytes.
pub type Held = BTreeMap<String, Vec<u8>>;

impl Day {
    /// A new day.
    pub fn new() -> Day {
        let day = Day { folder: Folder::new() };
        bulk(&["day", "new", text(&day.path())]).done(0);
        day
    }

    /// The folder of the day.
    pub fn path(&self) -> PathBuf {
        self.folder.path("day")
    }

    /// The path of a file in it.
    pub fn file(&self, name: &str) -> PathBuf {
        self.path().join(name)
    }

    /// The command for a call on the day.
    pub fn command(&self, words: &[&str]) -> Command {
        let mut command = command(&[&["day"], words].concat());
        command.env("BULK_DAY", self.path()).env_remove("BULK_TRIAL").env_remove("BULK_STEPS");
        command
    }

    /// Makes a call on the day.
    pub fn call(&self, words: &[&str]) -> Said {
        self.command(words).output().unwrap().into()
    }

    /// The path of a bulk with this service and MsgId, five items and 2,024.90 euros.
    pub fn bulk(&self, service: &str, msg_id: &str) -> PathBuf {
        let path = self.folder.path(&format!("{service}-{}.xml", msg_id.replace('/', "_")));
        if !path.exists() {
            fs::write(&path, named(service, msg_id)).unwrap();
        }
        path
    }

    /// The words of a call.
    pub fn words(&self, [what, service, msg_id]: Asked) -> Vec<String> {
        let mut words: Vec<String> = ["--plain", "--time", TIME, what].map(str::to_string).to_vec();
        match what {
            "enter" => words.push(text(&self.bulk(service, msg_id)).to_string()),
            _ => words
                .extend([service, msg_id].into_iter().chain(REST.split(' ')).map(str::to_string)),
        }
        words
    }

    /// The command for one of these.
    pub fn asking(&self, asked: Asked) -> Command {
        let words = self.words(asked);
        self.command(&words.iter().map(String::as_str).collect::<Vec<_>>())
    }

    /// Makes one of these.
    pub fn ask(&self, asked: Asked) -> Said {
        self.asking(asked).output().unwrap().into()
    }

    /// The open bulks, with the times of their entries.
    pub fn list(&self) -> String {
        self.call(&["list", "--plain"]).done(0)
    }

    /// All that the folder of the day holds.
    pub fn held(&self) -> Held {
        let mut held = Held::new();
        hold(&self.path(), "", &mut held);
        held
    }

    /// Puts the folder of the day as it was held.
    pub fn put_back(&self, held: &Held) {
        fs::remove_dir_all(self.path()).unwrap();
        fs::create_dir_all(self.file("messages")).unwrap();
        for (name, bytes) in held {
            fs::create_dir_all(self.file(name).parent().unwrap()).unwrap();
            fs::write(self.file(name), bytes).unwrap();
        }
    }
}

/// The evening under another service and MsgId.
pub fn named(service: &str, msg_id: &str) -> String {
    damaged("BULK-2026-10-28-EVENING", msg_id)
        .replace("<Cd>CORE</Cd>", &format!("<Cd>{service}</Cd>"))
}

/// Adds what a folder holds.
fn hold(folder: &Path, before: &str, held: &mut Held) {
    for entry in fs::read_dir(folder).unwrap() {
        let path = entry.unwrap().path();
        let name = format!("{before}{}", path.file_name().unwrap().to_str().unwrap());
        match path.is_dir() {
            true => hold(&path, &format!("{name}/"), held),
            false => drop(held.insert(name, fs::read(&path).unwrap())),
        }
    }
}

/// A random number below a limit, from a seed.
pub fn random(seed: &mut u64, limit: usize) -> usize {
    *seed = seed.wrapping_mul(6_364_136_223_846_793_005).wrapping_add(1_442_695_040_888_963_407);
    (*seed >> 33) as usize % limit
}
