//! `day`: a day in a folder.

use crate::common::day::*;
use crate::common::*;
use std::fs;
use std::process::Stdio;

/// The key of a bulk.
fn key(service: &str, msg_id: &str) -> String {
    format!("{service} {msg_id} {REST}")
}

#[test]
fn a_day_from_new_to_report() {
    let day = Day::new();
    assert_eq!(day.call(&["total"]).done(0), "open: 0 bulks, 0.00 EUR (0 cents)\n");
    let file = day.bulk("CORE", "A");
    let said = day.call(&["enter", text(&file), "--time", TIME]).done(0);
    let signed = "entered, 5 items, 2,024.90 EUR (202490 cents), MsgId A, settlement date \
                  2026-10-30, CORE, pacs.003.001.02; open: 1 bulk, 2,024.90 EUR\n";
    assert_eq!(said, format!("{}: {signed}", text(&file)));
    day.ask(["enter", "B2B", "B"]).done(0);
    assert_eq!(
        day.call(&["list"]).done(0),
        "Entered                    Service  MsgId  BIC          Settlement   Cents       EUR\n\
         2026-10-28T17:00:00+01:00  CORE     A      HAFNDEHHXXX  2026-10-30  202490  2,024.90\n\
         2026-10-28T17:00:00+01:00  B2B      B      HAFNDEHHXXX  2026-10-30  202490  2,024.90\n\
         open: 2 bulks, 4,049.80 EUR (404980 cents)\n"
    );
    assert_eq!(
        day.call(&["--de", "report"]).done(0),
        "EUR     FRST      RCUR   FNAL   OOFF     Summe\n\
         CORE   37,80  1.965,50   8,95  12,65  2.024,90\n\
         B2B    37,80  1.965,50   8,95  12,65  2.024,90\n\
         Summe  75,60  3.931,00  17,90  25,30  4.049,80\n\
         offen: 2 Bulks, 4.049,80 EUR (404980 Cent)\n"
    );
    let own = key("CORE", "A");
    let words = [&["withdraw"][..], &own.split(' ').collect::<Vec<_>>()].concat();
    let said = day.call(&[&words[..], &["--time", TIME]].concat()).done(0);
    let withdrawn = "withdrawn, 2,024.90 EUR (202490 cents); open: 1 bulk, 2,024.90 EUR\n";
    assert_eq!(said, format!("{own}: {withdrawn}"));
    let said = day.call(&["play"]).done(0);
    let due = "3 records played back, 2 entered, 1 withdrawn; open: 1 bulk, 2,024.90 EUR (202490 \
               cents)\n";
    assert_eq!(said, due);
}

/// The recording is that of the request, and the messages are those that were entered.
#[test]
fn what_is_on_the_disk() {
    let day = Day::new();
    day.ask(["enter", "CORE", "A"]).done(0);
    day.ask(["enter", "B2B", "MSG/12345678"]).done(0);
    day.ask(["withdraw", "CORE", "A"]).done(0);
    let due = "2026-10-28T17:00:00+01:00ECOREHAFNDEHHXXX2026-10-30A           \n\
               2026-10-28T17:00:00+01:00EB2B HAFNDEHHXXX2026-10-30MSG/12345678\n\
               2026-10-28T17:00:00+01:00WCOREHAFNDEHHXXX2026-10-30A           \n";
    let held = day.held();
    let names: Vec<&str> = held.keys().map(String::as_str).collect();
    assert_eq!(names, ["messages/000000.xml", "messages/000001.xml", "recording"]);
    assert_eq!(String::from_utf8_lossy(&held["recording"]), due);
    assert_eq!(held["messages/000000.xml"], named("CORE", "A").as_bytes());
    assert_eq!(held["messages/000001.xml"], named("B2B", "MSG/12345678").as_bytes());
}

#[test]
fn a_refused_call_writes_nothing() {
    let day = Day::new();
    day.ask(["enter", "CORE", "A"]).done(0);
    let before = day.held();
    assert_eq!(day.ask(["enter", "CORE", "A"]).done(1), "refused 20 0\n");
    assert_eq!(day.ask(["withdraw", "B2B", "A"]).done(1), "refused 22 0\n");
    // No bulk can have these keys.
    for named in ["CORE MSG-123456789012 HAFNDEHHXXX 2026-10-30", "core A HAFNDEHHXXX 2026-10-30"] {
        let words = [&["--plain", "withdraw"][..], &named.split(' ').collect::<Vec<_>>()].concat();
        assert_eq!(day.call(&words).done(1), "refused 22 0\n", "{named}");
    }
    assert_eq!(day.call(&["--plain", "withdraw", "", "", "", ""]).done(1), "refused 22 0\n");
    let october = sample("october.xml");
    assert_eq!(day.call(&["--plain", "enter", text(&october)]).done(1), "refused 24 3988\n");
    let judged = bulk(&["judge", text(&october)]).done(1);
    assert_eq!(day.call(&["enter", text(&october)]).done(1), judged);
    assert_eq!(day.held(), before);
}

#[test]
fn a_msg_id_that_no_record_has_room_for() {
    let day = Day::new();
    day.ask(["enter", "CORE", "MSG/12345678"]).done(0);
    let before = day.held();
    let file = day.bulk("CORE", "MSG-123456789");
    let said = day.call(&["enter", text(&file)]).trouble();
    assert!(
        said.contains("The MsgId “MSG-123456789” has 13 bytes, and a record has room for 12"),
        "{said}"
    );
    let said = day.call(&["--de", "enter", text(&file)]).trouble();
    assert!(
        said.contains("Die MsgId „MSG-123456789“ hat 13 Zeichen, ein Satz fasst nur 12"),
        "{said}"
    );
    assert_eq!(day.held(), before);
}

#[test]
fn sixty_five_bulks() {
    let day = Day::new();
    for number in 0..64 {
        let said = day.ask(["enter", "CORE", &format!("M{number}")]).done(0);
        assert_eq!(said, format!("entered {} {}\n", number + 1, 202_490 * (number + 1)));
    }
    let before = day.held();
    assert_eq!(day.ask(["enter", "CORE", "M64"]).done(1), "refused 21 0\n");
    assert_eq!(day.ask(["enter", "CORE", "M0"]).done(1), "refused 20 0\n");
    assert_eq!(day.held(), before);
    day.ask(["withdraw", "CORE", "M31"]).done(0);
    assert_eq!(day.ask(["enter", "CORE", "M64"]).done(0), "entered 64 12959360\n");
}

#[test]
fn times_do_not_fall() {
    let day = Day::new();
    let (one, other) = (day.bulk("CORE", "A"), day.bulk("CORE", "B"));
    let at = |file: &std::path::Path, time: &str| day.call(&["enter", text(file), "--time", time]);
    at(&one, "2026-10-25T02:30:00+02:00").done(0);
    let before = day.held();
    let said = at(&other, "2026-10-25T01:29:59+01:00").trouble();
    let due = "The time of this call, 2026-10-25T01:29:59+01:00, lies before that of the last \
               record, 2026-10-25T02:30:00+02:00. Nothing was changed. Set the clock, or give a \
               time: --time 2026-10-25T02:30:00+02:00\n";
    assert_eq!(said, format!("bulk: {due}"));
    assert_eq!(day.held(), before);
    at(&other, "2026-10-25T01:30:00+01:00").done(0);
    // An hour later the clocks were put back.
    at(&day.bulk("CORE", "C"), "2026-10-25T02:30:00+01:00").done(0);
    assert!(day.call(&["list", "--plain"]).done(0).ends_with(" 2026-10-25T02:30:00+01:00\n"));
    for time in ["", "2026-10-25T02:30:00Z", "2026-10-25", "2026-10-25T02:30:00.000+01:00"] {
        let said = at(&other, time).trouble();
        assert!(said.contains("cannot be recorded. Expected: 2026-10-25T02:30:00+02:00"), "{said}");
    }
}

/// The clock's time, in the zone that is set, with its offset.
#[test]
fn the_time_of_the_clock() {
    for (zone, offset) in [
        ("UTC", "+00:00"),
        ("EST5", "-05:00"),
        ("<+0530>-5:30", "+05:30"),
        ("X-15", "+00:00"),
        ("X-1:00:30", "+00:00"),
    ] {
        let day = Day::new();
        let file = day.bulk("CORE", "A");
        let mut command = day.command(&["enter", text(&file)]);
        Said::from(command.env("TZ", zone).output().unwrap()).done(0);
        let time = day.list().split(' ').next_back().unwrap().trim_end().to_string();
        assert!(time.ends_with(offset), "{zone}: {time}");
        let mut date = std::process::Command::new("date");
        if let Ok(now) = date.args(["-u", "-d", &time, "+%s"]).output() {
            let recorded: i64 = String::from_utf8_lossy(&now.stdout).trim().parse().unwrap_or(0);
            let since = std::time::SystemTime::now().duration_since(std::time::UNIX_EPOCH).unwrap();
            assert!((0..60).contains(&(since.as_secs() as i64 - recorded)), "{zone}: {time}");
        }
    }
}

#[test]
fn which_folder_is_meant() {
    let (day, other) = (Day::new(), Folder::new());
    day.ask(["enter", "CORE", "A"]).done(0);
    let open = "open 1 202490\n";
    let path = day.path();
    let bare = || {
        let mut command = command(&["--plain", "day", "total"]);
        command.env_remove("BULK_DAY").current_dir(&other.0);
        command
    };
    assert_eq!(Said::from(bare().current_dir(&path).output().unwrap()).done(0), open);
    assert_eq!(Said::from(bare().args(["--day", text(&path)]).output().unwrap()).done(0), open);
    // An option goes before the environment, and that before the folder.
    let empty = Day::new();
    let mut both = bare();
    both.env("BULK_DAY", empty.path()).current_dir(&path);
    assert_eq!(Said::from(both.output().unwrap()).done(0), "open 0 0\n");
    assert_eq!(Said::from(both.args(["--day", text(&path)]).output().unwrap()).done(0), open);
    for words in [&[][..], &["--day", ""]] {
        let said = Said::from(bare().args(words).output().unwrap()).trouble();
        assert!(said.contains("Which day? Name its folder: --day DIR, or BULK_DAY."), "{said}");
    }
    let said = Said::from(bare().args(["--day", text(&other.0)]).output().unwrap()).trouble();
    assert!(said.contains("It is not the folder of a day"), "{said}");
    let said = Said::from(bare().args(["--de", "--day", "none"]).output().unwrap()).trouble();
    assert!(said.contains("none: Das ist kein Tagesordner"), "{said}");
    assert_eq!(other.names(), [""; 0]);
}

/// Only `new` makes a day: a wrong name must not begin another one.
#[test]
fn a_new_day_is_made_once() {
    let folder = Folder::new();
    let path = folder.path("2026-10-28");
    assert_eq!(bulk(&["--plain", "day", "new", text(&path)]).done(0), "new\n");
    let said = bulk(&["day", "new", text(&path)]).trouble();
    assert!(said.ends_with(
        "2026-10-28: It holds a day already. Choose another folder. Nothing was changed.\n"
    ));
    let said = bulk(&["day", "new", text(&folder.path("none/day"))]).trouble();
    assert!(said.contains("none/day: The folder does not exist."), "{said}");
    assert_eq!(folder.names(), ["2026-10-28"]);
    // A folder that is there, with something else in it.
    let other = folder.path("other");
    fs::create_dir(&other).unwrap();
    fs::write(other.join("note.txt"), "mine").unwrap();
    assert_eq!(
        bulk(&["--de", "day", "new", text(&other)]).done(0),
        format!("{}: ein neuer Tag\n", text(&other))
    );
    assert_eq!(fs::read(other.join("note.txt")).unwrap(), b"mine");
}

#[test]
fn calls_that_are_none() {
    let day = Day::new();
    let calls: [&[&str]; 12] = [
        &[],
        &["open"],
        &["new"],
        &["enter"],
        &["enter", "a", "b"],
        &["withdraw", "CORE", "A", "HAFNDEHHXXX"],
        &["withdraw", "CORE", "A", "HAFNDEHHXXX", "2026-10-30", "5"],
        &["total", "5"],
        &["list", "all"],
        &["report", "x"],
        &["play", "a", "b"],
        &["repair", "x"],
    ];
    for words in calls {
        let said = day.call(words).trouble();
        assert!(said.contains("Usage: bulk day CALL."), "{said}");
        let said = day.call(&[&["--de"], words].concat()).trouble();
        assert!(said.contains("Aufruf: bulk day ANWEISUNG."), "{said}");
    }
    for (words, due) in [
        (&["total", "--csv"][..], "There is no --csv for day total."),
        (&["list", "--time", TIME], "There is no --time for day list."),
        (&["new", "x", "--day", "y"], "There is no --day for day new."),
        (&["total", "--day"], "The value of --day is missing."),
    ] {
        let said = day.call(words).trouble();
        assert!(said.contains(due), "{said}");
    }
    let said = bulk(&["judge", "--time", TIME, text(&sample("evening.xml"))]).trouble();
    assert!(said.contains("There is no --time for judge."), "{said}");
    assert_eq!(bulk(&["check", "reference", "--day"]).done(0), "reference “--day”: accepted\n");
}

#[test]
fn help_of_its_own() {
    for words in [
        &["help", "day"][..],
        &["day", "--help"],
        &["day", "enter", "-h"],
        &["--de", "day", "--help"],
    ] {
        let said = bulk(words).done(0);
        assert!(said.lines().count() <= 24, "{said}");
        for word in [
            "new", "enter", "withdraw", "total", "list", "report", "play", "repair", "--day",
            "--time",
        ] {
            assert!(said.contains(word), "{word}");
        }
    }
    assert!(bulk(&["help"]).done(0).contains("bulk help day"));
}

#[test]
fn a_message_from_standard_input() {
    let day = Day::new();
    let mut command = day.command(&["--plain", "enter", "-"]);
    command.stdin(fs::File::open(day.bulk("CORE", "A")).unwrap());
    assert_eq!(Said::from(command.output().unwrap()).done(0), "entered 1 202490\n");
    assert_eq!(day.held()["messages/000000.xml"], named("CORE", "A").as_bytes());
    let said = day.call(&["enter", "none.xml"]).trouble();
    assert!(said.contains("none.xml: There is no such file."), "{said}");
}

/// What looks doubled is warned of here too.
#[test]
fn warnings_of_the_judge() {
    let day = Day::new();
    let alike = fs::read_to_string(sample("alike.xml")).unwrap();
    let (before, rest) = alike.split_once("<MsgId>").unwrap();
    let (_, behind) = rest.split_once('<').unwrap();
    let file = day.folder.put("alike.xml", format!("{before}<MsgId>ALIKE<{behind}"));
    let said = day.call(&["enter", text(&file)]).done(0);
    assert!(
        said.contains("; open: 1 bulk, ") && said.contains("  Warning: looks doubled: "),
        "{said}"
    );
}

/// A message over the limit is refused with 1, and nothing is written.
#[test]
fn a_message_over_the_limit() {
    let day = Day::new();
    let file = day.folder.put("long.xml", vec![b' '; LIMIT + 1]);
    assert_eq!(day.call(&["--plain", "enter", text(&file)]).done(1), "refused 1 0\n");
    assert_eq!(day.held().len(), 1);
    // One with white space up to the limit is taken as it is.
    let mut message = named("CORE", "A").into_bytes();
    message.resize(LIMIT, b'\n');
    let file = day.folder.put("most.xml", &message);
    assert_eq!(day.call(&["--plain", "enter", text(&file)]).done(0), "entered 1 202490\n");
    assert_eq!(day.held()["messages/000000.xml"].len(), LIMIT);
    assert_eq!(day.call(&["--plain", "play"]).done(0), "played 1 1 202490\n");
}

/// The answer goes nowhere: the call is recorded all the same, and that is told.
#[test]
fn an_answer_that_cannot_be_told() {
    let day = Day::new();
    let Ok(full) = fs::OpenOptions::new().write(true).open("/dev/full") else {
        return left_out("there is no /dev/full");
    };
    let output = day.asking(["enter", "CORE", "A"]).stdout(Stdio::from(full)).output().unwrap();
    let said = Said::from(output);
    assert_eq!(said.status, 2);
    assert!(said.err.ends_with("The call is recorded.\n"), "{}", said.err);
    assert_eq!(day.call(&["total", "--plain"]).done(0), "open 1 202490\n");
}

#[test]
fn for_programs() {
    let day = Day::new();
    let file = day.bulk("CORE", "A");
    let said = day.call(&["--json", "enter", text(&file), "--time", TIME]).done(0);
    for part in [
        r#"{"line":null,"call":"enter","#,
        r#""verdict":"entered","cents":202490,"#,
        r#""open":1,"open_euros":"2024.90","judged":{"file":"#,
        r#""bulks":[],"time":"2026-10-28T17:00:00+01:00","day":"#,
        r#","needs_repair":false}"#,
    ] {
        assert!(said.contains(part), "{part} {said}");
    }
    let said = day.call(&["--json", "list"]).done(0);
    for part in [
        r#""bulks":[{"at":0,"service":"CORE","msg_id":"A","bic":"HAFNDEHHXXX","#,
        r#""cents":202490,"time":"2026-10-28T17:00:00+01:00"}],"time":null,"#,
    ] {
        assert!(said.contains(part), "{part} {said}");
    }
    let said = day.call(&["--json", "report"]).done(0);
    for part in [
        r#"{"call":"report","open":1,"open_euros":"2024.90","sums":["#,
        r#"[{"service":"CORE","sequence":"FRST","euros":"37.80"},"#,
    ] {
        assert!(said.contains(part), "{part} {said}");
    }
    assert_eq!(said.matches(r#""euros":"0.00""#).count(), 4, "{said}");
}

#[test]
fn for_scripts_and_spreadsheets() {
    let day = Day::new();
    day.ask(["enter", "CORE", "A"]).done(0);
    let said = day.call(&["--plain", "report"]).done(0);
    let core = "CORE FRST 3780\nCORE RCUR 196550\nCORE FNAL 895\nCORE OOFF 1265\n";
    let b2b = "B2B FRST 0\nB2B RCUR 0\nB2B FNAL 0\nB2B OOFF 0\n";
    assert_eq!(said, format!("{core}{b2b}open 1 202490\n"));
    let due = "\"Verfahren\";\"Lastschrift-Typ\";\"Cent\";\"EUR\"\n\"CORE\";\"FRST\";3780;37,80\n";
    assert!(day.call(&["--de", "--csv", "report"]).done(0).starts_with(due));
    let due = "\"Entered\";\"Service\";\"MsgId\";\"BIC\";\"Settlement\";\"Cents\";\"EUR\"\n\
               2026-10-28T17:00:00+01:00;\"CORE\";\"A\";\"HAFNDEHHXXX\";2026-10-30;202490;2024.90\n";
    assert_eq!(day.call(&["--csv", "list"]).done(0), due);
    assert_eq!(day.call(&["repair", "--plain"]).done(0), "repaired 0\n");
    let said = day.call(&["repair", "--json"]).done(0);
    assert!(
        said.starts_with(r#"{"call":"repair","verdict":"repaired","set_aside":[],"day":"#),
        "{said}"
    );
}

/// `play` takes what the folder holds as it is.
#[test]
fn the_same_by_play() {
    let day = Day::new();
    day.ask(["enter", "CORE", "A"]).done(0);
    day.ask(["enter", "B2B", "B"]).done(0);
    day.ask(["withdraw", "CORE", "A"]).done(0);
    let words = ["play", "recording", "messages/000000.xml", "messages/000001.xml"];
    let played = command(&words).current_dir(day.path()).output().unwrap();
    let (played, report) = (Said::from(played).done(0), day.call(&["report"]).done(0));
    let table = report.trim_end_matches("open: 1 bulk, 2,024.90 EUR (202490 cents)\n");
    let open = "played, 3 records; open: 1 bulk, 2,024.90 EUR (202490 cents)\n";
    assert_eq!(played, format!("recording: {open}{table}"));
}
