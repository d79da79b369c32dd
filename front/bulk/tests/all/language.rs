//! Which language it speaks.

use crate::common::*;

#[test]
fn the_locale_chooses_the_language() {
    let file = sample("evening.xml");
    let is_german = |variables: &[(&str, &str)], option: &[&str]| {
        let mut command = command(&["judge", text(&file)]);
        let said = command.args(option).envs(variables.iter().copied()).output().unwrap();
        Said::from(said).done(0).contains("angenommen")
    };
    assert!(is_german(&[("LANG", "de_DE.UTF-8")], &[]));
    assert!(is_german(&[("LC_MESSAGES", "de_AT"), ("LANG", "C")], &[]));
    assert!(is_german(&[("LC_ALL", "de_DE"), ("LC_MESSAGES", "C")], &[]));
    assert!(is_german(&[("LANG", "de")], &[]));
    assert!(!is_german(&[("LC_ALL", "C"), ("LANG", "de_DE")], &[]));
    assert!(!is_german(&[("LC_ALL", "de_DE")], &["--en"]));
    assert!(is_german(&[("LC_ALL", "en_GB")], &["--de"]));
    // Slavey, spoken in Canada, is not German.
    assert!(!is_german(&[("LANG", "den_CA")], &[]));
}

#[test]
fn what_is_meant_for_programs_is_the_same_in_both() {
    let (good, bad) = (sample("evening.xml"), sample("october.xml"));
    for words in [
        &["judge", text(&good), text(&bad)][..],
        &["items", text(&good)],
        &["plain", text(&good)],
        &["same", text(&good), text(&bad)],
    ] {
        let words = |language| [&["--plain", language], words].concat();
        assert_eq!(bulk(&words("--de")).out, bulk(&words("--en")).out);
    }
}
