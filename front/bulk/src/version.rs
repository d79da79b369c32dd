//! The version that a message's root names, and what it decides: the BIC elements alone. The library
//! reads a message as that version and tells none, so it is found here, by the root.

use face::Kind;

#[derive(Clone, Copy, Debug, PartialEq, Eq)]
pub enum Version {
    V02,
    V08,
}

/// What stands in a root's tag before the version.
const ROOT: &[u8] = b"Document xmlns=\"urn:iso:std:iso:20022:tech:xsd:";

impl Version {
    pub const ALL: [Version; 2] = [Version::V02, Version::V08];

    /// As it is told.
    pub fn name(self) -> &'static str {
        match self {
            Version::V02 => "pacs.003.001.02",
            Version::V08 => "pacs.003.001.08",
        }
    }

    /// What a BIC element is called, and the kind of its value.
    pub fn bic(self) -> (&'static str, Kind) {
        match self {
            Version::V02 => ("BIC", Kind::Bic),
            Version::V08 => ("BICFI", Kind::Bicfi),
        }
    }

    /// The version of a root, by what stands between the brackets of its tag.
    pub fn of_root(inside: &[u8]) -> Option<Version> {
        let name = inside.strip_prefix(ROOT)?.strip_suffix(b"\"")?;
        Version::ALL.into_iter().find(|version| version.name().as_bytes() == name)
    }

    /// Whether an element is that of a BIC in either version.
    pub fn is_bic(name: &[u8]) -> bool {
        Version::ALL.iter().any(|version| version.bic().0.as_bytes() == name)
    }
}

#[cfg(test)]
mod tests {
    use super::*;
    use crate::tags::Open;

    const SAMPLES: [(Version, &[u8]); 2] = [
        (Version::V02, include_bytes!("../../../samples/evening.xml")),
        (Version::V08, include_bytes!("../../../samples/evening08.xml")),
    ];

    /// Every root that is one byte otherwise, and every one that is cut: a version is told exactly
    /// where the library reads past the root.
    #[test]
    fn a_version_wherever_the_library_reads_one() {
        for (version, sample) in SAMPLES {
            assert_eq!(Open::behind(sample).version, Some(version));
            let start = (0..).find(|&at| sample[at..].starts_with(b"<Document")).unwrap();
            let root = &sample[start..start + ROOT.len() + "<pacs.003.001.02\">".len()];
            for length in 0..=root.len() {
                let due = (length == root.len()).then_some(version);
                assert_eq!(Open::behind(&root[..length]).version, due, "{length}");
            }
            for (at, byte) in (0..root.len()).flat_map(|at| (0..=255).map(move |byte| (at, byte))) {
                let mut other = root.to_vec();
                other[at] = byte;
                let is_read = face::judge(&other)[0] == 3;
                assert_eq!(Open::behind(&other).version.is_some(), is_read, "{at} {byte}");
            }
        }
    }
}
