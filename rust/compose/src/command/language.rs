//! The language in which it is said why something is refused.

use compose::Language;
use std::env;

/// German where the locale asks for it, else English.
pub fn usual() -> Language {
    of(|name| env::var(name).unwrap_or_default())
}

/// The same by what the environment says; what is not set is empty.
fn of(variable: impl Fn(&str) -> String) -> Language {
    let mut set = ["LC_ALL", "LC_MESSAGES", "LANG"].into_iter().map(variable);
    let locale = set.find(|locale| !locale.is_empty()).unwrap_or_default();
    match locale.split(|c: char| !c.is_ascii_alphabetic()).next() {
        Some("de") => Language::German,
        _ => Language::English,
    }
}

#[cfg(test)]
mod tests {
    use super::of;
    use compose::Language::{English, German};

    #[test]
    fn languages_by_the_environment() {
        let of = |set: &[(&str, &str)]| {
            of(|name| {
                let found = set.iter().find(|(one, _)| *one == name);
                found.map_or(String::new(), |(_, value)| value.to_string())
            })
        };
        for german in ["de", "de_AT", "de_DE.UTF-8", "de.UTF-8", "de_CH@euro"] {
            assert_eq!(of(&[("LANG", german)]), German, "{german}");
        }
        for english in [
            "", "C", "C.UTF-8", "POSIX", "english", "en_GB", "den_CA", "nds_DE",
        ] {
            assert_eq!(of(&[("LANG", english)]), English, "{english}");
        }
        // The first that is set decides, and an empty one is not set.
        let (de, en) = ("de_DE.UTF-8", "en_US.UTF-8");
        for (all, messages, lang, language) in [
            (de, en, en, German),
            (en, de, de, English),
            ("", de, en, German),
            ("", en, de, English),
            ("C", de, de, English),
            ("", "", de, German),
            ("", "", "", English),
        ] {
            let set = [("LC_ALL", all), ("LC_MESSAGES", messages), ("LANG", lang)];
            assert_eq!(of(&set), language, "{set:?}");
        }
        assert_eq!(of(&[("LANGUAGE", de), ("LC_CTYPE", de)]), English);
    }
}
