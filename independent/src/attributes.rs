//! The container policy: what a frame's attributes say.

use crate::allowlist::Allowlist;
use crate::expressions::SourceExpression;
use crate::features::{default_is_all, feature_by_name, FEATURE_COUNT, FULLSCREEN, PLUGINS};
use crate::origins::Origin;

/// For each feature its list, or nothing if the attributes don't have it.
pub type ContainerPolicy = [Option<Allowlist>; FEATURE_COUNT];

/// Words parted by "tabs, line feeds, form feeds, returns and spaces".
fn words(text: &[u8]) -> impl Iterator<Item = &[u8]> {
    text.split(|b| matches!(b, b'\t' | b'\n' | 0x0c | b'\r' | b' '))
        .filter(|word| !word.is_empty())
}

/// An allow attribute "is cut at every `;`", each piece in words; "First word
/// the feature; unknown ones are skipped; the last piece for a feature stands."
/// The sandbox attribute is the frame's own, or nothing if it has none.
pub fn container_policy(
    allow: &[u8],
    allowfullscreen: bool,
    sandbox: Option<&[u8]>,
    container_origin: &Origin<'static>,
    declared_origin: &Origin<'static>,
) -> ContainerPolicy {
    let mut policy = ContainerPolicy::default();
    for piece in allow.split(|&b| b == b';') {
        let mut words = words(piece);
        if let Some(feature) = words.next().and_then(feature_by_name) {
            policy[feature] = Some(container_list(words, container_origin, declared_origin));
        }
    }
    // "With allowfullscreen and no fullscreen entry, fullscreen gets `*`."
    if allowfullscreen && policy[FULLSCREEN].is_none() {
        policy[FULLSCREEN] = Some(Allowlist::All);
    }
    if let Some(text) = sandbox {
        close_sandboxed(&mut policy, text);
    }
    policy
}

/// R-1: "With sandbox present, each of 01's ten features with default * gets
/// an empty list unless its keyword stands [...] or the allow attribute names
/// the feature; the allow list then decides, but plugins stays empty whatever
/// allow says."
fn close_sandboxed(policy: &mut ContainerPolicy, sandbox: &[u8]) {
    let keywords = features_by_keyword(sandbox);
    for feature in (0..FEATURE_COUNT).filter(|&f| default_is_all(f)) {
        let named = policy[feature].is_some();
        if feature == PLUGINS || !(named || keywords[feature]) {
            policy[feature] = Some(Allowlist::empty());
        }
    }
}

/// For each feature: does its keyword stand in the sandbox attribute?
pub fn features_by_keyword(sandbox: &[u8]) -> [bool; FEATURE_COUNT] {
    let mut stands = [false; FEATURE_COUNT];
    for feature in words(sandbox).filter_map(feature_by_keyword) {
        stands[feature] = true;
    }
    stands
}

/// A keyword is "`allow-` and the feature's name, case ignored; plugins has
/// none"; only the ten with default * have one.
fn feature_by_keyword(word: &[u8]) -> Option<usize> {
    let word = word.to_ascii_lowercase();
    let feature = feature_by_name(word.strip_prefix(b"allow-")?)?;
    (default_is_all(feature) && feature != PLUGINS).then_some(feature)
}

fn container_list<'a>(
    words: impl Iterator<Item = &'a [u8]>,
    container_origin: &Origin<'static>,
    declared_origin: &Origin<'static>,
) -> Allowlist {
    let mut words = words.peekable();
    let mut origins = Vec::new();
    let mut expressions = Vec::new();
    // "No further words: the list is the declared origin."
    if words.peek().is_none() {
        origins.push(declared_origin.clone());
    }
    for word in words {
        // "A word `*` makes the list `*`."
        if word == b"*" {
            return Allowlist::All;
        }
        // "`'self'` is the container's origin and `'src'` the declared origin,
        // case ignored; expressions count; everything else, `'none'` included,
        // adds nothing."
        if word.eq_ignore_ascii_case(b"'self'") {
            origins.push(container_origin.clone());
        } else if word.eq_ignore_ascii_case(b"'src'") {
            origins.push(declared_origin.clone());
        } else if let Some(expression) = SourceExpression::parse(word) {
            expressions.push(expression);
        }
    }
    Allowlist::Listed {
        origins,
        expressions,
    }
}

/// "a sandbox attribute stands without `allow-same-origin` (words parted by
/// whitespace, case ignored)"; "No sandbox attribute and an empty one differ."
pub fn sandboxes(sandbox: Option<&[u8]>) -> bool {
    match sandbox {
        None => false,
        Some(text) => !words(text).any(|w| w.eq_ignore_ascii_case(b"allow-same-origin")),
    }
}

#[cfg(test)]
mod tests {
    use super::*;
    use crate::origins::OriginText;

    fn origin(text: &'static str) -> Origin<'static> {
        match OriginText::parse(text.as_bytes()) {
            Some(OriginText::Tuple(t)) => Origin::Tuple(t),
            _ => Origin::FreshOpaque,
        }
    }

    /// Does the attribute's list for the feature admit a, b and c?
    fn admitted(allow: &str, feature: usize) -> Option<[bool; 3]> {
        let [a, b, c] = [
            origin("https://a.example"),
            origin("https://b.example"),
            origin("https://c.example"),
        ];
        let policy = container_policy(allow.as_bytes(), false, None, &a, &b);
        policy[feature]
            .as_ref()
            .map(|list| [list.admits(&a), list.admits(&b), list.admits(&c)])
    }

    #[test]
    fn allow_attributes() {
        assert_eq!(admitted("", 0), None);
        assert_eq!(admitted("Camera", 0), None);
        assert_eq!(admitted("camera", 0), Some([false, true, false]));
        assert_eq!(
            admitted(";\t;\ncamera\x0c\r ;", 0),
            Some([false, true, false])
        );
        assert_eq!(admitted("camera 'none'", 0), Some([false; 3]));
        assert_eq!(admitted("camera; camera 'none'", 0), Some([false; 3]));
        assert_eq!(
            admitted("camera 'none';camera", 0),
            Some([false, true, false])
        );
        assert_eq!(admitted("camera 'none' *", 0), Some([true; 3]));
        assert_eq!(admitted("camera 'SELF'", 0), Some([true, false, false]));
        assert_eq!(admitted("camera 'Src'", 0), Some([false, true, false]));
        assert_eq!(admitted("camera self src", 0), Some([false; 3]));
        assert_eq!(
            admitted("camera HTTPS://C.example 'self'", 0),
            Some([true, false, true])
        );
        // R-3: "`http:` and `http://...` admit https origins too".
        assert_eq!(
            admitted("camera http://c.example", 0),
            Some([false, false, true])
        );
        assert_eq!(
            admitted("camera http://c.example:80 http://a.example:443", 0),
            Some([true, false, false])
        );
        assert_eq!(admitted("camera HTTP:", 0), Some([true; 3]));
        assert_eq!(admitted("camera http://*.example", 0), Some([true; 3]));
        assert_eq!(admitted("camera http://*:80", 0), Some([false; 3]));
        assert_eq!(admitted("camera\x0bx; usb *", 0), None);
        assert_eq!(admitted("camera\x0bx; usb *", 16), Some([true; 3]));
    }

    #[test]
    fn allowfullscreen() {
        let here = origin("https://a.example");
        let list = |allow: &str, flag| {
            container_policy(allow.as_bytes(), flag, None, &here, &here)[FULLSCREEN].clone()
        };
        assert!(list("", false).is_none());
        assert!(matches!(list("", true), Some(Allowlist::All)));
        assert!(matches!(
            list("fullscreen 'none'", true),
            Some(Allowlist::Listed { .. })
        ));
    }

    #[test]
    fn sandbox_attributes() {
        assert!(!sandboxes(None));
        assert!(sandboxes(Some(b"")));
        assert!(sandboxes(Some(b"allow-scripts")));
        assert!(sandboxes(Some(b"allow-same-originx allow-same-origin,")));
        assert!(!sandboxes(Some(b"allow-scripts\tALLOW-same-ORIGIN\n")));
    }

    /// The features whose keyword stands, in number order.
    fn by_keyword(sandbox: &str) -> Vec<usize> {
        let stands = features_by_keyword(sandbox.as_bytes());
        (0..FEATURE_COUNT).filter(|&f| stands[f]).collect()
    }

    #[test]
    fn the_nine_keywords() {
        let all = "allow-downloads-without-user-activation allow-forms allow-modals \
                   allow-orientation-lock allow-pointer-lock allow-popups \
                   allow-presentation allow-scripts allow-top-navigation";
        let numbers = [2, 3, 7, 8, 11, 12, 13, 14, 15];
        assert_eq!(by_keyword(all), numbers);
        assert_eq!(by_keyword(&all.to_uppercase()), numbers);
        for (word, number) in all.split(' ').zip(numbers) {
            assert_eq!(by_keyword(word), [number], "{word}");
        }
        assert_eq!(
            by_keyword("\x0cALLOW-Forms\tallow-forms\nallow-SCRIPTS\rx allow-modals "),
            [3, 7, 14]
        );
    }

    #[test]
    fn no_keywords() {
        for text in [
            "",
            " \t\n\x0c\r",
            "allow-plugins",
            "ALLOW-PLUGINS",
            "allow-camera",
            "allow-fullscreen",
            "allow-same-origin",
            "allow-popups-to-escape-sandbox",
            "allow-downloads",
            "allow-scripts2",
            "allow-script",
            "allow_scripts",
            "allow--scripts",
            "allow scripts",
            "scripts",
            "allow-",
            "xallow-scripts",
            "allow-scripts;",
            "allow-scripts,allow-forms",
            "allow-scripts\x0ballow-forms",
            "allow-\u{17f}cripts",
            "allow-orientation-loc\u{212a}",
        ] {
            assert_eq!(by_keyword(text), [], "{text}");
        }
    }

    /// Which features the attributes have with a list that admits nothing of
    /// a, b and an opaque origin; the declared origin is b.
    fn closed(allow: &str, sandbox: Option<&str>) -> Vec<usize> {
        let [a, b] = [origin("https://a.example"), origin("https://b.example")];
        let sandbox = sandbox.map(str::as_bytes);
        let policy = container_policy(allow.as_bytes(), false, sandbox, &a, &b);
        (0..FEATURE_COUNT)
            .filter(|&f| {
                policy[f].as_ref().is_some_and(|list| {
                    ![&a, &b, &Origin::Opaque(1)].iter().any(|o| list.admits(o))
                })
            })
            .collect()
    }

    #[test]
    fn sandbox_as_a_policy() {
        assert_eq!(closed("", None), []);
        let ten = [2, 3, 7, 8, 10, 11, 12, 13, 14, 15];
        assert_eq!(closed("", Some("")), ten);
        assert_eq!(closed("", Some("allow-same-origin")), ten);
        assert_eq!(
            closed("", Some("allow-scripts allow-modals")),
            [2, 3, 8, 10, 11, 12, 13, 15]
        );
        // The allow list decides, with the keyword and without.
        assert_eq!(
            closed("forms; modals *; popups 'self'", Some("")),
            [2, 8, 10, 11, 13, 14, 15]
        );
        assert_eq!(
            closed("forms 'none'; camera 'none'", Some("allow-forms")),
            [0, 2, 3, 7, 8, 10, 11, 12, 13, 14, 15]
        );
        // But not of plugins.
        assert_eq!(closed("plugins *", None), []);
        assert_eq!(closed("plugins *", Some("allow-plugins")), ten);
        // A name in another case is unknown.
        assert_eq!(closed("Forms *", Some("")), ten);
    }
}
