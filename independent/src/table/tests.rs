//! The cases of document 01, the refusal table with its order, R-1 with the
//! examples of document 001, R-3, and R-4's edges.

use super::*;
use crate::compare::random::Random;
use crate::compare::texts::{self, Mood};

const A: &str = "https://a.example";
const B: &str = "https://b.example";
const C: &str = "https://c.example";

const CAMERA: u32 = 0;
const FORMS: u32 = 3;
const SCREEN: u32 = 4;
const MODALS: u32 = 7;
const PLUGINS: u32 = 10;
const POINTER_LOCK: u32 = 11;
const POPUPS: u32 = 12;
const SCRIPTS: u32 = 14;

/// The ten features with default *: 2, 3, 7, 8, 10 to 15.
const TEN: u32 = 64_908;
/// All seventeen.
const ALL: u32 = 131_071;
/// The ten without plugins: those that have a keyword.
const NINE: u32 = 63_884;
const NINE_KEYWORDS: &str = "allow-downloads-without-user-activation allow-forms \
    allow-modals allow-orientation-lock allow-pointer-lock allow-popups \
    allow-presentation allow-scripts allow-top-navigation";

/// A frame with document 01's usual case: src and document at b.
#[derive(Clone, Debug)]
struct Case<'a> {
    container: u32,
    origin: &'a str,
    src: &'a str,
    allowfullscreen: bool,
    allow: &'a str,
    sandbox: Option<&'a str>,
    header: &'a str,
}

fn case(container: u32) -> Case<'static> {
    Case {
        container,
        origin: B,
        src: B,
        allowfullscreen: false,
        allow: "",
        sandbox: None,
        header: "",
    }
}

impl Case<'_> {
    fn frame(&self) -> Frame<'_> {
        Frame {
            container: self.container,
            src: self.src.as_bytes(),
            allowfullscreen: self.allowfullscreen,
            allow: self.allow.as_bytes(),
            sandbox: self.sandbox.map(str::as_bytes),
        }
    }

    fn load(&self, table: &mut Table) -> Result<u32, Refusal> {
        table
            .load_framed(
                &self.frame(),
                self.origin.as_bytes(),
                self.header.as_bytes(),
            )
            .map(|l| l.serial)
    }

    fn forecast(&self, table: &Table) -> Result<u32, Refusal> {
        table.forecast(&self.frame())
    }
}

fn top(table: &mut Table, origin: &str, header: &str) -> Result<u32, Refusal> {
    table
        .load_top_level(origin.as_bytes(), header.as_bytes())
        .map(|l| l.serial)
}

/// A table with one container at a.
fn container(header: &str) -> Table {
    let mut table = Table::new();
    assert_eq!(top(&mut table, A, header), Ok(1));
    table
}

fn ask(table: &Table, serial: u32, feature: u32, origin: &str) -> bool {
    table.question(serial, feature, origin.as_bytes()) == Ok(Decision::Enabled)
}

/// Loads the case in a container with the header and asks at its own origin.
fn enabled_in(header: &str, case: Case, feature: u32) -> bool {
    let mut table = container(header);
    let serial = case.load(&mut table).expect("accepted");
    ask(&table, serial, feature, "")
}

#[test]
fn no_texts() {
    assert!(!enabled_in("", case(1), CAMERA));
    assert!(enabled_in("", case(1), FORMS));
}

#[test]
fn allow_camera() {
    let case = Case {
        allow: "camera",
        ..case(1)
    };
    assert!(enabled_in("", case.clone(), CAMERA));
    assert!(!enabled_in("", Case { origin: C, ..case }, CAMERA));
}

#[test]
fn the_check_at_the_containers_own_origin() {
    let mut table = container("camera=(\"https://b.example\")");
    let case = Case {
        allow: "camera",
        ..case(1)
    };
    let serial = case.load(&mut table).expect("accepted");
    assert!(!ask(&table, 1, CAMERA, ""));
    assert!(!ask(&table, serial, CAMERA, ""));
    assert!(ask(&table, 1, CAMERA, B));
}

#[test]
fn the_last_piece_stands() {
    let case = Case {
        allow: "camera; camera 'none'",
        ..case(1)
    };
    assert!(!enabled_in("", case, CAMERA));
}

#[test]
fn sandboxed_frames() {
    let sandboxed = Case {
        sandbox: Some(""),
        origin: "null",
        ..case(1)
    };
    let with = |allow| Case {
        allow,
        ..sandboxed.clone()
    };
    assert!(!enabled_in("", with("camera"), CAMERA));
    assert!(!enabled_in("", with("camera 'src'"), CAMERA));
    assert!(enabled_in("", with("camera *"), CAMERA));
    // No attribute and an empty one differ.
    let none = Case {
        sandbox: None,
        ..with("camera *")
    };
    assert!(enabled_in("", none, CAMERA));
}

#[test]
fn allowfullscreen() {
    let with = Case {
        allowfullscreen: true,
        ..case(1)
    };
    assert!(enabled_in("", with.clone(), SCREEN));
    let none = Case {
        allow: "fullscreen 'none'",
        ..with
    };
    assert!(!enabled_in("", none, SCREEN));
}

#[test]
fn a_grandchild_cannot_regain() {
    let mut table = container("forms=()");
    let child = case(1).load(&mut table).expect("accepted");
    let grandchild = Case {
        header: "forms=*",
        ..case(child)
    };
    let serial = grandchild.load(&mut table).expect("accepted");
    assert!(!ask(&table, serial, FORMS, ""));
}

#[test]
fn headers_at_the_edges() {
    for (header, malformed) in [
        ("", false),
        ("camera=(), camera=1", false),
        ("camera=(\"junk\")", false),
        ("camera=(self), ", true),
        ("Camera=()", true),
        ("camera=(self", true),
        ("camera=(self\t*)", true),
    ] {
        let mut table = Table::new();
        let loaded = table.load_top_level(A.as_bytes(), header.as_bytes());
        assert_eq!(
            loaded,
            Ok(Loaded {
                serial: 1,
                malformed
            })
        );
        // Only the junk list declares, and admits none.
        assert_eq!(ask(&table, 1, CAMERA, ""), !header.contains("junk"));
    }
}

#[test]
fn opaque_origins() {
    let mut table = Table::new();
    assert_eq!(top(&mut table, "null", "camera=self, usb=*"), Ok(1));
    assert!(ask(&table, 1, CAMERA, ""));
    assert!(!ask(&table, 1, CAMERA, "null"));
    assert!(ask(&table, 1, 16, "null"));
    // The empty text takes the container's opaque origin over.
    let taking_over = Case {
        origin: "",
        src: "",
        ..case(1)
    };
    let serial = taking_over.load(&mut table).expect("accepted");
    assert!(ask(&table, serial, CAMERA, ""));
    assert_eq!(taking_over.forecast(&table).map(|bits| bits & 1), Ok(1));
    // `null` doesn't, neither as the document's text nor as src.
    let fresh = Case {
        origin: "null",
        src: "null",
        allow: "camera; microphone; payment 'src'; geolocation *",
        ..case(1)
    };
    let serial = fresh.load(&mut table).expect("accepted");
    for (feature, enabled) in [(0, false), (6, false), (9, false), (5, true)] {
        assert_eq!(ask(&table, serial, feature, ""), enabled);
        let forecast = fresh.forecast(&table).expect("accepted");
        assert_eq!(forecast >> feature & 1 == 1, enabled);
    }
}

#[test]
fn a_sandboxed_container_sandboxes() {
    let mut table = container("");
    let outer = Case {
        sandbox: Some("allow-scripts"),
        origin: "null",
        allow: "camera *",
        ..case(1)
    };
    assert_eq!(outer.load(&mut table), Ok(2));
    // Even with allow-same-origin, or with no attribute at all.
    for sandbox in [Some("allow-same-origin"), None] {
        let inner = Case { sandbox, ..case(2) };
        assert_eq!(inner.load(&mut table), Err(Refusal::Sandbox));
        let empty = Case {
            origin: "",
            ..inner.clone()
        };
        assert_eq!(empty.load(&mut table), Err(Refusal::Sandbox));
        let null = Case {
            origin: "null",
            allow: "camera",
            ..inner
        };
        let serial = null.load(&mut table).expect("accepted");
        assert!(!ask(&table, serial, CAMERA, ""));
    }
    let allowed = Case {
        sandbox: Some("Allow-Same-Origin"),
        ..case(1)
    };
    assert_eq!(allowed.load(&mut table), Ok(5));
}

// ------------------------------------------------- R-1, document 001

/// A frame with a sandbox attribute in the container 1. Without
/// `allow-same-origin` its document's origin must be `null`.
fn sandboxed<'a>(sandbox: &'a str, allow: &'a str) -> Case<'a> {
    let same_origin = sandbox.to_ascii_lowercase().contains("allow-same-origin");
    Case {
        origin: if same_origin { B } else { "null" },
        allow,
        sandbox: Some(sandbox),
        ..case(1)
    }
}

/// The number of enabled features after loading the case in a container with
/// the header; the forecast must be the same.
fn features_in(header: &str, case: Case) -> u32 {
    let mut table = container(header);
    let forecast = case.forecast(&table).expect("accepted");
    let serial = case.load(&mut table).expect("accepted");
    assert_eq!(table.enabled_features(serial), Ok(forecast), "{case:?}");
    forecast
}

/// Bit n for each feature n.
fn set(features: &[u32]) -> u32 {
    features.iter().fold(0, |bits, feature| bits | 1 << feature)
}

#[test]
fn an_empty_sandbox_attribute_closes_the_ten() {
    // 001: `<iframe sandbox></iframe>`; downloads-without-user-activation, which
    // its example leaves out, as well.
    assert_eq!(features_in("", case(1)), TEN);
    assert_eq!(features_in("", sandboxed("", "")), 0);
    assert_eq!(features_in("", sandboxed(" \t\n\x0c\r", "")), 0);
    // With `allow-same-origin` too.
    assert_eq!(features_in("", sandboxed("allow-same-origin", "")), 0);
    // The seven with default self are as before: at the container's own origin.
    let own = Case {
        src: "",
        origin: "",
        ..sandboxed("allow-same-origin", "")
    };
    assert_eq!(features_in("", own), ALL - TEN);
    let camera = sandboxed("allow-same-origin", "camera");
    assert_eq!(features_in("", camera), set(&[CAMERA]));
    let screen = Case {
        allowfullscreen: true,
        ..sandboxed("", "")
    };
    assert_eq!(features_in("", screen), set(&[SCREEN]));
}

#[test]
fn keywords_open() {
    // 001: `sandbox="allow-scripts allow-modals"`.
    let two = sandboxed("allow-scripts allow-modals", "");
    assert_eq!(features_in("", two), set(&[SCRIPTS, MODALS]));
    // 001: "every sandbox `allow-` keyword could be specified"; plugins stay
    // closed.
    assert_eq!(features_in("", sandboxed(NINE_KEYWORDS, "")), NINE);
    let upper = NINE_KEYWORDS.to_uppercase();
    assert_eq!(features_in("", sandboxed(&upper, "")), NINE);
    let with = format!("{NINE_KEYWORDS} allow-same-origin");
    assert_eq!(features_in("", sandboxed(&with, "")), NINE);
    // 001: two keywords that correspond to no feature; and there is no
    // `allow-plugins`.
    let none = "allow-popups-to-escape-sandbox allow-plugins allow-same-origin";
    assert_eq!(features_in("", sandboxed(none, "")), 0);
}

#[test]
fn a_bare_name_needs_the_declared_origin() {
    // 001: `<iframe sandbox="allow-scripts">` and `<iframe sandbox
    // allow="scripts">`. Here the second stays Disabled.
    let scripts = set(&[SCRIPTS]);
    assert_eq!(features_in("", sandboxed("allow-scripts", "")), scripts);
    assert_eq!(features_in("", sandboxed("", "scripts")), 0);
    assert_eq!(features_in("", sandboxed("", "scripts 'src'")), 0);
    assert_eq!(features_in("", sandboxed("", "scripts *")), scripts);
    let same_origin = "allow-same-origin";
    assert_eq!(features_in("", sandboxed(same_origin, "scripts")), scripts);
    // Judged by what arrives.
    let elsewhere = Case {
        origin: C,
        ..sandboxed(same_origin, "scripts")
    };
    assert!(!enabled_in("", elsewhere, SCRIPTS));
}

#[test]
fn nothing_else_opens_what_sandbox_closed() {
    // 001: neither the content's own header nor a nested frame's allow.
    let mut table = container("");
    let outer = Case {
        header: "scripts=*",
        ..sandboxed("", "")
    };
    assert_eq!(outer.load(&mut table), Ok(2));
    assert!(!ask(&table, 2, SCRIPTS, ""));
    for (sandbox, allow) in [
        (None, "scripts"),
        (None, "scripts *"),
        (Some("allow-scripts"), "scripts *"),
    ] {
        let nested = Case {
            origin: "null",
            sandbox,
            allow,
            ..case(2)
        };
        assert_eq!(nested.forecast(&table), Ok(0));
        let serial = nested.load(&mut table).expect("accepted");
        assert_eq!(table.enabled_features(serial), Ok(0));
    }
    // Nor does a keyword open what the container's header closed.
    assert_eq!(
        features_in("forms=()", sandboxed("allow-forms", "forms *")),
        0
    );
    let own_only = sandboxed("allow-same-origin allow-forms", "");
    assert_eq!(features_in("forms=self", own_only), 0);
    // And what a keyword opened the document's own header closes.
    let closing = Case {
        header: "popups=()",
        ..sandboxed("allow-popups", "")
    };
    assert!(!enabled_in("", closing, POPUPS));
}

#[test]
fn allow_takes_precedence() {
    // 001: `sandbox="allow-scripts" allow="scripts 'none'"`.
    assert_eq!(
        features_in("", sandboxed("allow-scripts", "scripts 'none'")),
        0
    );
    assert_eq!(features_in("", sandboxed("allow-scripts", "scripts")), 0);
    assert_eq!(
        features_in("", sandboxed("allow-scripts", "scripts *; scripts 'none'")),
        0
    );
    // An unknown name is no entry.
    assert_eq!(
        features_in("", sandboxed("allow-scripts", "Scripts 'none'")),
        set(&[SCRIPTS])
    );
    // 001: `sandbox="allow-scripts allow-same-origin" allow="scripts
    // https://example.com"`: "only [...] when pointed at a particular origin".
    let pointed = |origin| Case {
        src: origin,
        origin,
        ..sandboxed(
            "allow-scripts allow-same-origin",
            "scripts https://example.com",
        )
    };
    assert_eq!(
        features_in("", pointed("https://example.com")),
        set(&[SCRIPTS])
    );
    assert_eq!(features_in("", pointed(B)), 0);
}

#[test]
fn plugins_stay_closed() {
    // 001: `<iframe sandbox allow="plugins"></iframe>`.
    for sandbox in ["", "allow-same-origin", "allow-plugins", "Allow-Plugins x"] {
        for allow in [
            "",
            "plugins",
            "plugins *",
            "plugins 'src'",
            "plugins https:",
        ] {
            assert_eq!(features_in("", sandboxed(sandbox, allow)), 0);
        }
    }
    let without = Case {
        allow: "plugins",
        ..case(1)
    };
    assert!(enabled_in("", without, PLUGINS));
}

#[test]
fn the_ten_without_sandboxing() {
    // 001: `<iframe allow="pointer-lock 'none'">`, and a header for modals.
    let frame = Case {
        allow: "pointer-lock 'none'",
        ..case(1)
    };
    assert_eq!(features_in("", frame), TEN - set(&[POINTER_LOCK]));
    let table = container("modals=()");
    assert_eq!(table.enabled_features(1), Ok(ALL - set(&[MODALS])));
}

#[test]
fn only_a_frames_own_attribute_closes() {
    let mut table = container("");
    let outer = sandboxed("allow-forms allow-scripts", "popups *");
    assert_eq!(outer.load(&mut table), Ok(2));
    let kept = set(&[FORMS, SCRIPTS, POPUPS]);
    assert_eq!(table.enabled_features(2), Ok(kept));
    // Without an attribute a frame keeps what the sandboxed container has, two
    // levels beneath too; with one it doesn't.
    let mut deepest = 2;
    for _ in 0..2 {
        for (sandbox, allow, features) in [
            (Some(""), "", 0),
            (Some("allow-same-origin"), "", 0),
            (Some("allow-scripts allow-modals"), "", set(&[SCRIPTS])),
            (Some("allow-scripts"), "forms *", set(&[SCRIPTS, FORMS])),
            (None, "forms 'none'", kept - set(&[FORMS])),
            (None, "", kept),
        ] {
            let inner = Case {
                origin: "null",
                sandbox,
                allow,
                ..case(deepest)
            };
            assert_eq!(inner.forecast(&table), Ok(features));
            let serial = inner.load(&mut table).expect("accepted");
            assert_eq!(table.enabled_features(serial), Ok(features));
        }
        deepest = table.last_serial;
    }
}

#[test]
fn keywords_change_no_refusal() {
    let mut table = container("");
    for sandbox in ["", "allow-scripts", NINE_KEYWORDS] {
        let tuple = Case {
            origin: B,
            ..sandboxed(sandbox, "")
        };
        assert_eq!(tuple.load(&mut table), Err(Refusal::Sandbox));
    }
    // 4,096 bytes are read to the end.
    let long = format!("{}allow-forms", " ".repeat(4085));
    assert_eq!(features_in("", sandboxed(&long, "")), set(&[FORMS]));
    let over = format!(" {long}");
    let over = sandboxed(&over, "");
    assert_eq!(over.load(&mut table), Err(Refusal::TooLong));
    assert_eq!(over.forecast(&table), Err(Refusal::TooLong));
}

/// Demand 3 "gains: adding one of these keywords to a sandbox attribute never
/// takes an Enabled away".
#[test]
fn an_added_keyword_takes_nothing_away() {
    let mut gained = 0;
    for seed in 0..3000 {
        let mut random = Random::new(seed);
        let mood = Mood::new(&mut random);
        let mut table = container("");
        let header = texts::header(&mut random, &mood);
        let sandbox = texts::sandbox(&mut random, &mood);
        let allow = texts::allow_beside_sandbox(&mut random, &mood, &sandbox);
        let mut sandbox = sandbox.text;
        let keyword = *random.pick(&NINE_KEYWORDS.split(' ').collect::<Vec<_>>());
        let mut features = |sandbox: &[u8]| {
            let frame = Frame {
                container: 1,
                src: B.as_bytes(),
                allowfullscreen: false,
                allow: &allow,
                sandbox: Some(sandbox),
            };
            let forecast = table.forecast(&frame)?;
            let origin: &[u8] = if sandboxes(Some(sandbox)) {
                b"null"
            } else {
                B.as_bytes()
            };
            let loaded = table.load_framed(&frame, origin, &header)?;
            Ok::<_, Refusal>((forecast, table.enabled_features(loaded.serial)?))
        };
        let first = features(&sandbox);
        // A space on both sides, so that no word changes.
        let place = random.below(2) * sandbox.len();
        sandbox.splice(place..place, format!(" {keyword} ").into_bytes());
        let second = features(&sandbox);
        if let (Ok(first), Ok(second)) = (first, second) {
            assert_eq!(first.0 & !second.0, 0);
            assert_eq!(first.1 & !second.1, 0);
            gained += usize::from(second.0 != first.0);
        }
    }
    assert!(gained > 500, "{gained}");
}

// --------------------------------------------------------------- R-3

/// "`http:` and `http://...` admit https origins too" in headers and allow
/// attributes, for frames and for questions.
#[test]
fn pages_that_moved_to_https() {
    let camera = set(&[CAMERA]);
    for (expression, features) in [
        ("http:", camera),
        ("http://b.example", camera),
        ("http://*.example", camera),
        ("http://*", camera),
        ("http://b.example:*", camera),
        ("http://b.example:443", camera),
        ("http://b.example:80", 0),
        ("http://*:80", 0),
        ("http://b.example:8080", 0),
        ("http://c.example", 0),
        ("https://b.example:80", 0),
    ] {
        let header = format!("camera=(self \"{expression}\")");
        let allow = format!("camera {expression}");
        for (header, allow) in [
            (header.as_str(), "camera"),
            ("", allow.as_str()),
            (header.as_str(), allow.as_str()),
        ] {
            let frame = Case { allow, ..case(1) };
            let bits = features_in(header, frame);
            assert_eq!(bits & camera, features, "{header} {allow}");
        }
        let table = container(&header);
        assert_eq!(ask(&table, 1, CAMERA, B), features != 0, "{header}");
    }
}

/// An https expression admits no http origin.
#[test]
fn pages_that_did_not_move() {
    let plain = "http://b.example";
    for expression in ["https:", "https://b.example", "https://b.example:*"] {
        let header = format!("camera=(self \"{expression}\")");
        let table = container(&header);
        assert!(!ask(&table, 1, CAMERA, plain), "{header}");
        let allow = format!("camera {expression}");
        let frame = Case {
            origin: plain,
            src: plain,
            allow: &allow,
            ..case(1)
        };
        assert!(!enabled_in("", frame, CAMERA), "{allow}");
    }
}

/// Only expressions admit https for http: `self`, `'self'`, `'src'` and the
/// default self are origins, and "holds that origin" is as before.
#[test]
fn an_http_origin_is_no_expression() {
    let plain = "http://a.example";
    for header in ["", "camera=self"] {
        let mut table = Table::new();
        assert_eq!(top(&mut table, plain, header), Ok(1));
        assert!(ask(&table, 1, CAMERA, ""));
        assert!(ask(&table, 1, CAMERA, plain));
        assert!(!ask(&table, 1, CAMERA, A));
    }
    for (allow, enabled) in [
        ("", false),
        ("camera", false),
        ("camera 'self'", false),
        ("camera 'src'", false),
        ("camera http://a.example", true),
    ] {
        let mut table = Table::new();
        assert_eq!(top(&mut table, plain, ""), Ok(1));
        let moved = Case {
            origin: A,
            src: plain,
            allow,
            ..case(1)
        };
        let serial = moved.load(&mut table).expect("accepted");
        assert_eq!(ask(&table, serial, CAMERA, ""), enabled, "{allow}");
    }
}

#[test]
fn serials_counts_and_listings() {
    let mut table = container("");
    assert_eq!(case(1).load(&mut table), Ok(2));
    assert_eq!(top(&mut table, B, ""), Ok(3));
    assert_eq!(case(2).load(&mut table), Ok(4));
    assert_eq!(case(1).load(&mut table), Ok(5));
    let mut lent = [9; 4];
    assert_eq!(table.serials_beneath(1, &mut lent), Ok(3));
    assert_eq!(lent, [2, 4, 5, 9]);
    let mut lent = [9; 2];
    assert_eq!(table.serials_beneath(1, &mut lent), Err(Refusal::Small));
    assert_eq!(lent, [9; 2]);
    assert_eq!(table.serials_beneath(5, &mut []), Ok(0));
    assert_eq!(table.unload(2), Ok(2));
    assert_eq!(table.unload(2), Err(Refusal::NotLoaded));
    assert_eq!(table.unload(4), Err(Refusal::NotLoaded));
    assert_eq!(top(&mut table, B, ""), Ok(6));
    assert_eq!(table.unload(1), Ok(2));
    assert_eq!(table.enabled_features(3), Ok((1 << 17) - 1));
}

/// A table of 64 documents, the second sandboxed.
fn full() -> Table {
    let mut table = container("");
    let sandboxed = Case {
        sandbox: Some(""),
        origin: "null",
        ..case(1)
    };
    assert_eq!(sandboxed.load(&mut table), Ok(2));
    for serial in 3..=64 {
        assert_eq!(case(1).load(&mut table), Ok(serial));
    }
    table
}

#[test]
fn the_refusals_in_their_order() {
    let mut table = full();
    let long = "x".repeat(4097);
    // All at once, then one mended after the other: 4, 3, 3, 1, 5, 6.
    let mut all = Case {
        container: 99,
        origin: "junk",
        src: "junk",
        allowfullscreen: false,
        allow: &long,
        sandbox: Some(&long),
        header: &long,
    };
    assert_eq!(all.load(&mut table), Err(Refusal::TooLong));
    all.header = &long[1..];
    assert_eq!(all.load(&mut table), Err(Refusal::TooLong));
    assert_eq!(all.forecast(&table), Err(Refusal::TooLong));
    all.allow = &long[1..];
    assert_eq!(all.load(&mut table), Err(Refusal::TooLong));
    assert_eq!(all.forecast(&table), Err(Refusal::TooLong));
    all.sandbox = Some(&long[1..]);
    assert_eq!(all.load(&mut table), Err(Refusal::BadOrigin));
    all.origin = B;
    assert_eq!(all.load(&mut table), Err(Refusal::BadOrigin));
    assert_eq!(all.forecast(&table), Err(Refusal::BadOrigin));
    all.src = B;
    assert_eq!(all.load(&mut table), Err(Refusal::NotLoaded));
    assert_eq!(all.forecast(&table), Err(Refusal::NotLoaded));
    all.container = 2;
    assert_eq!(all.load(&mut table), Err(Refusal::Sandbox));
    assert!(all.forecast(&table).is_ok());
    all.origin = "null";
    assert_eq!(all.load(&mut table), Err(Refusal::Full));
    table.unload(64).expect("accepted");
    table.last_serial = LAST_SERIAL;
    assert_eq!(all.load(&mut table), Err(Refusal::Spent));

    // Top level: 4, 3, 6, 7.
    let mut table = full();
    assert_eq!(top(&mut table, "junk", &long), Err(Refusal::TooLong));
    assert_eq!(top(&mut table, "junk", ""), Err(Refusal::BadOrigin));
    assert_eq!(top(&mut table, "", ""), Err(Refusal::BadOrigin));
    table.last_serial = LAST_SERIAL;
    assert_eq!(top(&mut table, A, ""), Err(Refusal::Full));
    table.unload(64).expect("accepted");
    assert_eq!(top(&mut table, A, ""), Err(Refusal::Spent));
    table.last_serial = LAST_SERIAL - 1;
    assert_eq!(top(&mut table, A, &long[1..]), Ok(LAST_SERIAL));

    // Questions: 3, 2, 1.
    let question =
        |serial, feature, origin: &str| table.question(serial, feature, origin.as_bytes());
    assert_eq!(question(0, 17, "junk"), Err(Refusal::BadOrigin));
    assert_eq!(question(0, 17, A), Err(Refusal::NoSuchFeature));
    assert_eq!(question(0, u32::MAX, ""), Err(Refusal::NoSuchFeature));
    assert_eq!(question(0, 16, ""), Err(Refusal::NotLoaded));
    assert_eq!(question(1, 16, ""), Ok(Decision::Enabled));

    // Listings: 1, 9.
    assert_eq!(table.serials_beneath(0, &mut []), Err(Refusal::NotLoaded));
    assert_eq!(table.serials_beneath(1, &mut []), Err(Refusal::Small));
    assert_eq!(table.enabled_features(64), Err(Refusal::NotLoaded));
}

#[test]
fn the_limits() {
    let mut table = full();
    assert_eq!(top(&mut table, A, ""), Err(Refusal::Full));
    assert_eq!(table.documents.len(), 64);

    let mut table = Table::new();
    assert_eq!(top(&mut table, A, &" ".repeat(4096)), Ok(1));
    assert_eq!(top(&mut table, A, &" ".repeat(4097)), Err(Refusal::TooLong));
    // What decides may stand at the end.
    let header = format!("{}camera=()", " ".repeat(4087));
    assert_eq!(top(&mut table, A, &header), Ok(2));
    assert!(!ask(&table, 2, CAMERA, ""));
    let host = "a".repeat(253);
    assert_eq!(top(&mut table, &format!("http://{host}"), ""), Ok(3));
    // A long origin text is bad, however long it is.
    for more in [1, 3843, 3844, 5000] {
        let origin = format!("http://{host}{}", "a".repeat(more));
        assert_eq!(top(&mut table, &origin, ""), Err(Refusal::BadOrigin));
        assert_eq!(
            table.question(1, CAMERA, origin.as_bytes()),
            Err(Refusal::BadOrigin)
        );
        let frame = Case {
            src: &origin,
            ..case(1)
        };
        assert_eq!(frame.load(&mut table), Err(Refusal::BadOrigin));
        assert_eq!(frame.forecast(&table), Err(Refusal::BadOrigin));
    }
}

// --------------------------------------------------------------- R-4

/// 4,096 bytes of allow and of sandbox are read to the end, 4,097 refused.
#[test]
fn long_attributes() {
    let camera = set(&[CAMERA]);
    for filler in [" ", ";", "x;", "forms;"] {
        let mut allow = filler.repeat(4096);
        allow.truncate(4089);
        allow.push_str(";camera");
        let frame = Case {
            allow: &allow,
            ..case(1)
        };
        assert_eq!(features_in("", frame) & camera, camera, "{filler}");
        allow.insert(0, ';');
        let frame = Case {
            allow: &allow,
            ..case(1)
        };
        let mut table = container("");
        assert_eq!(frame.load(&mut table), Err(Refusal::TooLong));
        assert_eq!(frame.forecast(&table), Err(Refusal::TooLong));
    }
    for filler in [" ", "x ", "allow-scripts "] {
        let mut sandbox = filler.repeat(4096);
        sandbox.truncate(4078);
        sandbox.push_str(" allow-same-origin");
        assert_eq!(sandbox.len(), 4096);
        let frame = sandboxed(&sandbox, "camera");
        assert_eq!(features_in("", frame) & camera, camera, "{filler}");
        sandbox.push(' ');
        let frame = sandboxed(&sandbox, "camera");
        let mut table = container("");
        assert_eq!(frame.load(&mut table), Err(Refusal::TooLong));
        assert_eq!(frame.forecast(&table), Err(Refusal::TooLong));
    }
    // Each in its place at once.
    let [allow, header] = ["camera *;", "camera=*,"].map(|start| {
        let mut text = start.to_string();
        text.push_str(&"a".repeat(4096 - start.len()));
        text
    });
    let frame = Case {
        header: &header,
        sandbox: Some(&allow),
        origin: "null",
        ..sandboxed("", &allow)
    };
    assert_eq!(features_in("", frame), camera);
}

/// A header of one maker with 3,100 bytes: 130 hosts in one list.
#[test]
fn a_makers_header() {
    let hosts: Vec<String> = (0..130)
        .map(|n| format!("https://m{n:03}.example"))
        .collect();
    let mut header = format!("camera=(\"{}\" self)", hosts.join("\" \""));
    header.push_str(&" ".repeat(3100 - header.len()));
    let table = container(&header);
    for host in &hosts {
        assert!(ask(&table, 1, CAMERA, host), "{host}");
    }
    assert!(!ask(&table, 1, CAMERA, "https://m130.example"));
}

/// The serials beneath, with a lent run of just so many.
fn listing(table: &Table, serial: u32, count: usize) -> Vec<u32> {
    if count > 0 {
        let mut short = vec![9; count - 1];
        assert_eq!(
            table.serials_beneath(serial, &mut short),
            Err(Refusal::Small)
        );
        assert_eq!(short, vec![9; count - 1]);
    }
    let mut lent = vec![0; count];
    assert_eq!(table.serials_beneath(serial, &mut lent), Ok(count));
    let mut longer = vec![0; 70];
    assert_eq!(table.serials_beneath(serial, &mut longer), Ok(count));
    assert_eq!(longer[..count], lent);
    assert!(longer[count..].iter().all(|&place| place == 0));
    lent
}

/// Full: every kind of load is refused with 6 and nothing changes.
fn assert_full(table: &mut Table, container: u32) {
    assert_eq!(table.documents.len(), 64);
    for _ in 0..2 {
        assert_eq!(top(table, A, ""), Err(Refusal::Full));
        assert_eq!(case(container).load(table), Err(Refusal::Full));
    }
    assert!(case(container).forecast(table).is_ok());
    assert_eq!(table.documents.len(), 64);
}

#[test]
fn the_64th_load_in_one_tree() {
    let mut table = container("");
    for serial in 2..=64 {
        assert_eq!(case(1).load(&mut table), Ok(serial));
    }
    assert_full(&mut table, 1);
    assert_eq!(listing(&table, 1, 63), (2..=64).collect::<Vec<u32>>());
    // One goes, one comes; listings stay ascending.
    for (gone, new) in [(2, 65), (33, 66), (64, 67), (67, 68)] {
        assert_eq!(table.unload(gone), Ok(1));
        assert_eq!(case(1).load(&mut table), Ok(new));
        assert_full(&mut table, 1);
        let serials = listing(&table, 1, 63);
        assert!(serials.windows(2).all(|pair| pair[0] < pair[1]));
        assert_eq!(serials.last(), Some(&new));
        assert!(!serials.contains(&gone));
    }
    assert_eq!(table.unload(1), Ok(64));
    assert_eq!(table.unload(1), Err(Refusal::NotLoaded));
    assert_eq!(top(&mut table, A, ""), Ok(69));
}

#[test]
fn the_64th_load_in_many_trees() {
    let mut table = Table::new();
    for serial in 1..=64 {
        let origin = format!("https://t{serial}");
        assert_eq!(top(&mut table, &origin, ""), Ok(serial));
    }
    assert_full(&mut table, 40);
    // A tree with a frame in the room of another tree.
    assert_eq!(table.unload(20), Ok(1));
    assert_eq!(case(40).load(&mut table), Ok(65));
    assert_full(&mut table, 65);
    assert_eq!(listing(&table, 40, 1), [65]);
    assert_eq!(table.unload(40), Ok(2));
    assert_eq!(top(&mut table, A, ""), Ok(66));
    assert_eq!(case(66).load(&mut table), Ok(67));
    assert_full(&mut table, 1);
    // Nobody else was touched.
    for serial in (1..=64).filter(|serial| ![20, 40].contains(serial)) {
        assert_eq!(listing(&table, serial, 0), []);
        assert!(ask(&table, serial, CAMERA, ""));
        assert!(ask(&table, serial, CAMERA, &format!("https://t{serial}")));
        assert!(!ask(&table, serial, CAMERA, "https://t20"));
    }
    // All go, all come.
    for serial in (1..=64).filter(|serial| ![20, 40].contains(serial)) {
        assert_eq!(table.unload(serial), Ok(1));
    }
    assert_eq!(table.unload(66), Ok(2));
    for serial in 68..=131 {
        assert_eq!(top(&mut table, A, ""), Ok(serial));
    }
    assert_full(&mut table, 131);
}

/// A chain of 64: the document with serial n is beneath all before it.
fn chain() -> Table {
    let mut table = container("");
    for serial in 2..=64 {
        let frame = Case {
            allow: "camera *",
            ..case(serial - 1)
        };
        assert_eq!(frame.load(&mut table), Ok(serial));
    }
    table
}

#[test]
fn a_chain_of_64() {
    let mut table = chain();
    assert_full(&mut table, 64);
    for serial in 1..=64 {
        assert!(ask(&table, serial, CAMERA, ""));
        assert!(ask(&table, serial, FORMS, C));
        let beneath: Vec<u32> = (serial + 1..=64).collect();
        assert_eq!(listing(&table, serial, 64 - serial as usize), beneath);
    }
    // In the middle.
    assert_eq!(table.unload(32), Ok(33));
    assert_eq!(listing(&table, 1, 30), (2..=31).collect::<Vec<u32>>());
    for serial in 32..=64 {
        assert_eq!(table.enabled_features(serial), Err(Refusal::NotLoaded));
        assert_eq!(table.unload(serial), Err(Refusal::NotLoaded));
    }
    // The chain once more, closed on the way, down to its end.
    let closed = Case {
        header: "camera=()",
        allow: "camera *",
        ..case(31)
    };
    assert_eq!(closed.load(&mut table), Ok(65));
    for serial in 66..=97 {
        let frame = Case {
            allow: "camera *",
            header: "camera=*",
            ..case(serial - 1)
        };
        assert_eq!(frame.load(&mut table), Ok(serial));
        assert!(!ask(&table, serial, CAMERA, ""));
        assert!(ask(&table, serial, FORMS, ""));
    }
    assert_full(&mut table, 97);
    assert_eq!(listing(&table, 65, 32), (66..=97).collect::<Vec<u32>>());
    // At its end, and at its top.
    assert_eq!(table.unload(97), Ok(1));
    assert_eq!(case(96).load(&mut table), Ok(98));
    assert_full(&mut table, 98);
    assert_eq!(table.unload(1), Ok(64));
    assert_eq!(table.documents.len(), 0);
    assert_eq!(case(98).load(&mut table), Err(Refusal::NotLoaded));
    assert_eq!(top(&mut table, A, ""), Ok(99));
}

/// A chain with a sandboxed document in its middle, and one that takes an
/// opaque origin over down to its end.
#[test]
fn chains_keep_what_was_settled() {
    let mut table = container("");
    let sandbox = Case {
        sandbox: Some("allow-forms"),
        origin: "null",
        ..case(1)
    };
    assert_eq!(sandbox.load(&mut table), Ok(2));
    for serial in 3..=64 {
        assert_eq!(case(serial - 1).load(&mut table), Err(Refusal::Sandbox));
        let null = Case {
            origin: "null",
            ..case(serial - 1)
        };
        assert_eq!(null.load(&mut table), Ok(serial));
        assert_eq!(table.enabled_features(serial), Ok(set(&[FORMS])));
    }
    // 5 before 6.
    assert_eq!(case(64).load(&mut table), Err(Refusal::Sandbox));
    assert_eq!(case(1).load(&mut table), Err(Refusal::Full));

    let mut table = Table::new();
    assert_eq!(top(&mut table, "null", "camera=self"), Ok(1));
    for serial in 2..=64 {
        let taking_over = Case {
            origin: "",
            src: "",
            ..case(serial - 1)
        };
        assert_eq!(taking_over.load(&mut table), Ok(serial));
        assert!(ask(&table, serial, CAMERA, ""));
        assert!(!ask(&table, serial, CAMERA, "null"));
    }
}

/// Trees whose documents were loaded by turns: an unload takes one tree only,
/// and rooms are taken again and again.
#[test]
fn trees_by_turns() {
    let mut table = Table::new();
    // 1 to 4 at the top; n beneath n - 4.
    for serial in 1..=4 {
        assert_eq!(top(&mut table, A, ""), Ok(serial));
    }
    for serial in 5..=64 {
        assert_eq!(case(serial - 4).load(&mut table), Ok(serial));
    }
    assert_full(&mut table, 64);
    let second: Vec<u32> = (6..=64).step_by(4).collect();
    assert_eq!(listing(&table, 2, 15), second);
    assert_eq!(table.unload(30), Ok(9));
    assert_eq!(listing(&table, 2, 6), [6, 10, 14, 18, 22, 26]);
    for tree in [1, 3, 4] {
        assert_eq!(listing(&table, tree, 15).len(), 15);
    }
    for serial in 65..=73 {
        assert_eq!(case(3).load(&mut table), Ok(serial));
    }
    assert_full(&mut table, 73);
    let third: Vec<u32> = (7..=63).step_by(4).chain(65..=73).collect();
    assert_eq!(listing(&table, 3, 24), third);
    assert_eq!(table.unload(3), Ok(25));
    assert_eq!(table.documents.len(), 39);
}

#[test]
fn refusals_have_their_numbers() {
    let all = [
        Refusal::NotLoaded,
        Refusal::NoSuchFeature,
        Refusal::BadOrigin,
        Refusal::TooLong,
        Refusal::Sandbox,
        Refusal::Full,
        Refusal::Spent,
        Refusal::NotADictionary,
        Refusal::Small,
    ];
    for (index, refusal) in all.iter().enumerate() {
        assert_eq!(refusal.number() as usize, index + 1);
    }
}
