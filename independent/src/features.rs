//! "Numbered in this order, with default list."

#[derive(Clone, Copy, Debug, PartialEq, Eq)]
pub enum DefaultAllowlist {
    /// Default `*`.
    All,
    /// Default `self`.
    OwnOrigin,
}

#[derive(Clone, Copy, Debug)]
pub struct Feature {
    pub name: &'static str,
    pub default: DefaultAllowlist,
}

const fn all(name: &'static str) -> Feature {
    Feature {
        name,
        default: DefaultAllowlist::All,
    }
}

const fn own(name: &'static str) -> Feature {
    Feature {
        name,
        default: DefaultAllowlist::OwnOrigin,
    }
}

pub const FEATURE_COUNT: usize = 17;

/// A feature's number is its place here.
pub const FEATURES: [Feature; FEATURE_COUNT] = [
    own("camera"),
    own("display-capture"),
    all("downloads-without-user-activation"),
    all("forms"),
    own("fullscreen"),
    own("geolocation"),
    own("microphone"),
    all("modals"),
    all("orientation-lock"),
    own("payment"),
    all("plugins"),
    all("pointer-lock"),
    all("popups"),
    all("presentation"),
    all("scripts"),
    all("top-navigation"),
    own("usb"),
];

/// The number of `fullscreen`, which allowfullscreen speaks of.
pub const FULLSCREEN: usize = 4;

/// The number of `plugins`, which no frame with a sandbox attribute has.
pub const PLUGINS: usize = 10;

/// "Names are compared byte for byte."
pub fn feature_by_name(name: &[u8]) -> Option<usize> {
    FEATURES.iter().position(|f| f.name.as_bytes() == name)
}

/// Is the feature's default list `*`?
pub fn default_is_all(feature: usize) -> bool {
    FEATURES[feature].default == DefaultAllowlist::All
}

#[cfg(test)]
mod tests {
    use super::*;

    #[test]
    fn ten_default_to_all() {
        let count = (0..FEATURE_COUNT).filter(|&f| default_is_all(f)).count();
        assert_eq!(count, 10);
    }

    #[test]
    fn names_byte_for_byte() {
        assert_eq!(feature_by_name(b"camera"), Some(0));
        assert_eq!(feature_by_name(b"usb"), Some(16));
        assert_eq!(feature_by_name(b"Camera"), None);
        assert_eq!(feature_by_name(b""), None);
        assert_eq!(FEATURES[FULLSCREEN].name, "fullscreen");
        assert_eq!(FEATURES[PLUGINS].name, "plugins");
    }
}
