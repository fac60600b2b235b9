//! The declared policy: what a document's header says of each feature.

use crate::allowlist::Allowlist;
use crate::expressions::SourceExpression;
use crate::features::{feature_by_name, FEATURE_COUNT};
use crate::fields::{parse_dictionary, BareItem, Malformed, MemberValue};
use crate::origins::Origin;

/// A list as the header writes it: `self` isn't an origin yet.
#[derive(Clone, Debug, PartialEq, Eq)]
pub enum DeclaredList {
    All,
    Listed {
        own_origin: bool,
        /// In order of first appearance, each once.
        expressions: Vec<SourceExpression>,
    },
}

/// For each feature its list, or nothing if it is undeclared.
#[derive(Clone, Debug, Default, PartialEq, Eq)]
pub struct DeclaredPolicy {
    pub lists: [Option<DeclaredList>; FEATURE_COUNT],
}

/// One of the three that a list may hold.
enum ListItem {
    All,
    OwnOrigin,
    Expression(SourceExpression),
}

impl DeclaredPolicy {
    pub fn parse(header: &[u8]) -> Result<Self, Malformed> {
        let mut policy = DeclaredPolicy::default();
        for member in parse_dictionary(header)? {
            if let Some(feature) = feature_by_name(&member.key) {
                policy.lists[feature] = declared_list(&member.value);
            }
        }
        Ok(policy)
    }

    /// The lists as they are settled for a document of this origin: "`self` is
    /// the document's own origin".
    pub fn settle(self, own_origin: &Origin<'static>) -> [Option<Allowlist>; FEATURE_COUNT] {
        self.lists.map(|list| match list? {
            DeclaredList::All => Some(Allowlist::All),
            DeclaredList::Listed {
                own_origin: with_own,
                expressions,
            } => Some(Allowlist::Listed {
                origins: if with_own {
                    vec![own_origin.clone()]
                } else {
                    Vec::new()
                },
                expressions,
            }),
        })
    }
}

/// "per feature: token `*`, token `self`, a string that is an expression, or
/// an inner list; any other value and the member is ignored, the feature
/// undeclared"
fn declared_list(value: &MemberValue) -> Option<DeclaredList> {
    match value {
        MemberValue::Item(item) => Some(collect([list_item(item)?])),
        // "Items of an inner list that are none of the three are skipped."
        MemberValue::InnerList(items) => {
            Some(collect(items.iter().filter_map(|i| list_item(&i.value))))
        }
    }
}

fn list_item(item: &BareItem) -> Option<ListItem> {
    match item {
        BareItem::Token(token) if token == b"*" => Some(ListItem::All),
        BareItem::Token(token) if token == b"self" => Some(ListItem::OwnOrigin),
        BareItem::String(string) => SourceExpression::parse(string).map(ListItem::Expression),
        _ => None,
    }
}

/// "A list with `*` is `*`".
fn collect(items: impl IntoIterator<Item = ListItem>) -> DeclaredList {
    let mut own_origin = false;
    let mut expressions = Vec::new();
    for item in items {
        match item {
            ListItem::All => return DeclaredList::All,
            ListItem::OwnOrigin => own_origin = true,
            ListItem::Expression(expression) => {
                if !expressions.contains(&expression) {
                    expressions.push(expression);
                }
            }
        }
    }
    DeclaredList::Listed {
        own_origin,
        expressions,
    }
}

#[cfg(test)]
mod tests {
    use super::*;

    fn camera(header: &str) -> Option<DeclaredList> {
        DeclaredPolicy::parse(header.as_bytes())
            .expect("a dictionary")
            .lists[0]
            .clone()
    }

    fn listed(own_origin: bool, expressions: &[&str]) -> Option<DeclaredList> {
        Some(DeclaredList::Listed {
            own_origin,
            expressions: expressions
                .iter()
                .map(|e| SourceExpression::parse(e.as_bytes()).expect("an expression"))
                .collect(),
        })
    }

    #[test]
    fn members() {
        assert_eq!(camera(""), None);
        assert_eq!(camera("camera=(), camera=1"), None);
        assert_eq!(camera("camera=1, camera=()"), listed(false, &[]));
        assert_eq!(camera("camera=(\"junk\")"), listed(false, &[]));
        assert_eq!(camera("camera=\"junk\""), None);
        assert_eq!(camera("camera"), None);
        assert_eq!(camera("camera=Self"), None);
        assert_eq!(camera("camera=self;x=1"), listed(true, &[]));
        assert_eq!(camera("camera=\"*\""), None);
        assert_eq!(camera("camera=*"), Some(DeclaredList::All));
        assert_eq!(camera("camera=(self 1 *);a"), Some(DeclaredList::All));
        assert_eq!(camera("camera=\"https:\""), listed(false, &["https:"]));
        assert_eq!(
            camera("camera=(\"http://A\" none self;x \"http://a:80\" \"http://b\")"),
            listed(true, &["http://a", "http://a:80", "http://b"])
        );
        assert_eq!(
            camera("camera=(\"https://A\" \"https://a:443\" \"https://b:0443\")"),
            listed(false, &["https://a", "https://b"])
        );
    }

    #[test]
    fn malformed_headers() {
        for header in [
            "camera=(self), ",
            "Camera=()",
            "camera=(self",
            "camera=(self\t*)",
        ] {
            assert!(
                DeclaredPolicy::parse(header.as_bytes()).is_err(),
                "{header}"
            );
        }
    }
}
