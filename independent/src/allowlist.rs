//! Allowlists as they are settled at load.

use crate::expressions::SourceExpression;
use crate::origins::Origin;

#[derive(Clone, Debug)]
pub enum Allowlist {
    /// The list `*`.
    All,
    Listed {
        origins: Vec<Origin<'static>>,
        expressions: Vec<SourceExpression>,
    },
}

impl Allowlist {
    /// The list that admits nothing.
    pub fn empty() -> Self {
        Allowlist::Listed {
            origins: Vec::new(),
            expressions: Vec::new(),
        }
    }

    /// "A list admits an origin if it is `*`, or if it holds that origin or an
    /// expression that admits it."
    pub fn admits(&self, origin: &Origin) -> bool {
        match self {
            Allowlist::All => true,
            Allowlist::Listed {
                origins,
                expressions,
            } => {
                origins.iter().any(|o| o.same_origin(origin))
                    || expressions.iter().any(|e| e.admits(origin))
            }
        }
    }
}
