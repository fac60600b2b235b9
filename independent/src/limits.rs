//! Every limit of document 01 (and of RFC 8941's numbers), each in one place.
//! R-4: "Raise to 64 documents and to 4,096 bytes for header, allow, sandbox
//! and tidied form."

/// A header, allow or sandbox text of more bytes is refused.
pub const MAX_TEXT_BYTES: usize = 4096;

/// A tidied form of more bytes is refused.
pub const MAX_TIDIED_BYTES: usize = 4096;

/// "A host is 1 to 253 bytes".
pub const MAX_HOST_BYTES: usize = 253;

/// A load, while so many documents are loaded, is refused.
pub const MAX_DOCUMENTS: usize = 64;

/// "a load, after serial 4,294,967,295 was given" is refused.
pub const LAST_SERIAL: u32 = 4_294_967_295;

/// An expression's port has "one to five digits".
pub const MAX_PORT_DIGITS: usize = 5;

/// RFC 8941, 4.2.4: "Integer: 1 to 15 digits."
pub const MAX_INTEGER_DIGITS: usize = 15;

/// RFC 8941, 4.2.4: "Decimal: 1 to 12 digits, `.`, 1 to 3 digits."
pub const MAX_WHOLE_DIGITS: usize = 12;
pub const MAX_FRACTION_DIGITS: usize = 3;
