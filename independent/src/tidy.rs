//! Tidied headers.

use crate::features::FEATURES;
use crate::header::{DeclaredList, DeclaredPolicy};
use crate::limits::{MAX_TEXT_BYTES, MAX_TIDIED_BYTES};
use crate::refusal::Refusal;

/// Writes the header's tidied form into the lent bytes and answers its length;
/// the bytes after it stay as they are.
pub fn tidy(header: &[u8], lent: &mut [u8]) -> Result<usize, Refusal> {
    if header.len() > MAX_TEXT_BYTES {
        return Err(Refusal::TooLong);
    }
    let policy = DeclaredPolicy::parse(header).map_err(|_| Refusal::NotADictionary)?;
    let tidied = tidied_form(&policy);
    if tidied.len() > MAX_TIDIED_BYTES {
        return Err(Refusal::TooLong);
    }
    let place = lent.get_mut(..tidied.len()).ok_or(Refusal::Small)?;
    place.copy_from_slice(&tidied);
    Ok(tidied.len())
}

/// "Known, declared features in number order, joined by `, `."
pub fn tidied_form(policy: &DeclaredPolicy) -> Vec<u8> {
    let mut out = Vec::new();
    for (feature, list) in FEATURES.iter().zip(&policy.lists) {
        let Some(list) = list else {
            continue;
        };
        if !out.is_empty() {
            out.extend_from_slice(b", ");
        }
        out.extend_from_slice(feature.name.as_bytes());
        out.push(b'=');
        write_list(list, &mut out);
    }
    out
}

/// "`name=*`, else `name=(...)` with `self` first, then each expression once,
/// in order of first appearance, as a string, [...] one space between."
fn write_list(list: &DeclaredList, out: &mut Vec<u8>) {
    let DeclaredList::Listed {
        own_origin,
        expressions,
    } = list
    else {
        out.push(b'*');
        return;
    };
    out.push(b'(');
    if *own_origin {
        out.extend_from_slice(b"self");
    }
    for (index, expression) in expressions.iter().enumerate() {
        if *own_origin || index > 0 {
            out.push(b' ');
        }
        out.push(b'"');
        expression.write_tidied(out);
        out.push(b'"');
    }
    out.push(b')');
}

#[cfg(test)]
mod tests {
    use super::*;

    fn tidied(header: &str) -> Result<String, Refusal> {
        let mut lent = [0xee; 5000];
        let length = tidy(header.as_bytes(), &mut lent)?;
        assert!(lent[length..].iter().all(|&b| b == 0xee));
        Ok(String::from_utf8(lent[..length].to_vec()).expect("ascii"))
    }

    #[test]
    fn the_example() {
        let header = concat!(
            r#"usb=self,camera=("https://B.example:443" self "https://b.example"),"#,
            "foo=1,forms=(self *)"
        );
        let out = r#"camera=(self "https://b.example"), forms=*, usb=(self)"#;
        assert_eq!(tidied(header).as_deref(), Ok(out));
        assert_eq!(tidied(out).as_deref(), Ok(out));
    }

    #[test]
    fn forms() {
        assert_eq!(tidied("").as_deref(), Ok(""));
        assert_eq!(tidied("foo=*, camera=1").as_deref(), Ok(""));
        assert_eq!(tidied("camera=( 1 \"x\" )").as_deref(), Ok("camera=()"));
        assert_eq!(
            tidied(r#"camera=("http:";a "http://b:0080" "http:" "http://a:00443");x=1"#).as_deref(),
            Ok(r#"camera=("http:" "http://b:80" "http://a:443")"#)
        );
        assert_eq!(tidied("camera=(self), "), Err(Refusal::NotADictionary));
    }

    /// R-3: "the tidied form keeps a written `:80` after http".
    #[test]
    fn written_ports() {
        for (list, out) in [
            // Two that stay two, in order of first appearance.
            (r#""http://a" "http://a:80""#, r#""http://a" "http://a:80""#),
            (
                r#""http://a:0080" self "HTTP://A""#,
                r#"self "http://a:80" "http://a""#,
            ),
            (
                r#""http://*:80" "http://*" "http:""#,
                r#""http://*:80" "http://*" "http:""#,
            ),
            (
                r#""http://*.a" "http://*.a:80" "http://*.a:443""#,
                r#""http://*.a" "http://*.a:80" "http://*.a:443""#,
            ),
            (
                r#""http://a" "https://a" "https://a:80""#,
                r#""http://a" "https://a" "https://a:80""#,
            ),
            // Two that are one.
            (
                r#""http://a:80" "http://a" "HTTP://a:00080" "http://A""#,
                r#""http://a:80" "http://a""#,
            ),
            (
                r#""https://a:443" "https://a" "https://a:0443""#,
                r#""https://a""#,
            ),
            (r#""https://*" "https://*:443""#, r#""https://*""#),
            (
                r#""https://*.a:00443" "http://a:443" "https://*.a""#,
                r#""https://*.a" "http://a:443""#,
            ),
        ] {
            let tidy_list = |list: &str| tidied(&format!("camera=({list})"));
            let out = format!("camera=({out})");
            assert_eq!(tidy_list(list).as_deref(), Ok(out.as_str()), "{list}");
            assert_eq!(tidied(&out).as_deref(), Ok(out.as_str()));
        }
        assert_eq!(
            tidied("usb=\"HTTP://a:80\", camera=\"https://a:443\"").as_deref(),
            Ok("camera=(\"https://a\"), usb=(\"http://a:80\")")
        );
    }

    /// A header whose tidied form has so many bytes: two features with sixteen
    /// expressions, the second written without brackets. Tidying adds those and
    /// a space.
    fn header_tidied_to(length: usize) -> String {
        let host = |index: usize, bytes: usize| format!("{index:02}{}", "a".repeat(bytes - 2));
        let list: Vec<String> = (0..15)
            .map(|index| format!("\"https://{}\"", host(index, 250)))
            .collect();
        let start = format!("camera=({}),forms=", list.join(" "));
        let tidied = start.len() + 1 + "(\"https://\")".len();
        let header = format!("{start}\"https://{}\"", host(15, length - tidied));
        assert_eq!(header.len(), length - 3);
        header
    }

    #[test]
    fn refusals_in_order() {
        let long = "x".repeat(4097);
        assert_eq!(tidied(&long), Err(Refusal::TooLong));
        assert_eq!(tidied(&long[1..]).as_deref(), Ok(""));
        assert_eq!(tidied("X"), Err(Refusal::NotADictionary));
        assert_eq!(tidy(b"X", &mut []), Err(Refusal::NotADictionary));
        // 4 for the input before 8, and 8 before 9.
        let malformed = "X".repeat(4097);
        assert_eq!(tidied(&malformed), Err(Refusal::TooLong));
        assert_eq!(tidied(&malformed[1..]), Err(Refusal::NotADictionary));
        assert_eq!(
            tidy(&malformed.as_bytes()[1..], &mut []),
            Err(Refusal::NotADictionary)
        );

        let [under, exact, over] = [4095, 4096, 4097].map(header_tidied_to);
        assert_eq!(tidied(&under).map(|t| t.len()), Ok(4095));
        assert_eq!(tidied(&exact).map(|t| t.len()), Ok(4096));
        assert_eq!(tidied(&over), Err(Refusal::TooLong));
        // A form of the most bytes, read again, is tidied to itself.
        let form = tidied(&exact).expect("short enough");
        assert_eq!(tidied(&form).as_deref(), Ok(form.as_str()));
        // The header that fits, with a form that doesn't.
        let most = header_tidied_to(4099);
        assert_eq!(most.len(), 4096);
        assert_eq!(tidied(&most), Err(Refusal::TooLong));
        // 4 for output before 9.
        assert_eq!(tidy(over.as_bytes(), &mut []), Err(Refusal::TooLong));
        assert_eq!(tidy(exact.as_bytes(), &mut [0; 4095]), Err(Refusal::Small));
        assert_eq!(tidy(exact.as_bytes(), &mut [0; 4096]), Ok(4096));
        // What was too long before is read and written now.
        for length in [3950, 4000] {
            let form = tidied(&header_tidied_to(length));
            assert_eq!(form.map(|t| t.len()), Ok(length));
        }
    }

    #[test]
    fn a_short_run_stays_as_it_is() {
        let mut lent = [0xee; 8];
        assert_eq!(tidy(b"camera=()", &mut lent), Err(Refusal::Small));
        assert_eq!(lent, [0xee; 8]);
        let mut lent = [0xee; 9];
        assert_eq!(tidy(b"camera=()", &mut lent), Ok(9));
        assert_eq!(tidy(b"", &mut []), Ok(0));
    }
}
