//! The page: one HTML document with its style and script inside, which asks for nothing else.

use super::head::{summary, Head};
use super::rows::part_of_page;
use super::story::Part;

/// The most calls that a page shows, unless all are asked for.
pub const MOST: usize = 1000;
/// The most issues that are listed behind one: of more, the last ones.
pub const LISTED: usize = 100;

pub fn escaped(text: &str) -> String {
    text.replace('&', "&amp;").replace('<', "&lt;").replace('>', "&gt;").replace('"', "&quot;")
}

pub fn page(head: &Head, parts: &[Part]) -> String {
    let title = format!("Sheet desk: {}", escaped(head.name));
    let mut page = format!(
        "<!DOCTYPE html>\n<html lang=\"en\">\n<head>\n<meta charset=\"utf-8\">\n\
         <meta http-equiv=\"Content-Security-Policy\" content=\"default-src 'none'; \
         style-src 'unsafe-inline'; script-src 'unsafe-inline'\">\n\
         <meta name=\"viewport\" content=\"width=device-width\">\n<title>{title}</title>\n\
         <style>\n{}</style>\n<style id=\"which\">{}</style>\n</head>\n<body>\n<h1>{title}</h1>\n",
        include_str!("page.css"),
        which(parts)
    );
    let mut hidden = parts.iter().map(|part| part.rows.len()).sum::<usize>();
    hidden = hidden.saturating_sub(head.most);
    page.push_str(&summary(head, parts, hidden));
    page.push_str(include_str!("legend.html"));
    for part in parts {
        let first = hidden.min(part.rows.len());
        hidden -= first;
        if first < part.rows.len() {
            page.push_str(&part_of_page(part, first));
        }
    }
    page.push_str(&format!("<script>\n{}</script>\n</body>\n</html>\n", include_str!("page.js")));
    page
}

/// The path that is drawn unless another row is pointed at: that of the last break.
fn which(parts: &[Part]) -> String {
    let rows = parts.iter().flat_map(|part| &part.rows);
    let last = rows.filter(|row| row.broken.is_some()).last();
    last.map_or(String::new(), |row| format!("svg .p{} {{ display: inline; }}", row.line))
}
