//! Pieces of HTML.

use crate::reading::finding::Finding;

/// Text that stands in a page.
pub fn escaped(text: &str) -> String {
    let mut safe = String::with_capacity(text.len());
    for letter in text.chars() {
        match letter {
            '&' => safe.push_str("&amp;"),
            '<' => safe.push_str("&lt;"),
            '>' => safe.push_str("&gt;"),
            '"' => safe.push_str("&quot;"),
            '\'' => safe.push_str("&#39;"),
            letter => safe.push(letter),
        }
    }
    safe
}

/// A part of the page with a heading and some words below it.
pub fn section(name: &str, heading: &str, words: &str, content: &str) -> String {
    let words = if words.is_empty() {
        String::new()
    } else {
        format!("<p class=\"words\">{}</p>\n", escaped(words))
    };
    format!("<section id=\"{name}\">\n<h2>{heading}</h2>\n{words}{content}</section>\n")
}

/// Names and what they are.
pub fn definitions(rows: &[(&str, String)]) -> String {
    let lines = rows.iter().map(|(name, value)| {
        format!(
            "<tr><th>{}</th><td>{}</td></tr>\n",
            escaped(name),
            escaped(value)
        )
    });
    format!("<table>\n{}</table>\n", lines.collect::<String>())
}

/// Findings, the wrong ones marked.
pub fn findings(found: &[Finding]) -> String {
    let lines = found.iter().map(|finding| {
        let (class, wrong) = match &finding.wrong {
            Some(why) => (" class=\"wrong\"", escaped(why)),
            None => ("", String::new()),
        };
        format!(
            "<tr{class}><th>{}</th><td>{}</td><td>{wrong}</td></tr>\n",
            escaped(&finding.what).replace("  ", "&emsp;"),
            escaped(&finding.value)
        )
    });
    format!(
        "<table class=\"findings\">\n{}</table>\n",
        lines.collect::<String>()
    )
}

/// A list of lines.
pub fn list(lines: &[String]) -> String {
    let items = lines
        .iter()
        .map(|line| format!("<li>{}</li>\n", escaped(line)));
    format!("<ul>\n{}</ul>\n", items.collect::<String>())
}

/// A drawing of a width and height.
pub fn drawing(name: &str, width: usize, height: usize, content: &str) -> String {
    format!(
        "<svg id=\"{name}\" viewBox=\"0 0 {width} {height}\" width=\"{width}\" \
         height=\"{height}\" role=\"img\">\n{content}</svg>\n"
    )
}

/// A text in a drawing.
pub fn label(x: f64, y: f64, anchor: &str, text: &str) -> String {
    format!(
        "<text x=\"{x:.1}\" y=\"{y:.1}\" text-anchor=\"{anchor}\">{}</text>\n",
        escaped(text)
    )
}
