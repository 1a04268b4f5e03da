//! A page of HTML that needs no network and runs no script. All texts are escaped here.

use std::fmt::Write;

use crate::text::is_hidden;

/// What a browser may do with the page: show it, and what stands in it.
const POLICY: &str = "default-src 'none'; style-src 'unsafe-inline'; img-src data:";
const STYLE: &str = include_str!("page.css");

/// A text with what HTML takes for more than text written out, and with each hidden character too.
pub fn escaped(text: &str) -> String {
    let mut escaped = String::with_capacity(text.len());
    for it in text.chars() {
        match it {
            '&' => escaped.push_str("&amp;"),
            '<' => escaped.push_str("&lt;"),
            '>' => escaped.push_str("&gt;"),
            '"' => escaped.push_str("&quot;"),
            '\'' => escaped.push_str("&#39;"),
            '\n' | '\t' => escaped.push(it),
            it if is_hidden(it) => escaped.extend(it.escape_unicode()),
            it => escaped.push(it),
        }
    }
    escaped
}

/// A field of a table.
pub enum Field {
    Text(String),
    Code(String),
    /// Lines, each of its own.
    Lines(Vec<String>),
}

impl Field {
    fn html(&self) -> String {
        match self {
            Field::Text(text) => escaped(text),
            Field::Code(text) => format!("<code>{}</code>", escaped(text)),
            Field::Lines(lines) => lines.iter().map(|it| escaped(it)).collect::<Vec<_>>().join("<br>"),
        }
    }
}

impl<T: Into<String>> From<T> for Field {
    fn from(text: T) -> Field {
        Field::Text(text.into())
    }
}

/// A page that is being written.
pub struct Page {
    title: String,
    body: String,
}

impl Page {
    pub fn new(title: &str) -> Page {
        let title = escaped(title);
        Page { body: format!("<h1>{title}</h1>\n"), title }
    }

    fn put(&mut self, name: &str, of: &str, html: &str) {
        let class = if of.is_empty() { String::new() } else { format!(" class=\"{of}\"") };
        let _ = writeln!(self.body, "<{name}{class}>{html}</{name}>");
    }

    pub fn head(&mut self, text: &str) {
        self.put("h2", "", &escaped(text));
    }

    pub fn text(&mut self, text: &str) {
        self.put("p", "", &escaped(text));
    }

    /// What a reader takes away, a line each. It is marked, if it tells of something that is not as it should be.
    pub fn verdict<T: AsRef<str>>(&mut self, is_well: bool, lines: &[T]) {
        let lines: Vec<String> = lines.iter().map(|it| escaped(it.as_ref())).collect();
        self.put("p", if is_well { "verdict well" } else { "verdict ill" }, &lines.join("<br>"));
    }

    pub fn list(&mut self, texts: &[&str]) {
        let items: String = texts.iter().map(|it| format!("<li>{}</li>", escaped(it))).collect();
        self.put("ul", "", &items);
    }

    /// What stands in a terminal.
    pub fn code(&mut self, text: &str) {
        self.put("pre", "", &escaped(text));
    }

    /// A table with names above its columns.
    pub fn table(&mut self, names: &[&str], rows: &[Vec<Field>]) {
        let head: String = names.iter().map(|it| format!("<th scope=\"col\">{}</th>", escaped(it))).collect();
        let row = |row: &Vec<Field>| {
            let fields: String = row.iter().map(|it| format!("<td>{}</td>", it.html())).collect();
            format!("<tr>{fields}</tr>\n")
        };
        let rows: String = rows.iter().map(row).collect();
        self.put("div", "wide", &format!("<table>\n<tr>{head}</tr>\n{rows}</table>"));
    }

    /// A table that a reader may close. Paper has it.
    pub fn table_behind(&mut self, text: &str, names: &[&str], rows: &[Vec<Field>]) {
        let _ = writeln!(self.body, "<details open><summary>{}</summary>", escaped(text));
        self.table(names, rows);
        self.body.push_str("</details>\n");
    }

    /// A picture that somebody else has drawn, of which nothing runs.
    pub fn picture(&mut self, text: &str, svg: &str) {
        let text = escaped(text);
        let image = format!("<img alt=\"{text}\" src=\"data:image/svg+xml;base64,{}\">", base64::encode(svg));
        self.put("figure", "", &format!("{image}<figcaption>{text}</figcaption>"));
    }

    /// A picture of the program's own.
    pub fn drawn(&mut self, svg: &str) {
        self.put("figure", "line", svg);
    }

    /// The whole page.
    pub fn html(&self) -> String {
        let Page { title, body } = self;
        format!(
            "<!DOCTYPE html>\n<html lang=\"en\">\n<head>\n<meta charset=\"utf-8\">\n\
             <meta http-equiv=\"Content-Security-Policy\" content=\"{POLICY}\">\n\
             <meta name=\"viewport\" content=\"width=device-width\">\n\
             <title>{title}</title>\n<style>\n{STYLE}</style>\n</head>\n<body>\n{body}</body>\n</html>\n"
        )
    }
}

#[cfg(test)]
mod tests {
    use super::*;

    #[test]
    fn nothing_leaves_its_place() {
        let hostile = "</td><script>alert(1)</script>&\"' \u{1b}[31m";
        let mut page = Page::new(hostile);
        page.head(hostile);
        page.text(hostile);
        page.verdict(false, &[hostile]);
        page.list(&[hostile]);
        page.code(hostile);
        page.table(
            &[hostile],
            &[vec![hostile.into(), Field::Code(hostile.into()), Field::Lines(vec![hostile.into()])]],
        );
        page.table_behind(hostile, &[hostile], &[]);
        page.picture(hostile, hostile);
        let html = page.html();
        assert!(!html.contains("<script") && !html.contains('\u{1b}') && !html.contains("alert(1)</s"));
        assert_eq!(html.matches("&lt;script&gt;").count(), 15);
        assert_eq!(escaped("a<b>&\"'\r\u{202e}"), "a&lt;b&gt;&amp;&quot;&#39;\\u{d}\\u{202e}");
    }
}
