//! A line of what was found somewhere.

use crate::json::Json;

/// What a field is called, what stands there, and what is wrong with it.
#[derive(Clone, Debug)]
pub struct Finding {
    pub what: String,
    pub value: String,
    pub wrong: Option<String>,
}

impl Finding {
    pub fn new(what: impl Into<String>, value: impl ToString) -> Finding {
        Finding {
            what: what.into(),
            value: value.to_string(),
            wrong: None,
        }
    }

    /// The same, wrong for a reason.
    pub fn wrong(mut self, why: impl Into<String>) -> Finding {
        self.wrong = Some(why.into());
        self
    }

    /// The same, wrong for a reason where a condition holds.
    pub fn wrong_if(self, condition: bool, why: impl Into<String>) -> Finding {
        if condition { self.wrong(why) } else { self }
    }

    pub fn json(&self) -> Json {
        Json::Object(vec![
            ("what", Json::text(&self.what)),
            ("value", Json::text(&self.value)),
            ("wrong", Json::option(self.wrong.as_ref().map(Json::text))),
        ])
    }
}

/// Lines of findings, the values in a column.
pub fn lines(findings: &[Finding], indent: &str) -> String {
    let widths = findings.iter().map(|finding| finding.what.chars().count());
    let width = widths.max().unwrap_or(0);
    let mut text = String::new();
    for finding in findings {
        let wrong = match &finding.wrong {
            Some(why) => format!("   <-- {why}"),
            None => String::new(),
        };
        let line = format!("{indent}{:width$}  {}{wrong}", finding.what, finding.value);
        text.push_str(line.trim_end());
        text.push('\n');
    }
    text
}
