//! Markup of pages and pictures. It is made of names that this program has, and of text that was escaped: there is no other way in, so that
//! nothing out of a file is ever read as markup.

use crate::told;

/// Elements and escaped text.
#[derive(Clone, Debug, Default, PartialEq, Eq)]
pub struct Markup(String);

/// Names and values; the values are escaped.
pub type Attributes<'a> = &'a [(&'static str, &'a str)];

impl Markup {
    pub const NONE: Markup = Markup(String::new());

    /// Markup that stands in this program's own source.
    pub fn fixed(markup: &'static str) -> Markup {
        Markup(markup.to_string())
    }

    /// Any bytes as text. No control character may stand on a page, not even escaped: they are `\xNN`, as what is no UTF-8 is.
    pub fn text(text: impl AsRef<[u8]>) -> Markup {
        Markup(escaped(text.as_ref()))
    }

    pub fn as_str(&self) -> &str {
        &self.0
    }

    /// The one behind the other.
    pub fn then(mut self, next: Markup) -> Markup {
        self.0 += &next.0;
        self
    }

    /// The same with an end of line behind it, which keeps the lines of a page short.
    pub fn line(self) -> Markup {
        self.then(Markup("\n".to_string()))
    }
}

impl FromIterator<Markup> for Markup {
    fn from_iter<I: IntoIterator<Item = Markup>>(parts: I) -> Markup {
        Markup(parts.into_iter().map(|part| part.0).collect())
    }
}

fn escaped(text: &[u8]) -> String {
    let letter = |letter: char| match letter {
        '&' => "&amp;".to_string(),
        '<' => "&lt;".to_string(),
        '>' => "&gt;".to_string(),
        '"' => "&quot;".to_string(),
        '\'' => "&#39;".to_string(),
        other => other.to_string(),
    };
    told::visible(text).chars().map(letter).collect()
}

fn opened(name: &str, attributes: Attributes<'_>) -> String {
    let attribute = |(name, value): &(&str, &str)| format!(" {name}=\"{}\"", escaped(value.as_bytes()));
    format!("<{name}{}", attributes.iter().map(attribute).collect::<String>())
}

pub fn element(name: &'static str, attributes: Attributes<'_>, inside: Markup) -> Markup {
    Markup(format!("{}>{}</{name}>", opened(name, attributes), inside.0))
}

/// An element that has nothing inside.
pub fn empty(name: &'static str, attributes: Attributes<'_>) -> Markup {
    Markup(opened(name, attributes) + "/>")
}

#[cfg(test)]
mod tests {
    use super::*;

    #[test]
    fn text_and_values_cannot_leave_their_place() {
        let hostile = b"<script>alert('x')</script>\"&\x00\x1b[2J\n\xff\xc3\x28]]>--><!--";
        let owed = "&lt;script&gt;alert(&#39;x&#39;)&lt;/script&gt;&quot;&amp;\\x00\\x1b[2J\\x0a\\xff\\xc3(]]&gt;--&gt;&lt;!--";
        assert_eq!(Markup::text(hostile).as_str(), owed);
        let value = element("a", &[("href", "\"><script>")], Markup::text("x"));
        assert_eq!(value.as_str(), "<a href=\"&quot;&gt;&lt;script&gt;\">x</a>");
        assert_eq!(empty("use", &[("x", "1"), ("y", "'")]).as_str(), "<use x=\"1\" y=\"&#39;\"/>");
        for code in 0..=0x2ff {
            let made = Markup::text(char::from_u32(code).unwrap().to_string());
            assert!(made.as_str().chars().all(|letter| !letter.is_control() && !"<>\"'".contains(letter)), "{code}");
        }
    }
}
