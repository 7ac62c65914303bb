//! A strict reader of the page, as one of XML would be: tags match, attributes are quoted and there once, entities are known, and no
//! other text or character stands between. Each test of the page uses some of this.
#![allow(dead_code)]

/// An element, or text.
#[derive(Debug)]
pub enum Node {
    Element(Element),
    Text(String),
}

#[derive(Debug)]
pub struct Element {
    pub name: String,
    pub attributes: Vec<(String, String)>,
    pub inside: Vec<Node>,
}

impl Element {
    pub fn attribute(&self, name: &str) -> Option<&str> {
        self.attributes.iter().find(|pair| pair.0 == name).map(|pair| pair.1.as_str())
    }

    /// This element and all within it, in their order.
    pub fn all(&self) -> Vec<&Element> {
        let within = self.inside.iter().flat_map(|node| match node {
            Node::Element(element) => element.all(),
            Node::Text(_) => vec![],
        });
        [self].into_iter().chain(within).collect()
    }

    pub fn named(&self, name: &str) -> Vec<&Element> {
        self.all().into_iter().filter(|element| element.name == name).collect()
    }

    pub fn of_class(&self, class: &str) -> Vec<&Element> {
        let has = |e: &&Element| {
            e.attribute("class").is_some_and(|all| all.split(' ').any(|one| one == class))
        };
        self.all().into_iter().filter(has).collect()
    }

    pub fn of_id(&self, id: &str) -> Option<&Element> {
        self.all().into_iter().find(|element| element.attribute("id") == Some(id))
    }

    /// All its text.
    pub fn text(&self) -> String {
        let text = |node: &Node| match node {
            Node::Element(element) => element.text(),
            Node::Text(text) => text.clone(),
        };
        self.inside.iter().map(text).collect()
    }
}

/// The root of a page.
pub fn parse(page: &str) -> Result<Element, String> {
    let mut reader = Reader { rest: page };
    reader.expect("<!DOCTYPE html>\n")?;
    reader.expect("<")?;
    let root = reader.element()?;
    match reader.rest {
        "\n" => Ok(root),
        rest => Err(format!("after the end: {rest:.40}")),
    }
}

struct Reader<'a> {
    rest: &'a str,
}

impl<'a> Reader<'a> {
    fn expect(&mut self, word: &str) -> Result<(), String> {
        match self.rest.strip_prefix(word) {
            Some(rest) => {
                self.rest = rest;
                Ok(())
            }
            None => Err(format!("'{word}' expected at: {:.60}", self.rest)),
        }
    }

    /// All up to one of these letters, which stays.
    fn until(&mut self, ends: &[char]) -> Result<&'a str, String> {
        let end = self.rest.find(ends).ok_or_else(|| format!("no end: {:.60}", self.rest))?;
        let (found, rest) = self.rest.split_at(end);
        self.rest = rest;
        Ok(found)
    }

    fn name(&mut self) -> Result<String, String> {
        let name = self.until(&[' ', '>', '/', '=', '\n', '"', '<'])?;
        let good = |c: char| c.is_ascii_alphanumeric() || c == '-';
        match name.starts_with(|c: char| c.is_ascii_alphabetic()) && name.chars().all(good) {
            true => Ok(name.to_string()),
            false => Err(format!("'{name}' is no name, before: {:.40}", self.rest)),
        }
    }

    /// After its `<`, up to the `>` of its end.
    fn element(&mut self) -> Result<Element, String> {
        let name = self.name()?;
        let mut attributes: Vec<(String, String)> = vec![];
        while self.rest.starts_with(' ') {
            self.expect(" ")?;
            let attribute = self.name()?;
            self.expect("=\"")?;
            let value = plain(self.until(&['"', '<'])?)?;
            self.expect("\"")?;
            if attributes.iter().any(|pair| pair.0 == attribute) {
                return Err(format!("{name} has {attribute} twice"));
            }
            attributes.push((attribute, value));
        }
        if self.expect("/>").is_ok() {
            return Ok(Element { name, attributes, inside: vec![] });
        }
        self.expect(">")?;
        let inside = self.inside()?;
        self.expect(&format!("{name}>"))?;
        Ok(Element { name, attributes, inside })
    }

    /// Up to the `</` of an end.
    fn inside(&mut self) -> Result<Vec<Node>, String> {
        let mut inside = vec![];
        loop {
            let text = self.until(&['<'])?;
            if !text.is_empty() {
                inside.push(Node::Text(plain(text)?));
            }
            self.expect("<")?;
            if self.expect("/").is_ok() {
                return Ok(inside);
            }
            inside.push(Node::Element(self.element()?));
        }
    }
}

/// Text with its entities read, of which only these four are known.
fn plain(text: &str) -> Result<String, String> {
    if let Some(letter) =
        text.chars().find(|c| c.is_control() && *c != '\n' || ['\u{FFFE}', '\u{FFFF}'].contains(c))
    {
        return Err(format!("the character {letter:?} in: {text:.60}"));
    }
    let mut parts = text.split('&');
    let mut read = parts.next().unwrap_or_default().to_string();
    for part in parts {
        let (entity, rest) = part.split_once(';').ok_or(format!("a bare & in: {text:.60}"))?;
        read.push(match entity {
            "amp" => '&',
            "lt" => '<',
            "gt" => '>',
            "quot" => '"',
            _ => return Err(format!("the entity '{entity}' in: {text:.60}")),
        });
        read.push_str(rest);
    }
    Ok(read)
}

/// The reader itself finds what is not well-formed.
pub fn refuses_what_is_not_well_formed() {
    let page = |inside: &str| format!("<!DOCTYPE html>\n<p>{inside}</p>\n");
    assert!(parse(&page("<b class=\"a\">1 &amp; 2</b><br/>")).is_ok());
    let wrong = [
        "<b>",
        "</b>",
        "<b></i>",
        "<b class=a></b>",
        "<b class='a'></b>",
        "<b class=\"a\" class=\"b\"></b>",
        "a & b",
        "&nbsp;",
        "a < b",
        "<b class=\"<\"></b>",
        "\u{1}",
        "<b hidden></b>",
        "<1></1>",
    ];
    for inside in wrong {
        assert!(parse(&page(inside)).is_err(), "{inside}");
    }
    assert!(parse("<p></p>\n").is_err());
    assert!(parse("<!DOCTYPE html>\n<p></p>\n<p></p>\n").is_err());
}
