//! Requests and answers as bytes: fields, each its length in four bytes, low byte first, and its bytes.

use gunwaleish_tool::files::Input;

/// A request that was read: its name and its arguments.
pub struct Request<'a> {
    pub name: &'a [u8],
    pub arguments: Vec<&'a [u8]>,
}

impl<'a> Request<'a> {
    /// `None` if the bytes are no sequence of fields, or there is none.
    pub fn read(bytes: &'a [u8]) -> Option<Request<'a>> {
        let mut arguments = split(bytes)?;
        (!arguments.is_empty()).then(|| Request { name: arguments.remove(0), arguments })
    }

    /// An argument; one that is not there is empty.
    pub fn bytes(&self, place: usize) -> &'a [u8] {
        self.arguments.get(place).copied().unwrap_or_default()
    }

    /// An argument as text: a word, or a name.
    pub fn text(&self, place: usize) -> String {
        named(self.bytes(place))
    }

    /// The same, or this if it is empty.
    pub fn text_or(&self, place: usize, other: &str) -> String {
        match self.bytes(place) {
            [] => other.to_string(),
            bytes => named(bytes),
        }
    }

    /// A file: its bytes, and its name. As the tool does it, no more is kept than so many bytes and one, which
    /// shows that there is more.
    pub fn input(&self, bytes: usize, name: String, most: usize) -> Input {
        Input { name, bytes: cut(self.bytes(bytes), most).to_vec() }
    }
}

/// The most letters of a name that are shown: no path has more.
const MOST_NAME: usize = 4096;

/// Bytes as a name.
pub fn named(bytes: &[u8]) -> String {
    String::from_utf8_lossy(cut(bytes, MOST_NAME)).into_owned()
}

/// So many bytes and one more.
pub fn cut(bytes: &[u8], most: usize) -> &[u8] {
    &bytes[..bytes.len().min(most + 1)]
}

/// The fields, or `None` if one goes past the end.
pub fn split(mut bytes: &[u8]) -> Option<Vec<&[u8]>> {
    let mut fields = vec![];
    while !bytes.is_empty() {
        let (length, rest) = bytes.split_first_chunk()?;
        let (field, rest) = rest.split_at_checked(u32::from_le_bytes(*length) as usize)?;
        fields.push(field);
        bytes = rest;
    }
    Some(fields)
}

/// The fields as bytes.
pub fn join<T: AsRef<[u8]>>(fields: impl IntoIterator<Item = T>) -> Vec<u8> {
    let mut bytes = vec![];
    for field in fields {
        let field = field.as_ref();
        bytes.extend_from_slice(&(field.len() as u32).to_le_bytes());
        bytes.extend_from_slice(field);
    }
    bytes
}

/// What is answered: results, or a refusal, beside which results may be there all the same.
#[derive(Debug, Default)]
pub struct Answer {
    /// What a person reads, and the line that it is about.
    pub refused: Option<(String, Option<usize>)>,
    pub results: Vec<Vec<u8>>,
}

impl Answer {
    pub fn refused(why: impl Into<String>) -> Answer {
        Answer { refused: Some((why.into(), None)), results: vec![] }
    }

    pub fn ok(result: impl Into<Vec<u8>>) -> Answer {
        Answer::default().and(result)
    }

    /// With one result more.
    pub fn and(mut self, result: impl Into<Vec<u8>>) -> Answer {
        self.results.push(result.into());
        self
    }

    pub fn to_bytes(&self) -> Vec<u8> {
        let results = self.results.iter().map(Vec::as_slice);
        match &self.refused {
            None => join([&b"ok"[..]].into_iter().chain(results)),
            Some((why, line)) => {
                let line = line.map_or(String::new(), |line| line.to_string());
                let head = [b"refused", why.as_bytes(), line.as_bytes()];
                join(head.into_iter().chain(results))
            }
        }
    }
}
