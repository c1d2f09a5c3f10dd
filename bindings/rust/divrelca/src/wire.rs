//! Strings and numbers of SSH (RFC 4251, 5), as requests hold them.

/// Writes what a request holds.
#[derive(Clone, Debug, Default, PartialEq, Eq)]
pub struct Put(Vec<u8>);

impl Put {
    /// Nothing yet.
    pub fn new() -> Self {
        Self::default()
    }

    /// A string.
    #[must_use]
    pub fn string(mut self, bytes: impl AsRef<[u8]>) -> Self {
        let bytes = bytes.as_ref();
        self.0.extend_from_slice(&(bytes.len() as u32).to_be_bytes());
        self.0.extend_from_slice(bytes);
        self
    }

    /// A number of 32 bits.
    #[must_use]
    pub fn number(mut self, number: u32) -> Self {
        self.0.extend_from_slice(&number.to_be_bytes());
        self
    }

    /// A boolean.
    #[must_use]
    pub fn flag(mut self, flag: bool) -> Self {
        self.0.push(flag.into());
        self
    }

    /// The bytes.
    pub fn done(self) -> Vec<u8> {
        self.0
    }
}

/// Reads what a request holds, from the front; `None` where there is too little.
#[derive(Clone, Copy, Debug)]
pub struct Take<'a>(
    /// What is not read yet.
    pub &'a [u8],
);

impl<'a> Take<'a> {
    fn bytes(&mut self, count: usize) -> Option<&'a [u8]> {
        let (front, rest) = (self.0.get(..count)?, self.0.get(count..)?);
        self.0 = rest;
        Some(front)
    }

    /// A number of 32 bits.
    pub fn number(&mut self) -> Option<u32> {
        Some(u32::from_be_bytes(self.bytes(4)?.try_into().ok()?))
    }

    /// A boolean.
    pub fn flag(&mut self) -> Option<bool> {
        Some(self.bytes(1)? != [0])
    }

    /// A string.
    pub fn string(&mut self) -> Option<&'a [u8]> {
        let count = self.number()?;
        self.bytes(usize::try_from(count).ok()?)
    }

    /// A string of UTF-8.
    pub fn text(&mut self) -> Option<&'a str> {
        std::str::from_utf8(self.string()?).ok()
    }
}
