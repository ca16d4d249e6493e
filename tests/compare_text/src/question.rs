//! A question to both readers: a chunk, the offsets of records in it, and the
//! answer where it was worked out by hand.

/// The answer to a question, for a room that is large enough.
#[derive(Clone, Debug, PartialEq, Eq)]
pub enum Expected {
    Text(Vec<u8>),
    /// A text of so many bytes, for which no room is lent.
    Long(u64),
    Refused(u32),
}

impl Expected {
    /// The length of the text, or the refusal.
    pub fn length(&self) -> Result<u64, u32> {
        match self {
            Expected::Text(text) => Ok(text.len() as u64),
            Expected::Long(length) => Ok(*length),
            Expected::Refused(number) => Err(*number),
        }
    }
}

pub struct Question {
    /// The name of a case worked out by hand, or the kind of a generated one.
    pub name: String,
    pub seed: u64,
    /// Which of the questions that this kind makes of this seed.
    pub part: usize,
    pub chunk: Vec<u8>,
    /// What stands in memory after the chunk.
    pub behind: Vec<u8>,
    pub offsets: Vec<u64>,
    /// By hand, from document 01; where it is missing, the second reader's
    /// answer is the expected one.
    pub expected: Option<Expected>,
}

impl Question {
    pub fn new(name: impl Into<String>, chunk: Vec<u8>) -> Question {
        Question {
            name: name.into(),
            seed: 0,
            part: 0,
            chunk,
            behind: Vec::new(),
            offsets: vec![512],
            expected: None,
        }
    }

    pub fn text(name: impl Into<String>, chunk: Vec<u8>, text: impl Into<Vec<u8>>) -> Question {
        Question { expected: Some(Expected::Text(text.into())), ..Question::new(name, chunk) }
    }

    pub fn refused(name: impl Into<String>, chunk: Vec<u8>, number: u32) -> Question {
        Question { expected: Some(Expected::Refused(number)), ..Question::new(name, chunk) }
    }

    pub fn long(name: impl Into<String>, chunk: Vec<u8>, length: u64) -> Question {
        Question { expected: Some(Expected::Long(length)), ..Question::new(name, chunk) }
    }

    pub fn at(self, offset: u64) -> Question {
        Question { offsets: vec![offset], ..self }
    }

    pub fn behind(self, behind: &[u8]) -> Question {
        Question { behind: behind.to_vec(), ..self }
    }
}
