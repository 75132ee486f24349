//! What a call answers, in the numbers of the archive's interface, and what it must leave in the output.

/// The struct that every entry point returns. Every field with nothing to say is 0.
#[repr(C)]
#[derive(Clone, Copy, PartialEq, Eq, Debug, Default)]
pub struct Answer {
    pub refusal: u64,
    pub finished: u64,
    pub value: u64,
    pub steps: u64,
    pub place: u64,
    pub code: u64,
}

impl Answer {
    pub fn given(value: u64) -> Answer {
        Answer {
            value,
            ..Answer::default()
        }
    }

    pub fn refused(refusal: u64) -> Answer {
        Answer {
            refusal,
            ..Answer::default()
        }
    }

    /// Refusals 4 and 10 tell an offset.
    pub fn refused_at(refusal: u64, place: u64) -> Answer {
        Answer {
            place,
            ..Answer::refused(refusal)
        }
    }

    /// Refusal 5, at a place counted in characters.
    pub fn invalid(place: usize, character: char) -> Answer {
        Answer {
            code: character as u64,
            ..Answer::refused_at(5, place as u64)
        }
    }

    pub fn refused_after(refusal: u64, steps: u64) -> Answer {
        Answer {
            steps,
            ..Answer::refused(refusal)
        }
    }
}

/// An answer, and the bytes that stand first in the output after it.
#[derive(Clone, PartialEq, Eq, Debug)]
pub struct Outcome {
    pub answer: Answer,
    pub first: Vec<u8>,
}

impl Outcome {
    pub fn number(value: u64) -> Outcome {
        Answer::given(value).into()
    }

    /// A coded term or a text, whose length is told.
    pub fn stored(first: Vec<u8>) -> Outcome {
        Outcome {
            answer: Answer::given(first.len() as u64),
            first,
        }
    }

    pub fn run(finished: bool, steps: u64, first: Vec<u8>) -> Outcome {
        let mut outcome = Outcome::stored(first);
        outcome.answer.finished = finished as u64;
        outcome.answer.steps = steps;
        outcome
    }
}

impl From<Answer> for Outcome {
    fn from(answer: Answer) -> Outcome {
        Outcome {
            answer,
            first: vec![],
        }
    }
}

impl From<Result<Outcome, Answer>> for Outcome {
    fn from(result: Result<Outcome, Answer>) -> Outcome {
        result.unwrap_or_else(Outcome::from)
    }
}
