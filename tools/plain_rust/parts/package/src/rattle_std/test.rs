//! What tests answer.

/// What `?` makes of any error in a test.
pub struct Fail(pub String);

/// What a test answers.
pub trait Passed {
    fn why_not(self) -> Option<String>;
}

impl Passed for () {
    fn why_not(self) -> Option<String> {
        None
    }
}

impl Passed for Result<(), Fail> {
    fn why_not(self) -> Option<String> {
        self.err().map(|fail| fail.0)
    }
}

pub fn pass(answer: impl Passed) {
    if let Some(why) = answer.why_not() {
        panic!("{why}");
    }
}

impl Fail {
    pub fn new(why: &str) -> Fail {
        Fail(String::from(why))
    }
}

impl<E: std::fmt::Debug> From<E> for Fail {
    fn from(error: E) -> Fail {
        Fail(format!("{error:?}"))
    }
}
