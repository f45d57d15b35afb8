//! A difference, and how it is told.

/// What is found on one side, and what the paper tells.
pub type Side = (String, &'static str);

/// What the Rust does with an input and what is done here.
pub struct Difference {
    pub input: &'static str,
    pub rust: Side,
    pub here: Side,
}

/// What the original does where only a debug assertion stands in the way.
pub const ASSERTED: &str = match cfg!(debug_assertions) {
    true => "panics",
    false => "goes on",
};

pub fn refused(number: u32) -> String {
    match number {
        0..=15 => format!("refuses with {number}"),
        _ => format!("answers {number}"),
    }
}

pub fn panics<T>(work: impl FnOnce() -> T) -> String {
    match std::panic::catch_unwind(std::panic::AssertUnwindSafe(work)) {
        Ok(_) => "goes on".to_string(),
        Err(_) => "panics".to_string(),
    }
}
