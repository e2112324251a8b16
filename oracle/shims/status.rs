//! Stands in for the status output: it takes what the published one takes and says nothing.

pub fn trace(_text: &str) {}

pub fn debug(_text: &str) {}

pub fn info(_text: &str) {}

pub(crate) struct StatusProgress;

impl StatusProgress {
    pub(crate) fn inc(&self, _delta: u64) {}

    pub(crate) fn set_message(&self, _message: impl Into<String>) {}

    pub(crate) fn set_position(&self, _position: u64) {}

    pub(crate) fn finish_and_clear(&self) {}
}

pub(crate) fn progress_bar(_prefix: &str, _length: u64) -> StatusProgress {
    StatusProgress
}

pub(crate) fn hidden_progress() -> StatusProgress {
    StatusProgress
}
