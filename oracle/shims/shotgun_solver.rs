//! Stands in for the workers' progress channel: the search reports its depth to nobody.

#[derive(Debug, Clone)]
pub(crate) struct ProgressReporter;

impl ProgressReporter {
    pub(crate) fn dummy() -> Self {
        Self
    }

    pub(crate) fn publish_depth(&self, _sched_depth: f32) {}
}
