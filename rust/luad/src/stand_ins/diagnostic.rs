//! Stand-in for luad-core's unpublished module `diagnostic`.
use crate::id::StableId;
use crate::provenance::SourceLocation;

/// How much a diagnostic weighs.
#[derive(Debug, Clone, Copy, PartialEq, Eq)]
pub enum Severity {
    Warning,
    Error,
}

/// What a diagnostic is about; the published files name these four.
#[derive(Debug, Clone, Copy, PartialEq, Eq)]
pub enum DiagnosticCategory {
    Parse,
    Structure,
    Instruction,
    ControlFlow,
}

/// The verdicts that the published files give.
#[derive(Debug, Clone, Copy, PartialEq, Eq)]
pub enum Verdict {
    ValidForParser,
    Incomplete,
    Invalid,
}

/// One diagnostic: what the published files put into it, without its source location and suggested action.
#[derive(Debug, Clone, PartialEq, Eq)]
pub struct Diagnostic {
    pub code: &'static str,
    pub severity: Severity,
    pub category: DiagnosticCategory,
    pub target: StableId,
    pub message: String,
}

impl Diagnostic {
    fn new(
        severity: Severity,
        code: &'static str,
        category: DiagnosticCategory,
        target: StableId,
        message: String,
    ) -> Self {
        Self { code, severity, category, target, message }
    }

    pub fn error(
        code: &'static str,
        category: DiagnosticCategory,
        target: StableId,
        message: impl Into<String>,
    ) -> Self {
        Self::new(Severity::Error, code, category, target, message.into())
    }

    pub fn warning(
        code: &'static str,
        category: DiagnosticCategory,
        target: StableId,
        message: impl Into<String>,
    ) -> Self {
        Self::new(Severity::Warning, code, category, target, message.into())
    }

    /// The location is not kept: the target names the word.
    pub fn with_source(self, _: SourceLocation) -> Self {
        self
    }

    /// The suggestion is not kept.
    pub fn with_suggested_action(self, _: &str) -> Self {
        self
    }
}

/// The identity: the whole list of diagnostics survives, in its order.
pub fn truncate_and_dedup_diagnostics(diagnostics: Vec<Diagnostic>, _: usize) -> Vec<Diagnostic> {
    diagnostics
}
