//! Stand-in for luad-core's unpublished module `dialect`.
use crate::provenance::Confidence;

/// How the dialect was chosen; the published files name this one.
#[derive(Debug, Clone, Copy, PartialEq, Eq)]
pub enum SelectionMode {
    Detected,
}

/// What a chunk's header was taken for.
#[derive(Debug, Clone, PartialEq, Eq)]
pub struct ResolvedInterpretation {
    pub base_dialect: String,
    pub patch_or_oracle_version: Option<String>,
    pub profile: String,
    pub profile_version_or_hash: Option<String>,
    pub validated_layout: Option<String>,
    pub parse_mode: String,
    pub selection_mode: SelectionMode,
    pub detection_evidence: String,
}

/// What the first bytes were taken for.
#[derive(Debug, Clone, PartialEq, Eq)]
pub struct DetectionResult {
    pub dialect: String,
    pub confidence: Confidence,
    pub evidence: String,
}
