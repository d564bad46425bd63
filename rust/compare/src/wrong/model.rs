//! A library that gives a stored answer, with or without a flaw in refusals and buffers.
use super::protocol::Protocol;
use crate::case::{Case, Records};
use crate::library::Library;
use answers::calls::{outcomes, Outcome};
use answers::image::{Buffers, Image};
use answers::judge::Answer;
use answers::refusal::Refusal;
use archive::{result, Call, CHECKED, RECORD_BYTES};

/// The answer for one image.
pub struct Model<'a> {
    records: &'a Records,
    verdict: u64,
    protocol: Option<Protocol>,
}

impl<'a> Model<'a> {
    /// luad's answer, given with a flaw or without one.
    pub fn of(case: &'a Case, protocol: Option<Protocol>) -> Self {
        Self { records: &case.records, verdict: case.verdict(), protocol }
    }

    /// Another answer, whose records are these.
    pub fn with(answer: &Answer, records: &'a Records) -> Self {
        Self { records, verdict: answer.verdict as u64, protocol: None }
    }

    fn has(&self, flaw: Protocol) -> bool {
        self.protocol == Some(flaw)
    }

    /// Whether the role buffer, and the call's own, are written.
    fn writes(&self, call: Call, outcome: Outcome) -> (bool, bool) {
        let (roles, own) = match outcome {
            Ok(_) => (true, call != Call::Roles),
            Err(refused) => match refused.refusal {
                Refusal::BufferTooShort => (!self.has(Protocol::RolesUnwrittenOn8), self.has(Protocol::OwnWrittenOn8)),
                Refusal::RoleBufferTooShort => (self.has(Protocol::RolesWrittenOn7), false),
                _ => (false, false),
            },
        };
        (roles && !self.has(Protocol::RolesUnwritten), own && !self.has(Protocol::OwnUnwritten))
    }

    /// Writes as many whole records as fit.
    fn write(&self, kind: Call, buffer: &mut [u8]) {
        let records = &self.records.0[kind as usize];
        let len = records.len().min(buffer.len() / RECORD_BYTES[kind as usize] * RECORD_BYTES[kind as usize]);
        buffer[..len].copy_from_slice(&records[..len]);
        if self.has(Protocol::PastRecordsCleared) {
            buffer[len..].fill(0);
        }
    }
}

impl Library for Model<'_> {
    fn call(&mut self, call: Call, image: &Image, roles: &mut [u8], own: &mut [u8]) -> u64 {
        let buffers = Buffers { roles: roles.len(), bindings: own.len(), diagnostics: own.len() };
        let right = outcomes(image, buffers, self.records.counts())[call as usize];
        let outcome = match self.protocol {
            Some(protocol) => protocol.outcome(right, call, image, own.len(), self.records.counts()[call as usize]),
            None => right,
        };
        let (roles_written, own_written) = self.writes(call, outcome);
        if roles_written {
            self.write(Call::Roles, roles);
        }
        if own_written {
            self.write(call, own);
        }
        let verdict = if self.has(Protocol::VerdictOnRefusal) && outcome.is_err() { self.verdict << 40 } else { 0 };
        let wrong_bit = match outcome {
            Ok(_) if call == Call::Check => self.has(Protocol::UncheckedCheck),
            Ok(_) => self.has(Protocol::CheckedOtherCall),
            Err(_) => call == Call::Check && self.has(Protocol::CheckedRefusal),
        };
        (result(call, outcome, self.verdict) | verdict) ^ if wrong_bit { CHECKED } else { 0 }
    }
}
