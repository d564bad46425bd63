//! luad's own answer for an image: encoded as a binary chunk, decoded and validated by the published files.
use crate::chunk;
use crate::image::{rows, Image, ROW_BYTES};
use crate::limits::DIAGNOSTIC_LIMIT;
use crate::message::{code_number, value};
use luad::chunk::decode_chunk_lua51_with_profile;
use luad::diagnostic::{Diagnostic, DiagnosticCategory, Verdict};
use luad::header::Lua51Profile;
use luad::id::{ProtoPath, StableId};
use luad::limits::{ParseMode, ResourceLimits};
use luad::model::{Chunk, Prototype, UpvalueDesc};
use luad::reader::SafeReader;
use luad::roles::{discover_roles_lua51, Lua51PhysicalRole, Lua51RoleFault};
use std::collections::HashMap;

/// Incoming diagnostics of one severity that luad is given at most. This many alone reach the limit, and luad then
/// looks only at whether there is an error among them, so a larger number gives the same answer.
const MOST_INCOMING: u32 = DIAGNOSTIC_LIMIT as u32;

/// What luad says of an image.
#[derive(Debug, Clone, PartialEq, Eq)]
pub struct Answer {
    pub verdict: Verdict,
    /// Owner pc and upvalue index of each word.
    pub roles: Vec<[i32; 2]>,
    /// instack, idx and descriptor pc of each upvalue of each row.
    pub bindings: Vec<[i32; 3]>,
    /// Row, pc, code and value.
    pub diagnostics: Vec<[i32; 4]>,
}

/// Limits that no accepted image reaches.
fn limits() -> ResourceLimits {
    let most = usize::MAX;
    ResourceLimits {
        max_input_bytes: most,
        max_nesting_depth: most,
        max_total_prototypes: most,
        max_instructions_per_proto: most,
        max_total_instructions: most,
        max_constants_per_proto: most,
        max_upvalues_per_proto: most,
        max_string_bytes: most,
        max_diagnostics: most,
    }
}

/// Puts incoming diagnostics into the reader, from where `decode_chunk_lua51_with_profile` takes them as the chunk's
/// diagnostics before its validation. Gives their number.
fn record_incoming(reader: &mut SafeReader, warnings: u32, errors: u32) -> usize {
    for _ in 0..warnings.min(MOST_INCOMING) {
        let category = DiagnosticCategory::Parse;
        let warning = Diagnostic::warning("INCOMING", category, StableId::Chunk, String::new());
        reader.record_diagnostic(warning).expect("a warning is only recorded");
    }
    for _ in 0..errors.min(MOST_INCOMING) {
        let error = Diagnostic::error("INCOMING", DiagnosticCategory::Parse, StableId::Chunk, String::new());
        // Strict mode records an error and then hands it back; the decoding is begun all the same.
        reader.record_diagnostic(error).expect_err("an error is recorded and handed back");
    }
    reader.diagnostics().len()
}

/// A decoded prototype and its parent.
pub type Placed<'a> = (&'a Prototype, Option<&'a Prototype>);

/// The decoded prototypes in preorder.
pub fn preorder(main: &Prototype) -> Vec<Placed<'_>> {
    let mut found = Vec::new();
    let mut open = vec![(main, None)];
    while let Some((proto, parent)) = open.pop() {
        found.push((proto, parent));
        open.extend(proto.protos.iter().rev().map(|child| (child, Some(proto))));
    }
    found
}

/// The two numbers of a role.
fn role(role: Lua51PhysicalRole) -> [i32; 2] {
    match role {
        Lua51PhysicalRole::Instruction => [-1, -1],
        Lua51PhysicalRole::ClosureBinding { owner_pc, upvalue_index } => [owner_pc as i32, upvalue_index as i32],
        Lua51PhysicalRole::SetlistExtra { owner_pc } => [owner_pc as i32, -1],
    }
}

/// The two numbers of the role of each word.
pub fn roles(protos: &[Placed]) -> Vec<[i32; 2]> {
    protos.iter().flat_map(|(proto, _)| discover_roles_lua51(proto).roles).map(role).collect()
}

/// The pc of the word that bound an upvalue. luad keeps this word's source location: it is that of a word of the
/// parent, or, where nothing was bound, still that of the upvalue's own prototype.
fn descriptor_pc(upvalue: &UpvalueDesc, proto: &Prototype, parent: Option<&Prototype>) -> i32 {
    if upvalue.source.offset == proto.source.offset {
        return -1;
    }
    let code = &parent.expect("a parent that bound the upvalue").instructions;
    let pc = code.binary_search_by_key(&upvalue.source.offset, |word| word.source.offset);
    pc.expect("a word of the parent") as i32
}

/// The three numbers of each binding of a prototype.
fn bindings_of<'a>((proto, parent): Placed<'a>) -> impl Iterator<Item = [i32; 3]> + 'a {
    let binding = move |upvalue: &UpvalueDesc| {
        [i32::from(upvalue.instack), i32::from(upvalue.idx), descriptor_pc(upvalue, proto, parent)]
    };
    proto.upvalues.iter().map(binding)
}

/// The three numbers of the binding of each upvalue.
pub fn bindings(protos: &[Placed]) -> Vec<[i32; 3]> {
    protos.iter().flat_map(|placed| bindings_of(*placed)).collect()
}

/// The value of code 1, which luad's message does not carry: what luad's role map declares for the CLOSURE.
fn declared_upvalues(proto: &Prototype, pc: i32) -> i32 {
    let declared = |fault: &Lua51RoleFault| match fault {
        Lua51RoleFault::TruncatedClosure { owner_pc, declared, .. } if *owner_pc as i32 == pc => Some(*declared),
        _ => None,
    };
    discover_roles_lua51(proto).faults.iter().find_map(declared).expect("a truncated CLOSURE") as i32
}

/// The four numbers of a diagnostic.
fn record(diagnostic: &Diagnostic, protos: &[Placed], row_of: &HashMap<ProtoPath, usize>) -> [i32; 4] {
    let (path, pc) = match &diagnostic.target {
        StableId::Proto(path) => (path, -1),
        StableId::Instruction(path, pc) => (path, *pc as i32),
        other => panic!("a diagnostic about {other:?}"),
    };
    let row = row_of[path];
    let code = code_number(diagnostic.code);
    let value = match code {
        1 => declared_upvalues(protos[row].0, pc),
        2 => 0, // luad's message carries no value; document 01 gives 0
        _ => value(code, &diagnostic.message),
    };
    [row as i32, pc, code, value]
}

/// The diagnostics that a validation added: without the incoming ones and the line on the limit.
pub fn added(diagnostics: &[Diagnostic], incoming: usize) -> &[Diagnostic] {
    let added = &diagnostics[incoming..];
    match added.last() {
        Some(last) if last.code == "CORE-LIMIT-003" => &added[..added.len() - 1],
        _ => added,
    }
}

/// The four numbers of each diagnostic that was added.
pub fn diagnostics(added: &[Diagnostic], protos: &[Placed]) -> Vec<[i32; 4]> {
    let row_of: HashMap<ProtoPath, usize> =
        protos.iter().enumerate().map(|(row, (proto, _))| (proto.path.clone(), row)).collect();
    added.iter().map(|diagnostic| record(diagnostic, protos, &row_of)).collect()
}

/// The chunk that luad makes of an image that has none of the refusals 1 to 6, and the number of its incoming
/// diagnostics.
pub fn decode(image: &Image) -> (Chunk, usize) {
    let bytes = chunk::encode(&rows(&image.table), &image.words);
    let mut reader = SafeReader::with_options(&bytes, 0, limits(), ParseMode::Strict);
    let incoming = record_incoming(&mut reader, image.warnings, image.errors);
    let chunk = decode_chunk_lua51_with_profile(&mut reader, Lua51Profile::Stock).expect("a chunk that decodes");
    (chunk, incoming)
}

/// luad's answer for an image that has none of the refusals 1 to 6.
pub fn judge(image: &Image) -> Answer {
    let (chunk, incoming) = decode(image);
    let protos = preorder(&chunk.main_proto);
    assert_eq!(protos.len(), image.table.len() / ROW_BYTES, "a prototype for each row");
    let diagnostics = diagnostics(added(&chunk.diagnostics, incoming), &protos);
    Answer { verdict: chunk.verdict, roles: roles(&protos), bindings: bindings(&protos), diagnostics }
}
