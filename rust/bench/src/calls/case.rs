//! An image with all that the calls and luad need for it, and the comparison of their answers.
use super::model;
use answers::image::{rows, Image, Row, BINDING_BYTES, DIAGNOSTIC_BYTES, ROLE_BYTES, ROW_BYTES};
use answers::judge::{added, bindings, decode, diagnostics, preorder, roles};
use answers::limits::{DIAGNOSTIC_LIMIT, MAX_DIAGNOSTICS};
use archive::{result, Call};
use luad::diagnostic::Diagnostic;
use luad::model::{Chunk, Prototype};
use luad::validator::validate_chunk_lua51;
use std::fmt::Debug;
use std::hint::black_box;

/// What the buffers hold before a call whose answer is compared.
const UNWRITTEN: u8 = 0x55;

pub struct Case {
    name: &'static str,
    image: Image,
    /// luad's model of the image, with the incoming diagnostics alone.
    chunk: Chunk,
    /// The buffers, which the records fill.
    roles: Vec<u8>,
    bindings: Vec<u8>,
    /// The buffer for the most diagnostics that there can be, and how many luad's loading found.
    diagnostics: Vec<u8>,
    found: usize,
    /// Rows that luad's check comes to.
    reached: usize,
}

/// The rows that luad's check comes to: all, or those up to the last diagnostic where the diagnostic limit ends it.
fn reached(found: &[Diagnostic], main: &Prototype) -> usize {
    let protos = preorder(main);
    match found.len() < DIAGNOSTIC_LIMIT {
        true => protos.len(),
        false => diagnostics(&found[found.len() - 1..], &protos)[0][0] as usize + 1,
    }
}

/// The records of a buffer.
fn records<const N: usize>(bytes: &[u8]) -> Vec<[i32; N]> {
    let field = |four: &[u8]| i32::from_le_bytes(four.try_into().unwrap());
    let record = |bytes: &[u8]| std::array::from_fn(|i| field(&bytes[4 * i..4 * i + 4]));
    bytes.chunks(4 * N).map(record).collect()
}

impl Case {
    pub fn new(name: &'static str, image: Image) -> Self {
        let upvalues: usize = rows(&image.table).iter().map(|proto| proto.upvalues as usize).sum();
        let roles = vec![0; ROLE_BYTES * (image.words.len() / 4)];
        let bindings = vec![0; BINDING_BYTES * upvalues];
        let diagnostics = vec![0; DIAGNOSTIC_BYTES * MAX_DIAGNOSTICS];
        let (mut chunk, incoming) = decode(&image);
        let found = added(&chunk.diagnostics, incoming);
        let (found, reached) = (found.len(), reached(found, &chunk.main_proto));
        chunk.diagnostics.truncate(incoming);
        Self { name, image, chunk, roles, bindings, diagnostics, found, reached }
    }

    pub fn rows(&self) -> usize {
        self.image.table.len() / ROW_BYTES
    }

    pub fn words(&self) -> usize {
        self.image.words.len() / 4
    }

    pub fn upvalues(&self) -> usize {
        self.bindings.len() / BINDING_BYTES
    }

    pub fn diagnostics(&self) -> usize {
        self.found
    }

    /// Rows that luad's check comes to.
    pub fn reached(&self) -> usize {
        self.reached
    }

    /// The roles call by the proved code.
    pub fn roles(&mut self) -> u64 {
        black_box(archive::roles(black_box(&self.image), black_box(&mut self.roles)))
    }

    /// The bindings call by the proved code.
    pub fn bindings(&mut self) -> u64 {
        black_box(archive::bindings(black_box(&self.image), black_box(&mut self.roles), black_box(&mut self.bindings)))
    }

    /// The check call by the proved code, with room for `room` diagnostics.
    fn check_with(&mut self, room: usize) -> u64 {
        let diagnostics = &mut self.diagnostics[..DIAGNOSTIC_BYTES * room];
        black_box(archive::check(black_box(&self.image), black_box(&mut self.roles), black_box(diagnostics)))
    }

    /// The check call with room for the most diagnostics that there can be, so that the image is walked once.
    pub fn check(&mut self) -> u64 {
        self.check_with(MAX_DIAGNOSTICS)
    }

    /// The check call with a buffer that fits exactly, so that an image with diagnostics is walked twice.
    pub fn check_exact(&mut self) -> u64 {
        self.check_with(self.found)
    }

    /// What the roles call does, by luad.
    pub fn luad_roles(&mut self) {
        model::discover_after(black_box(&self.chunk.main_proto), &mut 0);
    }

    /// What the bindings call does, by luad with its loop transcribed.
    pub fn luad_bindings(&mut self) {
        model::bind(black_box(&mut self.chunk.main_proto));
    }

    /// What the check call does, by luad, which finds the roles of the prototypes that it comes to.
    pub fn luad_check(&mut self) {
        black_box(validate_chunk_lua51(black_box(&self.chunk)));
    }

    /// What luad's check does, and the roles of the other prototypes, which the check call finds too.
    pub fn luad_check_and_roles(&mut self) {
        self.luad_check();
        model::discover_after(black_box(&self.chunk.main_proto), &mut self.reached.clone());
    }

    /// Says where a call did not accept the image with this number of records and this verdict, which only a check has.
    fn accepted(&self, call: Call, found: u64, records: usize, verdict: u64) -> Result<(), String> {
        let expected = result(call, Ok(records), verdict);
        match found == expected {
            true => Ok(()),
            false => Err(format!("{}: {call}: result {found:#x}, not {expected:#x}", self.name)),
        }
    }

    /// Says which is the first record that is not luad's; `place` tells where it is.
    fn same<T: PartialEq + Debug>(
        &self,
        ours: &[T],
        luads: &[T],
        place: impl Fn(usize) -> String,
    ) -> Result<(), String> {
        assert_eq!(ours.len(), luads.len(), "{}: the records of the buffer and luad's", self.name);
        let Some(at) = ours.iter().zip(luads).position(|(ours, luads)| ours != luads) else { return Ok(()) };
        Err(format!("{}: {}: the record is {:?}, luad's is {:?}", self.name, place(at), ours[at], luads[at]))
    }

    /// The row of a record and its number there. Each row has as many as `count` tells, and `number` is what they are
    /// counted by.
    fn place(&self, at: usize, count: fn(&Row) -> u32, number: &str) -> String {
        let table = rows(&self.image.table);
        let mut places = table.iter().enumerate().flat_map(|(row, proto)| (0..count(proto)).map(move |i| (row, i)));
        let (row, i) = places.nth(at).expect("a row that has the record");
        format!("row {row}, {number} {i}")
    }

    /// Says where the role buffer is not luad's roles.
    fn same_roles(&self) -> Result<(), String> {
        let protos = preorder(&self.chunk.main_proto);
        assert_eq!(protos.len(), self.rows(), "{}: luad's prototypes and the rows", self.name);
        self.same(&records(&self.roles), &roles(&protos), |at| self.place(at, |proto| proto.words, "pc"))
    }

    /// Says where the roles call does not answer as luad.
    pub fn compare_roles(&mut self) -> Result<(), String> {
        self.roles.fill(UNWRITTEN);
        let found = self.roles();
        self.accepted(Call::Roles, found, self.words(), 0)?;
        self.same_roles()
    }

    /// The bindings as they stand in luad's model.
    fn model_bindings(&self) -> Vec<[i32; 3]> {
        bindings(&preorder(&self.chunk.main_proto))
    }

    /// Says where the bindings call does not answer as luad, whose own loading made the bindings of a new case. Gives
    /// the number of upvalues that are bound.
    pub fn compare_bindings(&mut self) -> Result<usize, String> {
        self.roles.fill(UNWRITTEN);
        self.bindings.fill(UNWRITTEN);
        let found = self.bindings();
        self.accepted(Call::Bindings, found, self.upvalues(), 0)?;
        self.same_roles()?;
        let loaded = self.model_bindings();
        let place = |at| self.place(at, |proto| proto.upvalues, "upvalue");
        self.same(&records(&self.bindings), &loaded, place)?;
        model::unbind(&mut self.chunk.main_proto);
        self.luad_bindings();
        match loaded == self.model_bindings() {
            true => Ok(loaded.iter().filter(|[.., pc]| *pc != -1).count()),
            false => Err(format!("{}: luad's loop as transcribed binds otherwise than its loading", self.name)),
        }
    }

    /// Says where the check call, with more room than it needs and with just enough, does not answer as luad.
    pub fn compare_check(&mut self) -> Result<(), String> {
        let (verdict, all) = validate_chunk_lua51(&self.chunk);
        let added = added(&all, self.chunk.diagnostics.len());
        let luads = diagnostics(added, &preorder(&self.chunk.main_proto));
        for room in [MAX_DIAGNOSTICS, luads.len()] {
            self.roles.fill(UNWRITTEN);
            self.diagnostics.fill(UNWRITTEN);
            let found = self.check_with(room);
            self.accepted(Call::Check, found, luads.len(), verdict as u64)?;
            self.same_roles()?;
            let (ours, past) = self.diagnostics.split_at(DIAGNOSTIC_BYTES * luads.len());
            self.same(&records(ours), &luads, |at| format!("diagnostic {at}"))?;
            if past.iter().any(|byte| *byte != UNWRITTEN) {
                return Err(format!("{}: a byte past the diagnostics is written", self.name));
            }
        }
        Ok(())
    }
}
