//! luad's work on its model of an image: all roles, or all roles and bindings.
use luad::model::{InstructionWord, Prototype};
use luad::opcodes::{Opcode51, RawInstruction51};
use luad::roles::{discover_roles_lua51, Lua51PhysicalRole, Lua51RoleMap};
use std::hint::black_box;

/// luad's role maps of a prototype and of those below it, in preorder, without the first `front`. Each map is dropped
/// before the next is made.
pub fn discover_after(proto: &Prototype, front: &mut usize) {
    match *front {
        0 => _ = black_box(discover_roles_lua51(proto)),
        _ => *front -= 1,
    }
    proto.protos.iter().for_each(|child| discover_after(child, front));
}

/// luad's bindings in a prototype and below it, made again. As in luad's `load_proto_51` the children come first, then
/// the prototype's role map, whose function there, `discover_roles_from_parts_lua51`, is all that `discover_roles_lua51`
/// calls, then the loop.
pub fn bind(proto: &mut Prototype) {
    proto.protos.iter_mut().for_each(bind);
    let role_map = discover_roles_lua51(proto);
    resolve(&proto.instructions, &mut proto.protos, &role_map);
}

/// A transcription of the loop at the end of luad's `load_proto_51` in chunk.rs: luad has it only inside the loading.
/// Cloning a source is cheap here: our stand-in for luad's unpublished `SourceLocation` is only an offset.
fn resolve(instructions: &[InstructionWord], protos: &mut [Prototype], role_map: &Lua51RoleMap) {
    for (pc, inst) in instructions.iter().enumerate() {
        if !role_map.is_executable(pc) {
            continue;
        }
        let raw = RawInstruction51::decode(inst.raw_word);
        if raw.opcode == Some(Opcode51::Closure) {
            let child_idx = raw.bx as usize;
            if let Some(child) = protos.get_mut(child_idx) {
                let nups_child = child.upvalues.len();
                for j in 0..nups_child {
                    let desc_pc = pc + 1 + j;
                    if desc_pc < instructions.len()
                        && matches!(
                            role_map.get(desc_pc),
                            Lua51PhysicalRole::ClosureBinding { owner_pc, upvalue_index }
                                if owner_pc == pc && upvalue_index == j
                        )
                    {
                        let desc_raw = RawInstruction51::decode(instructions[desc_pc].raw_word);
                        if let Some(u) = child.upvalues.get_mut(j) {
                            if desc_raw.opcode == Some(Opcode51::Move) {
                                u.instack = 1;
                                u.idx = desc_raw.b as u8;
                                u.source = instructions[desc_pc].source.clone();
                            } else if desc_raw.opcode == Some(Opcode51::GetUpval) {
                                u.instack = 0;
                                u.idx = desc_raw.b as u8;
                                u.source = instructions[desc_pc].source.clone();
                            }
                        }
                    }
                }
            }
        }
    }
}

/// Sets the upvalues of a prototype and of each one below it to what `load_proto_51` makes them before its loop.
pub fn unbind(proto: &mut Prototype) {
    for upvalue in &mut proto.upvalues {
        upvalue.instack = 0;
        upvalue.idx = 0;
        upvalue.source = proto.source.clone();
    }
    proto.protos.iter_mut().for_each(unbind);
}
