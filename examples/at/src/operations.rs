//! An expression's operations as a person reads them, with gimli's names and registers.

use crate::unit::Unit;
use crate::{Reader, Value};
use gimli::{DieReference, Expression, Operation, Register};
use object::Architecture;

/// The operations, one after the other; an operation that gimli doesn't know ends them.
pub fn text(unit: &Unit, bytes: &'static [u8]) -> String {
    let expression = Expression(unit.sections.reader(bytes));
    let mut walk = expression.operations(unit.header.encoding());
    let mut words = Vec::new();
    let mut at = 0;
    loop {
        match walk.next() {
            Ok(None) => return words.join(", "),
            Ok(Some(operation)) => words.push(one(unit, bytes[at], &operation)),
            Err(error) => {
                words.push(format!("{} that gimli does not read ({error})", name(bytes[at])));
                return words.join(", ");
            }
        }
        at = walk.offset_from(&expression);
    }
}

fn name(code: u8) -> String {
    gimli::DwOp(code).to_string()
}

/// A register's name on the machine; its number alone where gimli has no name.
fn register_name(machine: Architecture, register: Register) -> Option<&'static str> {
    match machine {
        Architecture::X86_64 | Architecture::X86_64_X32 => gimli::X86_64::register_name(register),
        Architecture::I386 => gimli::X86::register_name(register),
        Architecture::Arm => gimli::Arm::register_name(register),
        Architecture::Aarch64 => gimli::AArch64::register_name(register),
        Architecture::Riscv32 | Architecture::Riscv64 => gimli::RiscV::register_name(register),
        Architecture::LoongArch64 => gimli::LoongArch::register_name(register),
        _ => None,
    }
}

fn register(unit: &Unit, number: Register) -> String {
    match register_name(unit.sections.machine, number) {
        Some(name) => name.to_string(),
        None => format!("register {}", number.0),
    }
}

/// Bytes in two digits each.
pub fn hex(bytes: &[u8]) -> String {
    bytes.iter().map(|byte| format!("{byte:02x}")).collect::<Vec<_>>().join(" ")
}

fn entry(unit: &Unit, offset: gimli::UnitOffset) -> String {
    let type_name = unit.attributes(offset).ok().and_then(|attributes| {
        let (_, value) = attributes.into_iter().find(|(name, _)| *name == gimli::DW_AT_name)?;
        unit.text(&value)
    });
    match type_name {
        Some(name) => format!("({:#x} {name})", unit.section_offset(offset)),
        None => format!("({:#x})", unit.section_offset(offset)),
    }
}

fn indexed(unit: &Unit, index: usize) -> String {
    let value = Value::DebugAddrIndex(gimli::DebugAddrIndex(index));
    match unit.context.address_of(&value) {
        Ok(Some((address, _))) => {
            format!("{address:#x} (index {index} of the address table) [proved]")
        }
        Ok(None) => format!("index {index}"),
        Err(wrong) => format!("index {index} ({wrong})"),
    }
}

fn one(unit: &Unit, code: u8, operation: &Operation<Reader>) -> String {
    let name = name(code);
    let operands = match operation {
        Operation::Register { register: number } => register(unit, *number),
        Operation::RegisterOffset { register: number, offset, base_type } => {
            let register = register(unit, *number);
            match base_type.0 {
                0 => format!("{register}{offset:+}"),
                _ => format!("{register} as {}", entry(unit, *base_type)),
            }
        }
        Operation::FrameOffset { offset } => format!("{offset:+}"),
        Operation::PlusConstant { value } => format!("{value}"),
        Operation::UnsignedConstant { .. } if name.starts_with("DW_OP_lit") => String::new(),
        Operation::UnsignedConstant { value } => format!("{value}"),
        Operation::SignedConstant { value } => format!("{value:+}"),
        Operation::Address { address } => format!("{address:#x}"),
        Operation::AddressIndex { index } | Operation::ConstantIndex { index } => {
            indexed(unit, index.0)
        }
        Operation::Deref { base_type, size, .. } if code != gimli::DW_OP_deref.0 => {
            match base_type.0 {
                0 => format!("{size}"),
                _ => format!("{size} as {}", entry(unit, *base_type)),
            }
        }
        Operation::Pick { index } if code == gimli::DW_OP_pick.0 => format!("{index}"),
        Operation::Bra { target } | Operation::Skip { target } => format!("{target:+}"),
        Operation::Piece { size_in_bits, bit_offset: None } => format!("{}", size_in_bits / 8),
        Operation::Piece { size_in_bits, bit_offset: Some(offset) } => {
            format!("{size_in_bits} bits from bit {offset}")
        }
        Operation::ImplicitValue { data } => format!("<{}>", hex(data.slice())),
        Operation::ImplicitPointer { value, byte_offset } => {
            format!("(entry {:#x}){byte_offset:+}", value.0)
        }
        Operation::EntryValue { expression } => format!("({})", text(unit, expression.slice())),
        Operation::ParameterRef { offset } => {
            format!("(entry {:#x})", unit.section_offset(*offset))
        }
        Operation::Call { offset: DieReference::UnitRef(offset) } => {
            format!("(entry {:#x})", unit.section_offset(*offset))
        }
        Operation::Call { offset: DieReference::DebugInfoRef(offset) } => {
            format!("(entry {:#x})", offset.0)
        }
        Operation::TypedLiteral { base_type, value } => {
            format!("<{}> as {}", hex(value.slice()), entry(unit, *base_type))
        }
        Operation::Convert { base_type } | Operation::Reinterpret { base_type } => {
            match base_type.0 {
                0 => "(generic)".to_string(),
                _ => entry(unit, *base_type),
            }
        }
        Operation::WasmLocal { index } => format!("local {index}"),
        Operation::WasmGlobal { index } => format!("global {index}"),
        Operation::WasmStack { index } => format!("stack {index}"),
        _ => String::new(),
    };
    if operands.is_empty() { name } else { format!("{name} {operands}") }
}
