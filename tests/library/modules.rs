//! WebAssembly modules: the interpreter, and the reader of files.

use bhs_wasm::{
    Binary, Function, HostFunction, Instruction, Interpreter, Module, Progress, Unary, binary32,
    binary64, unary32, unary64,
};
use bhs_wasm_read::{FaultKind, ModuleFault, module_of};
use std::alloc::Global;
use std::test::Fail;

// Returns a module whose only function has one local variable.
fn module(alloc: Global, code: &[Instruction]) -> Result<Module, Fail> {
    let mut functions = Vec::new(alloc);
    functions.push(Function {
        start: 0,
        parameters: 0,
        locals: 1,
        function_type: 0,
    })?;
    Ok(Module {
        code: Vec::from_slice(alloc, code)?,
        functions,
        table: Vec::new(alloc),
        globals: Vec::new(alloc),
        memory: Vec::from_slice(alloc, b"text")?,
        pages: 1,
        max_pages: 1,
        entry: 0,
        imports: 0,
    })
}

#[test]
fn waits_in_a_command_and_returns(rt: HostRuntime) -> Result<(), Fail> {
    let module = module(
        rt.alloc(),
        &[
            Instruction::Const(0),
            Instruction::CallHost(HostFunction::Argument),
            Instruction::Const(5),
            Instruction::Binary32(Binary::Mul),
            Instruction::CallHost(HostFunction::Depart),
            Instruction::LocalSet(0),
            Instruction::Return { keep: 0 },
        ],
    )?;
    let mut interpreter = Interpreter::new(rt.alloc());
    assert!(rt; interpreter.instantiate(&module, &[7])? == Progress::Continues);
    assert!(rt; interpreter.run(&module, 100)? == Progress::Waits(HostFunction::Depart));
    assert_eq!(rt; interpreter.operand(0), 35);
    interpreter.forget();
    assert!(rt; interpreter.bytes(1, 2)?.ok_or("no bytes")?.as_slice() == b"ex".as_slice());
    assert!(rt; interpreter.answer(1, 1)? == Progress::Continues);
    assert!(rt; interpreter.run(&module, 100)? == Progress::Ends);
    Ok(())
}

#[test]
fn runs_out_of_fuel(rt: HostRuntime) -> Result<(), Fail> {
    let module = module(rt.alloc(), &[Instruction::Jump { to: 0 }])?;
    let mut interpreter = Interpreter::new(rt.alloc());
    interpreter.instantiate(&module, &[])?;
    assert!(rt; interpreter.run(&module, 100)? == Progress::Traps);
    assert!(rt; interpreter.is_out_of_fuel);
    Ok(())
}

#[test]
fn computes_with_integers(rt: HostRuntime) -> Result<(), Fail> {
    assert_eq!(rt; unary32(Unary::Extend8, 0x80), 0xffff_ff80);
    assert_eq!(rt; unary64(Unary::Clz, 1), 63);
    assert_eq!(rt; binary32(Binary::Add, 5, 4_294_967_295).ok_or("traps")?, 4);
    assert!(rt; binary64(Binary::DivS, 1 << 63, u64::MAX).is_none());
    Ok(())
}

// An empty function that is exported as `run`.
const EMPTY: &[u8] =
    b"\0asm\x01\0\0\0\x01\x04\x01\x60\0\0\x03\x02\x01\0\x07\x07\x01\x03run\0\0\x0a\x04\x01\x02\0\x0b";

#[test]
fn reads_a_module(rt: HostRuntime) -> Result<(), Fail> {
    match module_of(rt.alloc(), EMPTY) {
        Ok(module) => assert_eq!(rt; module.code.len(), 1),
        Err(fault) => {
            println!(rt; "{fault}")?;
            assert!(rt; false);
        }
    }
    Ok(())
}

#[test]
fn says_where_a_file_is_refused(rt: HostRuntime) -> Result<(), Fail> {
    let mut cut = Vec::from_slice(rt.alloc(), EMPTY)?;
    cut.truncate(30);
    let Err(
        ModuleFault::Inside {
            kind,
            at,
            import: _,
        },
    ) = module_of(rt.alloc(), &cut)
    else {
        return Err("it is read, or refused for its head".into());
    };
    assert!(rt; kind == FaultKind::End);
    assert_eq!(rt; at, 27);
    Ok(())
}
