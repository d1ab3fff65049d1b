//! The engines of the program, for `tests/engines.mjs`: no part of the package.

#[path = "../../../rust/tests/engines/many.rs"]
mod many;

/// What an engine answers to all inputs in the input: `which` is 0 for `show`, 1 for `plays`, 2 for `replay`.
// SAFETY: no other function of the module has this name.
#[unsafe(no_mangle)]
pub extern "C" fn many(which: usize) {
    let engine = ["show", "plays", "replay"][which];
    crate::answer(|inputs| many::many(engine, inputs).iter().map(|byte| char::from(*byte)).collect());
}
