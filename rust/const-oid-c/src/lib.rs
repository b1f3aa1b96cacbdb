//! The functions of `crates/const_oid_c/include/const_oid.h`, as a static and a shared library.
//!
//! `rust/erase` generates the module `erased` from sources in Rattle, over the generated modules of `const-oid`, and
//! `exports`: each function over pointers calls that of the same name over slices. By hand are `edge`, which makes these
//! slices, and `outputs`, which writes where C may not have written.
#![no_std]
#![deny(unsafe_op_in_unsafe_fn, clippy::undocumented_unsafe_blocks)]

mod edge;
#[forbid(unsafe_code)]
#[allow(dead_code, unused_imports, improper_ctypes_definitions, clippy::all)]
mod erased;
mod exports;
#[forbid(unsafe_code)]
mod outputs;

#[deny(improper_ctypes)]
unsafe extern "C" {
    /// Ends the process, in the C library.
    safe fn abort() -> !;

    /// No library has this function, and nothing calls it. rustc checks that types behind pointers have the layout of C
    /// only in a declaration such as this one.
    #[allow(dead_code)]
    fn layouts(status: &erased::status::Status, octets: &edge::Octets<'_>, range: &erased::lists::Range);
}

/// No function panics, since each is proved to be safe. A mistake of the eraser or of rustc ends here.
#[panic_handler]
fn panic(_: &core::panic::PanicInfo<'_>) -> ! {
    abort()
}
