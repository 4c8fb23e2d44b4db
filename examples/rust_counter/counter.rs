//! The counter of examples/counter in Rust, without a library: it adds a step, and reports the result to the host.
#![no_std]

use core::panic::PanicInfo;
use core::sync::atomic::{AtomicI32, Ordering};

#[link(wasm_import_module = "host")]
extern "C" {
    fn log_value(value: i32);
}

static VALUE: AtomicI32 = AtomicI32::new(0);

#[no_mangle]
pub static STEP: AtomicI32 = AtomicI32::new(5);

/// Adds the step, and reports the result to the host.
#[no_mangle]
pub extern "C" fn count() -> i32 {
    let step = STEP.load(Ordering::Relaxed);
    let value = VALUE.fetch_add(step, Ordering::Relaxed) + step;
    unsafe { log_value(value) };
    value
}

/// The value.
#[no_mangle]
pub extern "C" fn last() -> i32 {
    VALUE.load(Ordering::Relaxed)
}

#[panic_handler]
fn panic(_: &PanicInfo) -> ! {
    loop {}
}
