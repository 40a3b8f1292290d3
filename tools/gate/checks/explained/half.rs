#![no_std]
#![no_main]
#[panic_handler]
fn stop(_: &core::panic::PanicInfo) -> ! {
    loop {}
}
#[no_mangle]
pub extern "C" fn half(x: f64) -> f64 {
    x / 2.0
}
