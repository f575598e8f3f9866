//! What a library without std has to have, and the level of its code. No call panics: that is proved.

unsafe extern "C" {
    fn abort() -> !;
}

#[panic_handler]
fn panic(_: &core::panic::PanicInfo<'_>) -> ! {
    unsafe { abort() } // SAFETY: C's, which takes nothing
}

#[unsafe(no_mangle)]
extern "C" fn proved_level() -> u8 {
    crate::level::level()
}

#[unsafe(no_mangle)]
extern "C" fn proved_force_level(level: u8) -> u8 {
    crate::level::force_level(level)
}
