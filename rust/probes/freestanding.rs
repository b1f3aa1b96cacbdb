//! A static library without std. Its panic handler is the only one, so nothing in it links std.
#![no_std]
#[panic_handler]
fn panic(_: &core::panic::PanicInfo<'_>) -> ! {
    loop {}
}

#[unsafe(no_mangle)]
pub extern "C" fn is_valid(octets: &[u8; 3]) -> bool {
    const_oid::ObjectIdentifier::from_bytes(octets).is_ok()
}

#[cfg(feature = "db")]
#[unsafe(no_mangle)]
pub extern "C" fn is_known(octets: &[u8; 3]) -> bool {
    const_oid::ObjectIdentifier::from_bytes(octets)
        .is_ok_and(|oid| const_oid::db::DB.by_oid(&oid).is_some())
}
