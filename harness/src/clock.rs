//! Time of the processor, in milliseconds: unlike time on the wall it does not count what else the machine does.

/// What the system's `getrusage` fills in on 64-bit Linux.
#[repr(C)]
#[derive(Default)]
struct Usage {
    user: [i64; 2],
    system: [i64; 2],
    rest: [i64; 14],
}

extern "C" {
    fn getrusage(who: i32, usage: *mut Usage) -> i32;
}

fn used_by(who: i32) -> f64 {
    let mut usage = Usage::default();
    // The structure has the size and the layout that the call asks for.
    let answer = unsafe { getrusage(who, &mut usage) };
    assert_eq!(answer, 0, "the system tells no times");
    let [user, system] = [usage.user, usage.system].map(|[seconds, micros]| seconds as f64 * 1e3 + micros as f64 / 1e3);
    user + system
}

/// Of this process.
pub fn own() -> f64 {
    used_by(0)
}

/// Of the programs that this process started and that have ended.
pub fn children() -> f64 {
    used_by(-1)
}
