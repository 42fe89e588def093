//! Names the case in which the port stops the process or does not come back.
use lines::Case;
use std::sync::atomic::{AtomicPtr, Ordering};

extern "C" {
    fn signal(number: i32, handler: extern "C" fn(i32)) -> usize;
    fn alarm(seconds: u32) -> u32;
    fn _exit(status: i32) -> !;
}

const ALARM: i32 = 14;
/// Illegal instruction, abort, bus error, float exception, segmentation fault, alarm.
const SIGNALS: [i32; 6] = [4, 6, 7, 8, 11, ALARM];
/// Longer than any case takes.
const PATIENCE: u32 = 120;

static CURRENT: AtomicPtr<Case> = AtomicPtr::new(std::ptr::null_mut());

extern "C" fn stopped(number: i32) {
    let current = CURRENT.load(Ordering::SeqCst);
    let how = if number == ALARM { "does not come back".into() } else { format!("was stopped by signal {number}") };
    if current.is_null() {
        eprintln!("the run {how} outside a case");
    } else {
        println!("the port {how}\n  {}", unsafe { &*current }.line("stopped"));
    }
    unsafe { _exit(3) }
}

pub fn set() {
    for number in SIGNALS {
        unsafe { signal(number, stopped) };
    }
    still_running();
}

/// Starts the wait anew.
pub fn still_running() {
    unsafe { alarm(PATIENCE) };
}

/// Runs the port on a case, whose line is printed if it never ends.
pub fn during<T>(case: &Case, run: impl FnOnce() -> T) -> T {
    CURRENT.store(case as *const Case as *mut Case, Ordering::SeqCst);
    let result = run();
    CURRENT.store(std::ptr::null_mut(), Ordering::SeqCst);
    result
}
