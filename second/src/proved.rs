//! The proved planner, through its exported functions.

type Exported = unsafe extern "C" fn(*const u8, usize, *mut u8, usize) -> i64;

extern "C" {
    fn rack_plan(input: *const u8, input_length: usize, output: *mut u8, output_length: usize) -> i64;
    #[cfg(feature = "met")]
    fn rack_met(input: *const u8, input_length: usize, output: *mut u8, output_length: usize) -> i64;
}

fn call(function: Exported, input: &[u8], output: &mut [u8]) -> i64 {
    // SAFETY: both slices are valid for their lengths, and they do not overlap, since one is borrowed to be changed.
    // The function keeps neither pointer, reads the input only, and writes within the output only.
    unsafe { function(input.as_ptr(), input.len(), output.as_mut_ptr(), output.len()) }
}

/// The listing or the refusal line.
pub fn plan(input: &[u8], output: &mut [u8]) -> i64 {
    call(rack_plan, input, output)
}

/// For an input that is planned: one line for each partition met in dividing.
#[cfg(feature = "met")]
pub fn met(input: &[u8], output: &mut [u8]) -> i64 {
    call(rack_met, input, output)
}

/// Stack for the proved planner, whose scratch tables stand there.
pub const STACK: usize = 64 << 20;

/// Runs something on a thread with room for the proved planner.
pub fn with_stack<T: Send + 'static>(work: impl FnOnce() -> T + Send + 'static) -> T {
    let thread = std::thread::Builder::new().stack_size(STACK).spawn(work).expect("a thread");
    thread.join().unwrap_or_else(|panic| std::panic::resume_unwind(panic))
}
