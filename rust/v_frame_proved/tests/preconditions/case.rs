//! A call that violates a precondition, and the panic that it causes.

use std::panic;
use std::sync::Mutex;

/// A call that violates a precondition of a function.
pub struct Case {
    /// The path of the function, with types if the compiler needs them.
    pub function: &'static str,
    /// A part of the panic message, with the numbers of the call.
    pub message: &'static str,
    /// The file and the line of the call.
    pub place: (&'static str, u32),
    /// Makes the call.
    pub call: fn(),
}

/// Defines a case from a function, a part of its message, and arguments. The call is reported at the line of the case.
macro_rules! case {
    ($function:path, $message:literal, $($argument:expr),+ $(,)?) => {
        Case {
            function: stringify!($function),
            message: $message,
            place: (file!(), line!()),
            call: || {
                let _ = $function($($argument),+);
            },
        }
    };
}

pub(crate) use case;

/// The report of a panic.
pub struct Report {
    pub message: String,
    /// The file and the line in the report.
    pub place: (String, u32),
}

/// The place of the last panic, set by the hook.
static PLACE: Mutex<Option<(String, u32)>> = Mutex::new(None);

/// Makes the calls, and returns the report of each one that panics. No other thread may panic at the same time.
pub fn reports(cases: &[&Case]) -> Vec<Option<Report>> {
    let hook = panic::take_hook();
    panic::set_hook(Box::new(|info| {
        let place = info.location().map(|location| (location.file().to_string(), location.line()));
        *PLACE.lock().expect("no panic holds it") = place;
    }));
    let found = cases.iter().map(|case| report(case.call)).collect();
    panic::set_hook(hook);
    found
}

fn report(call: fn()) -> Option<Report> {
    let payload = panic::catch_unwind(call).err()?;
    let message = match payload.downcast::<String>() {
        Ok(message) => *message,
        Err(payload) => payload.downcast_ref::<&str>().map(ToString::to_string).unwrap_or_default(),
    };
    let place = PLACE.lock().expect("no panic holds it").take()?;
    Some(Report { message, place })
}
