//! How a call starts, and how it ends by a panic.

use crate::{return_output, revert, ToOutput};

#[cfg(target_arch = "riscv32")]
core::arch::global_asm!(include_str!("../../start.S"));

/// Makes a function what a call runs: `entry!(count_vote);`. It takes the input as `&[u8]` and gives
/// `Result<OUTPUT, TEXT>`: the call returns with the output, or reverts with the text. Both are bytes, as
/// `[u8; 8]`, `&str`, [`Output`](crate::Output), [`Decimal`](crate::Decimal) or, with the feature `alloc`, `String`.
#[macro_export]
macro_rules! entry {
    ($body:path) => {
        /// What start.S calls.
        #[cfg(target_arch = "riscv32")]
        #[no_mangle]
        extern "C" fn contract(input: *const u8, length: usize) -> ! {
            // SAFETY: the machine puts the input there, and nothing else writes it.
            $crate::run($body, unsafe { core::slice::from_raw_parts(input, length) })
        }

        #[cfg(not(target_arch = "riscv32"))]
        const _: () = {
            let _ = $body;
        };
    };
}

/// What [`entry!`](crate::entry) expands to.
#[doc(hidden)]
pub fn run<O: ToOutput, E: ToOutput>(
    body: fn(&'static [u8]) -> Result<O, E>,
    input: &'static [u8],
) -> ! {
    match body(input) {
        Ok(output) => return_output(output.to_output()),
        Err(text) => revert(text.to_output()),
    }
}

/// Reverts with the panic's message and place, as far as an output reaches.
#[cfg(target_arch = "riscv32")]
#[panic_handler]
fn revert_with_message(info: &core::panic::PanicInfo) -> ! {
    let mut output = crate::Output::new();
    let _ = core::fmt::Write::write_fmt(&mut output, format_args!("{info}"));
    revert(output.as_ref())
}
