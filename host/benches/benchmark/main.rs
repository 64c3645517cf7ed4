//! The library against plain Rust: each call of document 01 in three forms, checked to agree and then timed. `direct` is what one writes first, `best` the
//! fastest safe Rust found. A difference between the forms stops the benchmark.
mod best;
mod check;
mod direct;
mod inputs;
mod rows;
mod table;
mod tables;
mod targets;
mod timing;

use std::process::ExitCode;

/// An answer, or the refusal's number.
pub type Answer<T = ()> = Result<T, u32>;

// Load bits' test of its bytes, by itself.
#[link(name = "tables", kind = "static")]
unsafe extern "C" {
    fn tdd_has_byte_above_1(bits: *const u8, count: usize) -> bool;
}

fn library_has_byte_above_1(bits: &[u8]) -> bool {
    // SAFETY: the slice has as many bytes as it says.
    unsafe { tdd_has_byte_above_1(bits.as_ptr(), bits.len()) }
}

fn main() -> ExitCode {
    let mut rows = rows::all();
    let checked = check::random_calls().and_then(|()| rows.iter_mut().try_for_each(|row| row.check()));
    if let Err(difference) = checked {
        eprintln!("{difference}");
        return ExitCode::FAILURE;
    }
    let measured = timing::measure(&mut rows);
    table::print(&measured);
    targets::print(&measured);
    ExitCode::SUCCESS
}
