//! The exam site's check as the product's archive gives it, and the cases that it is compared on.

#[cfg(not(all(target_os = "linux", target_pointer_width = "64")))]
compile_error!("the calls and the memory here are those of Linux with 64 bits");

pub mod call;
pub mod cases;
pub mod clock;
pub mod layouts;
pub mod memory;
pub mod plain;
pub mod run;
pub mod sound;
