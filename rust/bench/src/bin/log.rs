//! Times the log run.

#![forbid(unsafe_code)]

fn main() {
    bench::log::run();
}
