//! Times the engine's step and release.

#![forbid(unsafe_code)]

fn main() {
    bench::engine::run();
}
