//! Times the judgement, conversions and wishes.

#![forbid(unsafe_code)]

fn main() {
    bench::judge::run();
    bench::convert::run();
    bench::wish::run();
}
