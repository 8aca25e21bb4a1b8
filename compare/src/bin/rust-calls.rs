//! Runs scripts of calls with the Rust text; `driver` says how it is called.

fn main() -> std::io::Result<()> {
    compare::driver::run(compare::calls::run)
}
