//! The models alone, on cases worked out by hand from the scope document.

/// Ends with an error at the first case that fails.
fn main() {
    model::selftest::run();
    println!("self-test passed");
}
