//! Times the device's parts beside what a Rust or C++ programmer would use in their place, on the same inputs in one run, and
//! compares the answers.
mod avl;
mod curve;
mod peers;
mod register;

fn main() {
    curve::races();
    register::races();
}
