//! The crate has the header's version.

#[test]
fn the_headers() {
    let line = format!("#define BIV_VERSION \"{}\"", bivelondry::VERSION);
    assert!(include_str!("../../../include/bivelondry.h").lines().any(|l| l == line), "no line of the header is {line}");
}
