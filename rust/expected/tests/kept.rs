//! The expected outputs that the repository keeps are the model's, byte by byte.

use expected::files;

#[test]
fn kept_outputs() {
    let all = files::all().unwrap();
    assert!(all.iter().filter(|expected| expected.file.starts_with("examples")).count() >= 11);
    for expected in all {
        let kept = std::fs::read(files::root().join(&expected.file)).unwrap();
        assert!(kept == expected.text.as_bytes(), "{}: run the program `expected`", expected.file.display());
    }
}
