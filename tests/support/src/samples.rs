//! The sample logs and their listings.

pub const SAMPLES: [&str; 3] = ["panel", "windows", "powercut"];

/// The path of a file of the samples folder.
pub fn sample_path(name: &str) -> String {
    format!("{}/../../samples/{name}", env!("CARGO_MANIFEST_DIR"))
}

pub fn read_sample(name: &str) -> Vec<u8> {
    let path = sample_path(name);
    std::fs::read(&path).unwrap_or_else(|error| panic!("{path}: {error}"))
}
