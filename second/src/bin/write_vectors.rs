//! Writes crates/vectors/data/keccak256.txt, the vectors that the proved program `vectors` runs.

fn main() -> std::io::Result<()> {
    let folder = concat!(env!("CARGO_MANIFEST_DIR"), "/../crates/vectors/data");
    std::fs::create_dir_all(folder)?;
    std::fs::write(format!("{folder}/keccak256.txt"), second::vectors::text())
}
