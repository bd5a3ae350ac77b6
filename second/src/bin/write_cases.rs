//! Writes crates/against/data/cases.bin, the cases that the proved program `against` runs.

fn main() -> std::io::Result<()> {
    let folder = concat!(env!("CARGO_MANIFEST_DIR"), "/../crates/against/data");
    std::fs::create_dir_all(folder)?;
    std::fs::write(format!("{folder}/cases.bin"), second::cases::file())
}
