//! Writes crates/day/data/, the day that the proved program `day` runs.

fn main() -> std::io::Result<()> {
    let folder = concat!(env!("CARGO_MANIFEST_DIR"), "/../crates/day/data");
    std::fs::create_dir_all(folder)?;
    for (name, bytes) in second::day::Day::made().files() {
        std::fs::write(format!("{folder}/{name}"), bytes)?;
    }
    Ok(())
}
