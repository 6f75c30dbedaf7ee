//! What a run leaves in target/bench.

use std::fs;
use std::path::Path;

/// Writes a file there; gives its path.
pub fn write(name: &str, text: &str) -> Result<String, String> {
    let folder = Path::new(env!("CARGO_MANIFEST_DIR")).join("../../target/bench");
    let path = folder.join(name);
    fs::create_dir_all(&folder)
        .and_then(|()| fs::write(&path, text))
        .map_err(|why| format!("{}: {why}", path.display()))?;
    Ok(format!("target/bench/{name}"))
}
