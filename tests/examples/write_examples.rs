//! Writes examples/: each job, and beside it the report of the reference.

use siting_tests::{decks, reference};

fn main() -> std::io::Result<()> {
    let folder = decks::folder();
    std::fs::create_dir_all(&folder)?;
    for (name, job) in decks::examples() {
        std::fs::write(folder.join(name).with_extension("job"), &job)?;
        std::fs::write(folder.join(name).with_extension("report"), reference::answer_text(&job))?;
    }
    Ok(())
}
