//! host/README.md: its tables of src/ and src/bin/fristen/ have every file, once.

use std::fs;
use std::path::Path;

/// The first column of the table with this head: files and folders, without what their names end with.
fn listed(page: &str, head: &str) -> Vec<String> {
    let (_, table) = page.split_once(&format!("\n| {head} | what |\n|---|---|\n")).expect(head);
    let rows = table.lines().map_while(|line| line.strip_prefix("| ")?.split(" | ").next());
    let mut names: Vec<_> = rows.flat_map(|cell| cell.split(", ")).map(stem).collect();
    names.sort();
    names
}

/// A module may be a file and a folder.
fn found(folder: &str) -> Vec<String> {
    let folder = Path::new(env!("CARGO_MANIFEST_DIR")).join(folder);
    let files = fs::read_dir(folder).expect("a folder").map(|file| file.expect("a file"));
    let mut names: Vec<_> = files.map(|file| stem(&file.file_name().to_string_lossy())).collect();
    names.retain(|name| !["lib", "main"].contains(&name.as_str()));
    names.sort();
    names.dedup();
    names
}

fn stem(name: &str) -> String {
    name.split(['.', '/']).next().unwrap_or_default().to_owned()
}

#[test]
fn the_tables_have_every_file() {
    let page = Path::new(env!("CARGO_MANIFEST_DIR")).join("README.md");
    let page = fs::read_to_string(page).expect("the page");
    for folder in ["src", "src/bin/fristen"] {
        assert_eq!(listed(&page, &format!("{folder}/")), found(folder), "{folder}");
    }
}
