//! The program's name, as it was called.

use std::env;
use std::path::Path;
use std::sync::OnceLock;

/// As whoever calls it has to write it again: `./fristen`, `fristen`, or a path.
pub fn called() -> &'static str {
    static CALLED: OnceLock<String> = OnceLock::new();
    CALLED.get_or_init(|| {
        let name = env::args_os().next().filter(|_| !cfg!(test)).unwrap_or_default();
        match name.to_string_lossy() {
            empty if empty.is_empty() => "./fristen".to_owned(),
            name => name.into_owned(),
        }
    })
}

/// Before a complaint: the same without its folder.
pub fn name() -> &'static str {
    Path::new(called()).file_name().and_then(|name| name.to_str()).unwrap_or("fristen")
}

/// With its number, as the package has it.
pub fn version() -> String {
    format!("fristen {}\n", env!("CARGO_PKG_VERSION"))
}
