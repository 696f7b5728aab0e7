//! How large a static library is.

use std::path::Path;
use std::process::Command;

/// Code and constants, as `size` counts them.
pub fn row(archive: &Path) -> String {
    let Ok(output) = Command::new("size").arg("-t").arg(archive).output() else {
        return "no size program on the path: the library's size is left out".into();
    };
    let text = String::from_utf8_lossy(&output.stdout).into_owned();
    let total = text.lines().last().unwrap_or_default();
    let fields: Vec<&str> = total.split_whitespace().take(3).collect();
    match fields[..] {
        [code, data, zeroed] => {
            format!("libembed.a: {code} bytes of text, {data} of data, {zeroed} of zeroed data")
        }
        _ => "size can't read libembed.a".into(),
    }
}
