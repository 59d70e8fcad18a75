//! What `deblock --version` prints beside the version. The build script uses this file, which stands here so
//! that its tests are run.

use std::path::{Path, PathBuf};
use std::process::Command;

/// What the tool is made of, in the repository's folder.
pub const MADE_OF: [&str; 3] = ["crates", "host", "include"];

/// The commit that the tool is built from, and whether what it is made of was changed since.
pub fn commit(root: &Path) -> String {
    let found = root.join(".git").exists().then(|| git(root, &["rev-parse", "--short=12", "HEAD"])).flatten();
    let Some(commit) = found else { return "unknown, since this was not built in a clone".into() };
    let status = ["--no-optional-locks", "status", "--porcelain", "--"];
    match git(root, &[&status[..], &MADE_OF[..]].concat()) {
        Some(changes) if changes.is_empty() => commit,
        _ => commit + ", with changes",
    }
}

/// The file that changes with every commit and every checkout.
pub fn log(root: &Path) -> Option<PathBuf> {
    git(root, &["rev-parse", "--git-path", "logs/HEAD"]).map(|log| root.join(log))
}

fn git(root: &Path, words: &[&str]) -> Option<String> {
    let done = Command::new("git").arg("-C").arg(root).args(words).output().ok()?;
    let said = String::from_utf8(done.stdout).ok().filter(|_| done.status.success())?;
    Some(said.trim().to_string())
}

/// The text that host/native-staticlib writes beside the archive: toolchain, machine and proof.
pub fn proved(text: &Path) -> String {
    std::fs::read_to_string(text).unwrap_or_else(|_| "archive: unknown, since no text stands beside it".into())
}

#[cfg(test)]
mod tests {
    use super::*;
    use std::fs;

    /// A folder of its own in the system's for such things, removed in the end.
    struct Folder(PathBuf);

    impl Folder {
        fn new(name: &str) -> Folder {
            let folder = std::env::temp_dir().join(format!("deblock-{name}-{}", std::process::id()));
            fs::create_dir_all(folder.join("host")).expect("a folder for things that come and go");
            Folder(folder)
        }

        fn git(&self, words: &[&str]) {
            let someone = ["-c", "user.name=someone", "-c", "user.email=someone@localhost"];
            assert!(git(&self.0, &[&someone[..], words].concat()).is_some(), "git {words:?}");
        }
    }

    impl Drop for Folder {
        fn drop(&mut self) {
            let _ = fs::remove_dir_all(&self.0);
        }
    }

    #[test]
    fn a_commit_and_changes_since() {
        let folder = Folder::new("commit");
        assert!(commit(&folder.0).starts_with("unknown"));
        if git(&folder.0, &["--version"]).is_none() {
            return; // no git here, so every commit is unknown
        }
        folder.git(&["init", "--quiet"]);
        assert!(commit(&folder.0).starts_with("unknown"));
        folder.git(&["commit", "--quiet", "--allow-empty", "--message", "none"]);
        assert_eq!(commit(&folder.0).len(), 12);
        fs::write(folder.0.join("README"), "no part of the tool").expect("written");
        assert_eq!(commit(&folder.0).len(), 12);
        fs::write(folder.0.join("host/new.rs"), "a part of it").expect("written");
        assert!(commit(&folder.0).ends_with(", with changes"));
        assert!(log(&folder.0).is_some_and(|log| log.exists()));
    }

    #[test]
    fn the_text_beside_the_archive() {
        let folder = Folder::new("proved");
        let text = folder.0.join("libdeblock.txt");
        assert!(proved(&text).starts_with("archive: unknown"));
        fs::write(&text, "toolchain: of today\n").expect("written");
        assert_eq!(proved(&text), "toolchain: of today\n");
    }
}
