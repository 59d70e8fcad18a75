//! Command lines that are taken, and what is said of those that are not.

use super::*;
use std::os::unix::ffi::OsStringExt;

fn of(line: &str) -> Result<Command, String> {
    Command::of(line.split_whitespace().map(OsString::from).collect()).map_err(|t| t.to_string())
}

fn said(line: &str) -> String {
    let said = of(line).err().unwrap_or_else(|| panic!("{line} was taken"));
    said.split("; `deblock").next().unwrap_or_default().to_string()
}

#[test]
fn good_lines() {
    assert!(matches!(of("replay x --help --help"), Ok(Command::Help)));
    assert!(matches!(of("-h"), Ok(Command::Help)));
    assert!(matches!(of("--version"), Ok(Command::Version)));
    assert!(matches!(of("demo"), Ok(Command::Demo { folder }) if folder == OsStr::new("target/demo")));
    let Ok(Command::Replay { named, order, once, films }) = of("replay a --order o b --once") else {
        panic!("refused")
    };
    assert_eq!((named, order, once), (vec!["a".into(), "b".into()], Some("o".into()), true));
    assert!(films.is_none());
    let Ok(Command::Replay { films, .. }) = of("replay a --force --y4m f") else { panic!("refused") };
    assert!(films.is_some_and(|f| f.force && f.folder == OsStr::new("f")));
    let Ok(Command::Compare { files, extent, image }) = of("compare --size 6x4 a b --force --png p") else {
        panic!("refused")
    };
    assert_eq!((files, extent), (["a".into(), "b".into()], Some(Extent { width: 6, height: 4 })));
    assert!(image.is_some_and(|i| i.force && i.file == OsStr::new("p")));
}

#[test]
fn wrong_lines() {
    assert_eq!(said(""), "demo, replay or compare?");
    assert_eq!(said("play a"), "play is no command");
    assert_eq!(said("--version x"), "x does not belong here");
    assert_eq!(said("demo a b"), "one folder is wanted, 2 were given");
    assert_eq!(said("replay"), "which recordings? Files and folders are wanted");
    assert_eq!(said("replay a --png p"), "--png does not belong here");
    assert_eq!(said("compare a b --once"), "--once does not belong here");
    assert_eq!(said("compare a b --no"), "--no does not belong here");
    assert_eq!(said("compare a"), "two files are wanted, 1 given");
    assert_eq!(said("compare a b --force"), "--force goes with --png");
    assert_eq!(said("replay a --force"), "--force goes with --y4m");
    assert_eq!(said("replay a --order"), "--order wants a value");
    assert_eq!(said("replay a --order --once"), "--order wants a value");
}

#[test]
fn every_option_once_only() {
    for (name, command, valued) in OPTIONS {
        let option = if valued { format!("{name} 2x2") } else { name.to_string() };
        assert_eq!(said(&format!("{command} {option} a {option} b")), format!("{name} is given twice"));
    }
}

#[test]
fn sizes_are_even_and_not_too_large() {
    for good in ["2x2", "720x576", "1920x1080", "65536x65536"] {
        assert!(extent(OsStr::new(good)).is_ok(), "{good}");
    }
    for bad in ["0x2", "2x0", "3x2", "2x65538", "2", "2x", "x2", "2x2x2", "axb", "-2x2", "2X2"] {
        assert!(said(&format!("compare a b --size {bad}")).starts_with(&format!("--size {bad}: give it as")));
    }
}

#[test]
fn names_need_not_be_utf_8() {
    let name = OsString::from_vec(vec![0xFF]);
    let Ok(Command::Replay { named, .. }) = Command::of(vec!["replay".into(), name.clone()]) else { panic!("refused") };
    assert_eq!(named, [PathBuf::from(&name)]);
    assert!(Command::of(vec![name.clone()]).is_err());
    assert!(Command::of(vec!["compare".into(), "--size".into(), name]).is_err());
}
