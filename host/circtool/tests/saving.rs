//! `run --image`: the file is written whole or left as it was, and is never the input.

mod shared;

use shared::{apart, circtool, ended, err, folder, out, shell};
use std::fs;
use std::os::unix::fs::{symlink, FileTypeExt, PermissionsExt};
use std::path::Path;

const SCRIPT: &str = "subject 1 class 3 needs {0,1}\ns1 create o0\n";

/// The names in a folder.
fn names(folder: &Path) -> Vec<String> {
    let mut names: Vec<String> =
        fs::read_dir(folder).unwrap().map(|entry| entry.unwrap().file_name().into_string().unwrap()).collect();
    names.sort();
    names
}

#[test]
fn a_full_disk_leaves_the_image_that_was_there() {
    let folder = folder("full-disk");
    let (script, image) = (folder.join("a.circ"), folder.join("a.img"));
    fs::write(&script, SCRIPT).unwrap();
    ended(&circtool(&["run", "--image", image.to_str().unwrap()], SCRIPT.as_bytes()), 0);
    let before = fs::read(&image).unwrap();
    fs::write(&script, format!("{SCRIPT}s1 create o1\n")).unwrap();
    // a file of at most 1,024 bytes stands for the disk: the write fails in the middle of the image
    let line = format!("trap '' XFSZ; ulimit -f 1; $CIRCTOOL run {} --image {}", script.display(), image.display());
    let output = shell(&line);
    ended(&output, 2);
    assert!(err(&output).starts_with(&format!("circtool: cannot write {}: ", image.display())), "{}", err(&output));
    assert_eq!(fs::read(&image).unwrap(), before);
    assert_eq!(names(&folder), ["a.circ", "a.img"], "nothing is left beside it");
    let again = shell(&line.replace("ulimit -f 1", "true"));
    ended(&again, 0);
    assert_ne!(fs::read(&image).unwrap(), before);
}

#[test]
fn links_permissions_and_pipes_are_kept() {
    let folder = apart("kept-place");
    let (image, link) = (folder.join("a.img"), folder.join("link.img"));
    fs::write(&image, "old").unwrap();
    fs::set_permissions(&image, fs::Permissions::from_mode(0o640)).unwrap();
    symlink("a.img", &link).unwrap();
    ended(&circtool(&["run", "--image", link.to_str().unwrap()], SCRIPT.as_bytes()), 0);
    assert!(link.is_symlink() && fs::read(&image).unwrap().len() == circmon::IMAGE_BYTES);
    assert_eq!(fs::metadata(&image).unwrap().permissions().mode() & 0o777, 0o640);
    // a pipe is written to, and not replaced by a file
    let at = folder.display();
    let line =
        format!("mkfifo {at}/pipe; timeout 10 cat {at}/pipe | wc -c & echo '{SCRIPT}' | timeout 10 $CIRCTOOL run --image {at}/pipe; wait");
    let output = shell(&line);
    assert_eq!((out(&output).replace("0\n", "").trim(), err(&output).as_str()), ("1458", ""));
    assert!(fs::symlink_metadata(folder.join("pipe")).unwrap().file_type().is_fifo());
    assert_eq!(names(&folder), ["a.img", "link.img", "pipe"]);
}

#[test]
fn the_input_is_recognised_by_every_name_and_as_standard_input() {
    let folder = apart("input-itself");
    let script = folder.join("a.circ");
    fs::write(&script, SCRIPT).unwrap();
    fs::hard_link(&script, folder.join("hard.circ")).unwrap();
    symlink("a.circ", folder.join("soft.circ")).unwrap();
    let at = folder.display();
    for line in [
        format!("$CIRCTOOL run {at}/a.circ --image {at}/a.circ"),
        format!("$CIRCTOOL run {at}/a.circ --image {at}/hard.circ"),
        format!("$CIRCTOOL run {at}/soft.circ --image {at}/hard.circ"),
        format!("cd {at} && $CIRCTOOL run a.circ --image ../input-itself/soft.circ"),
        format!("$CIRCTOOL run --image {at}/a.circ < {at}/a.circ"),
        format!("$CIRCTOOL run - --image={at}/hard.circ < {at}/a.circ"),
        format!("$CIRCTOOL run /dev/stdin --image {at}/a.circ < {at}/a.circ"),
    ] {
        let output = shell(&line);
        ended(&output, 2);
        assert_eq!(err(&output), "circtool run: --image names the input itself\n", "{line}");
        assert_eq!(fs::read_to_string(&script).unwrap(), SCRIPT, "{line}");
    }
    let other = shell(&format!("$CIRCTOOL run --image {at}/b.img < {at}/a.circ"));
    ended(&other, 0);
    assert_eq!(out(&other), "0\n");
}
