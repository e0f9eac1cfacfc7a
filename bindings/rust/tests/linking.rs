//! Where the build looks for the library, and what it says when the library isn't there.

include!("../build.rs");

use std::fs;
use std::os::unix::fs::PermissionsExt;

/// A new folder, with a file of this name if there is one, and its mode.
fn folder(name: &str, file: Option<(&str, &str)>) -> PathBuf {
    let folder = Path::new(env!("CARGO_TARGET_TMPDIR")).join(name);
    let _ = fs::remove_dir_all(&folder);
    fs::create_dir_all(&folder).unwrap();
    if let Some((name, text)) = file {
        let file = folder.join(name);
        fs::write(&file, text).unwrap();
        fs::set_permissions(&file, fs::Permissions::from_mode(0o755)).unwrap();
    }
    folder
}

/// One test, since all of it sets the variables of the program.
#[test]
fn the_library_is_found() {
    let with_library = folder("with library", Some((LIBRARY, "")));
    let installed = folder("installed", Some((LIBRARY, "")));
    let empty = folder("empty", None);
    let says = |folder: &Path| {
        let folder = folder.display();
        format!("#!/bin/sh\n[ \"$*\" = '--variable=libdir wullaphi' ] && echo '{folder}'\n")
    };
    let knows = folder("knows", Some(("pkg-config", &says(&installed)))).join("pkg-config");
    let is_wrong = folder("is wrong", Some(("pkg-config", &says(&empty)))).join("pkg-config");

    env::set_var("PKG_CONFIG", &knows);
    env::set_var("WULLAPHI_LIB", &with_library);
    assert_eq!(find(), Ok(with_library));
    env::set_var("WULLAPHI_LIB", &empty);
    let why = format!("there is no {LIBRARY} in WULLAPHI_LIB={}", empty.display());
    assert_eq!(find(), Err(why));

    env::remove_var("WULLAPHI_LIB");
    assert_eq!(find(), Ok(installed));
    for program in [is_wrong, empty.join("pkg-config")] {
        env::set_var("PKG_CONFIG", program);
        env::set_var("CARGO_MANIFEST_DIR", &empty);
        let why = find().unwrap_err();
        assert!(
            why.starts_with("libwullaphi.a isn't found: ") && !why.contains('\n'),
            "{why}"
        );
        fs::create_dir_all(empty.join("../out")).unwrap();
        fs::write(empty.join("../out").join(LIBRARY), "").unwrap();
        assert_eq!(find(), Ok(empty.join("../out")));
        fs::remove_dir_all(empty.join("../out")).unwrap();
    }
}
