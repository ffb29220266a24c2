//! Finds the static library that `bin/build_c --prefix DIR` of the repository installs, refuses one for which the package was
//! not written, and links it.

use std::env;
use std::fs;
use std::path::{Path, PathBuf};
use std::process::Command;
use std::slice;

/// The version of `speedate.h` that `src/ffi.rs` calls, and the first minor version that has its calls.
const VERSION_MAJOR: u32 = 1;
const VERSION_MINOR: u32 = 0;

fn main() {
    let target = env::var("TARGET").expect("cargo sets TARGET");
    let Some(processor) = Processor::of_target() else {
        let only = "the library is only for Linux on x86-64 and 64-bit ARM";
        return println!("cargo::error={only}, and the target is {target}");
    };
    let refused = match Installed::found(&target, processor).and_then(Installed::checked) {
        Ok(Installed { libraries, .. }) => {
            println!("cargo::rustc-link-search=native={}", libraries.display());
            println!("cargo::rustc-link-lib=static=speedate");
            String::new()
        }
        Err(why) => {
            // There is no such file, so the next build looks for the library again.
            println!("cargo::rerun-if-changed=refused");
            why
        }
    };
    // `src/ffi.rs` fails with it where code is made: checks and documentation need no library.
    println!("cargo::rustc-env=SPEEDATE_REFUSED={refused}");
}

/// The folders in which the library and its header are installed.
struct Installed {
    libraries: PathBuf,
    headers: PathBuf,
    processor: Processor,
}

/// A processor for which the library is built, by its number in ELF and its name in Cargo and in folders of libraries.
struct Processor {
    number: u16,
    name: &'static str,
    /// The command that installs the library for it.
    made_by: &'static str,
}

const PROCESSORS: [Processor; 2] = [
    Processor { number: 62, name: "x86_64", made_by: "`bin/build_c --prefix DIR` of the repository installs it" },
    Processor {
        number: 183,
        name: "aarch64",
        made_by: "`bin/build_c --target aarch64 --prefix DIR` of the repository installs it",
    },
];

impl Processor {
    /// That of the target, if it is known.
    fn of_target() -> Option<Self> {
        let [system, name, bits, endian] = ["OS", "ARCH", "POINTER_WIDTH", "ENDIAN"]
            .map(|it| env::var(format!("CARGO_CFG_TARGET_{it}")).unwrap_or_default());
        let is_known = [&*system, &*bits, &*endian] == ["linux", "64", "little"];
        PROCESSORS.into_iter().find(|it| is_known && it.name == name)
    }
}

impl Installed {
    fn found(target: &str, processor: Processor) -> Result<Self, String> {
        let of_target = format!("SPEEDATE_DIR_{}", target.replace('-', "_"));
        for variable in [&*of_target, "SPEEDATE_DIR"] {
            if let Some(prefix) = prefix_by(variable)? {
                let of_several = format!("lib/{}-linux-gnu", processor.name);
                let files = fs::read_to_string(prefix.join("share/doc/speedate/FILES")).unwrap_or_default();
                let listed = files.lines().filter_map(|it| it.strip_suffix("/libspeedate.a"));
                let mut rooms: Vec<_> = listed.map(|it| prefix.join(it)).collect();
                for room in ["lib", "lib64", &*of_several].map(|it| prefix.join(it)) {
                    if !rooms.contains(&room) {
                        rooms.push(room);
                    }
                }
                // First those that have an archive for the target, then those that have another one.
                rooms.sort_by_key(|it| {
                    let bytes = fs::read(archive_of(it));
                    (bytes.is_err(), bytes.ok().and_then(|it| processor_of(&it)) != Some(processor.number))
                });
                if !archive_of(&rooms[0]).is_file() {
                    return Err(missing(&rooms, &processor));
                }
                return Ok(Self { libraries: rooms.swap_remove(0), headers: prefix.join("include"), processor });
            }
        }
        let is_here = env::var("HOST").is_ok_and(|host| host == target);
        match (folder_by_pkg_config("libdir"), folder_by_pkg_config("includedir")) {
            (Some(libraries), Some(headers)) if is_here => Ok(Self { libraries, headers, processor }),
            _ => {
                let made_by = processor.made_by;
                Err(format!("neither {of_target} nor SPEEDATE_DIR names DIR, the library's prefix; {made_by}"))
            }
        }
    }

    /// The same, if the library is one for which the package was written, as far as its header tells.
    fn checked(self) -> Result<Self, String> {
        let Processor { number: wanted, made_by, .. } = self.processor;
        let library = archive_of(&self.libraries);
        println!("cargo::rerun-if-changed={}", library.display());
        let bytes = fs::read(&library).map_err(|_| missing(slice::from_ref(&self.libraries), &self.processor))?;
        if processor_of(&bytes) != Some(wanted) {
            let is_for = PROCESSORS.iter().find(|it| processor_of(&bytes) == Some(it.number));
            let other = is_for.map_or("not for it".to_owned(), |it| format!("for {}", it.name));
            let (path, name) = (library.display(), self.processor.name);
            return Err(format!("the target has the processor {name}, and {path} is {other}; {made_by}"));
        }
        let path = self.headers.join("speedate.h");
        let header = read(&path).ok_or_else(|| format!("there is no {}; {made_by}", path.display()))?;
        let numbers = ["SPEEDATE_VERSION_MAJOR", "SPEEDATE_VERSION_MINOR"].map(|name| number(&header, name));
        if !matches!(numbers, [Some(VERSION_MAJOR), Some(VERSION_MINOR..)]) {
            let has = numbers.map(|it| it.map_or("?".to_owned(), |number| number.to_string())).join(".");
            let needs = format!("version {VERSION_MAJOR}, from {VERSION_MAJOR}.{VERSION_MINOR} on");
            return Err(format!("{} has version {has}, and the package needs {needs}; {made_by}", path.display()));
        }
        let manifest = env::var_os("CARGO_MANIFEST_DIR").expect("cargo sets CARGO_MANIFEST_DIR");
        let of_checkout = Path::new(&manifest).with_file_name("c").join("speedate.h");
        if of_checkout.is_file() && read(&of_checkout).as_ref() != Some(&header) {
            let (has, wanted) = (path.display(), of_checkout.display());
            return Err(format!("the library is of another state of the repository: {has} is not {wanted}; {made_by}"));
        }
        Ok(self)
    }
}

fn archive_of(folder: &Path) -> PathBuf {
    folder.join("libspeedate.a")
}

fn missing(folders: &[PathBuf], processor: &Processor) -> String {
    let places: Vec<_> = folders.iter().map(|it| archive_of(it).display().to_string()).collect();
    format!("there is no {}; {}", places.join(" and no "), processor.made_by)
}

/// The number of the processor for which the first object of an archive is, if that is an object of 64 bits.
fn processor_of(archive: &[u8]) -> Option<u16> {
    /// What begins an object of 64 bits in the order of bytes that both processors have.
    const OBJECT: &[u8] = b"\x7fELF\x02\x01";
    let mut rest = archive.strip_prefix(b"!<arch>\n")?;
    loop {
        // Of a member 60 bytes come first, with its name, which begins with `/` if it is no object, and its size.
        let (head, follows) = rest.split_at_checked(60)?;
        let size: usize = std::str::from_utf8(&head[48..58]).ok()?.trim_end().parse().ok()?;
        let (member, follows) = follows.split_at_checked(size)?;
        if member.starts_with(OBJECT) {
            return Some(u16::from_le_bytes([*member.get(18)?, *member.get(19)?]));
        }
        if head[0] != b'/' {
            return None;
        }
        // A member begins at an even place.
        rest = follows.get(size % 2..)?;
    }
}

/// The prefix that a variable names, if there is one. Cargo runs this in a folder of its own, so no relative path will do.
fn prefix_by(variable: &str) -> Result<Option<PathBuf>, String> {
    println!("cargo::rerun-if-env-changed={variable}");
    let prefix = env::var_os(variable).map(PathBuf::from);
    match prefix {
        Some(it) if !it.is_absolute() => Err(format!("{variable} has to be an absolute path, and is {it:?}")),
        _ => Ok(prefix),
    }
}

/// The folder that `pkg-config` has in a variable of `speedate.pc`.
fn folder_by_pkg_config(variable: &str) -> Option<PathBuf> {
    println!("cargo::rerun-if-env-changed=PKG_CONFIG_PATH");
    let output = Command::new("pkg-config").arg(format!("--variable={variable}")).arg("speedate").output().ok()?;
    // It puts a backslash before a space.
    output.status.success().then(|| String::from_utf8_lossy(&output.stdout).trim_end().replace("\\ ", " ").into())
}

/// The text of a file, which cargo watches from now on.
fn read(path: &Path) -> Option<String> {
    println!("cargo::rerun-if-changed={}", path.display());
    fs::read_to_string(path).ok()
}

/// The number that a header defines.
fn number(header: &str, name: &str) -> Option<u32> {
    header.lines().find_map(|line| line.strip_prefix("#define ")?.strip_prefix(name)?.strip_prefix(' ')?.parse().ok())
}
