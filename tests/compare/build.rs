//! Makes the two module trees out of the four Rust files, and looks which entries the library has.

use std::env;
use std::fs;
use std::path::{Path, PathBuf};
use std::process::Command;

/// The module's name, and the names the file may have in the folder that holds it.
const FILES: [(&str, [&str; 2]); 4] = [
    (
        "signal",
        ["src--src--network--signal.rs.txt", "src/network/signal.rs"],
    ),
    (
        "gates",
        ["src--src--network--gates.rs.txt", "src/network/gates.rs"],
    ),
    (
        "network",
        [
            "src--src--network--network.rs.txt",
            "src/network/network.rs",
        ],
    ),
    (
        "share_logic",
        [
            "src--src--optim--share_logic.rs.txt",
            "src/optim/share_logic.rs",
        ],
    ),
];

/// What makes the sets in `count_to_pair` ordered: text, its replacement, how often it must be met.
const ORDERED: [(&str, &str, usize); 2] = [
    (
        "count_to_pair: Vec<FxHashSet<",
        "count_to_pair: Vec<std::collections::BTreeSet<",
        1,
    ),
    (
        "count_to_pair.resize(cnt + 1, FxHashSet::",
        "count_to_pair.resize(cnt + 1, std::collections::BTreeSet::",
        2,
    ),
];

/// Appended to the copy of share_logic.rs: doors to what is private there.
const DOORS: &str = r#"
pub mod doors {
    use super::*;

    pub fn run(gates: Vec<Vec<Signal>>, first: u32) -> (Vec<(Signal, Signal)>, Vec<Signal>) {
        Factoring::run(gates, first)
    }

    pub fn and_pass(net: &Network) -> Network {
        factor_gates(net, |g| g.is_and(), |a, b| Gate::and(a, b))
    }

    pub fn xor_pass(net: &Network) -> Network {
        factor_gates(net, |g| g.is_xor(), |a, b| Gate::xor(a, b))
    }
}
"#;

pub const ENTRIES: [&str; 11] = [
    "ll_read",
    "ll_canonical",
    "ll_dedup",
    "ll_cleanup",
    "ll_sort",
    "ll_flatten",
    "ll_factor",
    "ll_share",
    "ll_evaluate",
    "ll_record_at",
    "ll_record_len",
];

fn main() {
    println!("cargo::rerun-if-changed=build.rs");
    println!("cargo::rerun-if-env-changed=LANTERNLEAN_RUST");
    println!("cargo::rerun-if-env-changed=LANTERNLEAN_LIB");
    println!("cargo::rerun-if-env-changed=LANTERNLEAN_CC");
    let manifest = PathBuf::from(env::var("CARGO_MANIFEST_DIR").unwrap());
    let repository = manifest.ancestors().nth(2).unwrap().to_path_buf();
    let out = PathBuf::from(env::var("OUT_DIR").unwrap());
    make_trees(&rust_folder(), &out);
    find_entries(&repository, &manifest, &out);
}

/// Where the four files are. Without them there is no oracle, so there is no build.
pub fn rust_folder() -> PathBuf {
    match env::var_os("LANTERNLEAN_RUST") {
        Some(folder) => PathBuf::from(folder),
        None => {
            fail("The comparison needs the four Rust files: set LANTERNLEAN_RUST to their folder.")
        }
    }
}

fn source(folder: &Path, names: &[&str; 2]) -> String {
    for name in names {
        let path = folder.join(name);
        if let Ok(text) = fs::read_to_string(&path) {
            println!("cargo::rerun-if-changed={}", path.display());
            return text;
        }
    }
    fail(&format!(
        "The comparison needs the four Rust files, and {} has no {}: set LANTERNLEAN_RUST to the \
         folder that holds them.",
        folder.display(),
        names[0]
    ))
}

/// Ends the build with a plain word on why.
fn fail(why: &str) -> ! {
    for line in why.lines() {
        println!("cargo::error={line}");
    }
    std::process::exit(1)
}

pub fn make_trees(folder: &Path, out: &Path) {
    for tree in ["unchanged", "ordered"] {
        let place = out.join(tree);
        fs::create_dir_all(&place).unwrap();
        for (module, names) in &FILES {
            let mut text =
                source(folder, names).replace("crate::", &format!("crate::trees::{tree}::"));
            if *module == "share_logic" {
                if tree == "ordered" {
                    for (from, to, times) in ORDERED {
                        let met = text.matches(from).count();
                        assert_eq!(met, times, "'{from}' is met {met} times, not {times}");
                        text = text.replace(from, to);
                    }
                }
                text.push_str(DOORS);
            }
            fs::write(place.join(format!("{module}.rs")), text).unwrap();
        }
        fs::write(place.join("tree.rs"), tree_text(&place)).unwrap();
    }
}

/// The modules of a tree and the names that the four files suppose at its root.
fn tree_text(place: &Path) -> String {
    let module = |name: &str| {
        let path = place.join(format!("{name}.rs"));
        format!("#[path = {:?}]\npub mod {name};\n", path.to_str().unwrap())
    };
    format!(
        "pub mod network {{\n{}{}{}pub use gates::*;\npub use network::Network;\npub use signal::Signal;\n}}\n\
         pub mod optim {{\n{}}}\n\
         pub use network::{{Gate, Network, Signal}};\n",
        module("signal"),
        module("gates"),
        module("network"),
        module("share_logic"),
    )
}

/// Builds the driver over the library if there is one, and sets a flag for each entry it defines.
fn find_entries(repository: &Path, manifest: &Path, out: &Path) {
    let library = match env::var_os("LANTERNLEAN_LIB") {
        Some(path) => PathBuf::from(path),
        None => repository
            .join("crates")
            .join("exports")
            .join("out")
            .join("libexports.a"),
    };
    println!("cargo::rerun-if-changed={}", library.display());
    for flag in ["library"].iter().chain(&ENTRIES) {
        println!("cargo::rustc-check-cfg=cfg(have_{flag})");
    }
    println!("cargo::rustc-check-cfg=cfg(driver_is_native)");
    let program = out.join("driver");
    println!("cargo::rustc-env=LANTERNLEAN_DRIVER={}", program.display());
    let Ok(archive) = fs::read(&library) else {
        return;
    };
    println!("cargo::rustc-cfg=have_library");
    let defined = symbols(&archive);
    let mut defines = Vec::new();
    for entry in ENTRIES {
        if defined.iter().any(|s| s == entry) {
            println!("cargo::rustc-cfg=have_{entry}");
            defines.push(format!("-DHAVE_{}", entry.to_uppercase()));
        }
    }
    let native = machine(&archive) == host_machine();
    if native {
        println!("cargo::rustc-cfg=driver_is_native");
    }
    let source = manifest.join("driver").join("driver.c");
    let header = repository.join("include");
    for watched in [&source, &header.join("lanternlean.h")] {
        println!("cargo::rerun-if-changed={}", watched.display());
    }
    build_driver(native, &defines, &source, &header, &library, &program);
}

/// The driver is for the library's processor: with the C library where that is this machine's, else
/// for x86-64 with none.
fn build_driver(
    native: bool,
    defines: &[String],
    source: &Path,
    header: &Path,
    library: &Path,
    program: &Path,
) {
    let own = env::var("LANTERNLEAN_CC").ok();
    let compilers: Vec<&str> = match &own {
        Some(compiler) => vec![compiler],
        None if native => vec!["cc", "clang", "gcc"],
        None => vec![
            "clang --target=x86_64-unknown-linux-gnu -fuse-ld=lld",
            "x86_64-linux-gnu-gcc",
        ],
    };
    let mut said = String::new();
    for compiler in compilers {
        let mut words = compiler.split_whitespace();
        let mut command = Command::new(words.next().unwrap_or("cc"));
        command
            .args(words)
            .args(["-O2", "-Wall", "-Wextra"])
            .args(defines);
        if !native {
            command.args(["-DFREESTANDING", "-ffreestanding", "-fno-builtin"]);
            command.args(["-fno-stack-protector", "-nostdlib", "-static"]);
        }
        command.arg("-I").arg(header).arg(source).arg(library);
        match command.arg("-o").arg(program).output() {
            Ok(output) if output.status.success() => return,
            Ok(output) => said += &String::from_utf8_lossy(&output.stderr),
            Err(error) => said += &format!("{compiler}: {error}\n"),
        }
    }
    fail(&format!(
        "The library is there, but the driver over it cannot be built:\n{said}"
    ))
}

/// The processor of the first object in an archive, as ELF numbers them.
fn machine(archive: &[u8]) -> u16 {
    let at = archive.windows(4).position(|w| w == b"\x7fELF");
    let at = at.expect("the library holds no ELF object") + 18;
    u16::from_le_bytes([archive[at], archive[at + 1]])
}

fn host_machine() -> u16 {
    match env::var("CARGO_CFG_TARGET_ARCH").unwrap().as_str() {
        "x86_64" => 62,
        "aarch64" => 183,
        _ => 0,
    }
}

/// The names in an archive's own table of symbols, its first member.
pub fn symbols(archive: &[u8]) -> Vec<String> {
    assert!(
        archive.starts_with(b"!<arch>\n") && archive.len() >= 68,
        "the library is no archive"
    );
    let name = String::from_utf8_lossy(&archive[8..24]);
    let width = match name.trim_end() {
        "/" => 4,
        "/SYM64/" => 8,
        _ => fail("the library has no table of symbols: run ranlib on it"),
    };
    let number = |bytes: &[u8]| bytes.iter().fold(0usize, |n, b| n << 8 | *b as usize);
    let size: usize = String::from_utf8_lossy(&archive[56..66])
        .trim()
        .parse()
        .unwrap();
    let table = &archive[68..68 + size];
    let count = number(&table[..width]);
    table[width * (count + 1)..]
        .split(|b| *b == 0)
        .take(count)
        .map(|s| String::from_utf8_lossy(s).into_owned())
        .collect()
}
