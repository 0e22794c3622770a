// Calls the C compiler of the target, without a crate for it. Shared by the build scripts of this workspace.

use std::env;
use std::ffi::OsStr;
use std::io::ErrorKind;
use std::path::PathBuf;
use std::process::Command;

#[path = "targets.rs"]
mod targets;

use targets::Target;

/// What a build fails by, in words.
pub type Fault = String;

fn variable(name: &str) -> String {
    env::var(name).unwrap_or_default()
}

/// The words of the first of these variables that is set: NAME_target, the same with underscores, TARGET_NAME or HOST_NAME, NAME.
fn words_of(name: &str, target: &str) -> Option<Vec<String>> {
    let side = if target == variable("HOST") {
        "HOST"
    } else {
        "TARGET"
    };
    let plain = target.replace(['-', '.'], "_");
    [
        format!("{name}_{target}"),
        format!("{name}_{plain}"),
        format!("{side}_{name}"),
        name.to_string(),
    ]
    .iter()
    .find_map(|variable| {
        println!("cargo:rerun-if-env-changed={variable}");
        env::var(variable)
            .ok()
            .filter(|words| !words.trim().is_empty())
    })
    .map(|words| words.split_whitespace().map(str::to_string).collect())
}

fn command(words: &[String]) -> Command {
    let mut command = Command::new(&words[0]);
    command.args(&words[1..]);
    command
}

fn run(command: &mut Command) -> Result<(), Fault> {
    let output = command
        .output()
        .map_err(|fault| format!("{command:?} can't be run: {fault}"))?;
    if output.status.success() {
        return Ok(());
    }
    Err(format!(
        "{command:?} failed:\n{}",
        String::from_utf8_lossy(&output.stderr)
    ))
}

/// The C compiler of the target, with its flags, and its archiver.
pub struct Compiler {
    compiler: Vec<String>,
    archiver: Vec<String>,
    flags: Vec<String>,
}

impl Compiler {
    /// By the environment (CC, AR and CFLAGS, for a target alone CC_target and so on), or what the target has by default.
    pub fn of_target() -> Result<Compiler, Fault> {
        let target = variable("TARGET");
        if variable("CARGO_CFG_TARGET_ENDIAN") == "big" {
            return Err(format!("{target} keeps the highest byte of a number first, which the library doesn't serve"));
        }
        let named = words_of("CC", &target);
        let is_named = named.is_some();
        let row = known(&target)
            .or(is_named.then_some(&targets::OWN))
            .ok_or_else(|| {
                let plain = target.replace(['-', '.'], "_");
                format!("no C compiler is known for {target}: name one by CC_{plain}")
            })?;
        let prefix = if target == variable("HOST") {
            ""
        } else {
            row.prefix
        };
        let compiler = named.unwrap_or_else(|| {
            vec![format!(
                "{prefix}{}",
                if prefix.is_empty() { "cc" } else { "gcc" }
            )]
        });
        let is_gnu = !version(&compiler, &target, row, is_named)?.contains("clang");
        let archiver = words_of("AR", &target).unwrap_or_else(|| vec![archiver(prefix)]);
        Ok(Compiler {
            compiler,
            archiver,
            flags: flags(row, is_gnu, &target),
        })
    }

    /// Makes libNAME.a of C files, and has it linked.
    pub fn archive(
        &self,
        name: &str,
        sources: &[PathBuf],
        folders: &[PathBuf],
    ) -> Result<(), Fault> {
        let out = PathBuf::from(variable("OUT_DIR"));
        let archive = out.join(format!("lib{name}.a"));
        let mut objects = Vec::new();
        for source in sources {
            println!("cargo:rerun-if-changed={}", source.display());
            let object = out
                .join(source.file_name().unwrap_or(OsStr::new("c")))
                .with_extension("o");
            let mut compile = command(&self.compiler);
            compile.args(&self.flags);
            for folder in folders {
                compile.arg("-I").arg(folder);
            }
            run(compile.arg("-c").arg(source).arg("-o").arg(&object))?;
            objects.push(object);
        }
        let _ = std::fs::remove_file(&archive); // else what an older one had stays in it
        run(command(&self.archiver)
            .arg("crs")
            .arg(&archive)
            .args(&objects))?;
        println!("cargo:rustc-link-search=native={}", out.display());
        println!("cargo:rustc-link-lib=static={name}");
        Ok(())
    }
}

fn words(flags: &str) -> Vec<String> {
    flags.split_whitespace().map(str::to_string).collect()
}

/// The flags of a row, and after them those of the environment.
fn flags(row: &Target, is_gnu: bool, target: &str) -> Vec<String> {
    let mut flags = words(targets::EACH);
    flags.extend(words(if is_gnu { targets::GNU } else { "" }));
    flags.extend(
        words(row.flags)
            .into_iter()
            .filter(|flag| is_gnu || !is_gnus(flag)),
    );
    flags.extend(words_of("CFLAGS", target).unwrap_or_default());
    flags
}

/// Flags of a processor's row that tune GCC.
fn is_gnus(flag: &str) -> bool {
    [
        "-fno-thread-jumps",
        "-fno-tree-reassoc",
        "-fno-tree-slp-vectorize",
    ]
    .contains(&flag)
}

fn known(target: &str) -> Option<&'static Target> {
    let named = targets::TARGETS
        .iter()
        .find(|(name, _)| *name == target)
        .map(|(_, row)| row);
    named.or((target == variable("HOST")).then_some(&targets::OWN))
}

/// What the compiler says of itself; where it isn't there, in words how it is got.
fn version(
    compiler: &[String],
    target: &str,
    row: &Target,
    is_named: bool,
) -> Result<String, Fault> {
    match command(compiler).arg("--version").output() {
        Ok(output) => Ok(String::from_utf8_lossy(&output.stdout).into_owned()),
        Err(fault) if fault.kind() == ErrorKind::NotFound && !is_named => Err(format!(
            "the C compiler for {target}, {}, isn't installed: apt-get install {}, or name another by CC_{}",
            compiler[0],
            row.package,
            target.replace(['-', '.'], "_")
        )),
        Err(fault) => Err(format!("the C compiler that is named for {target}, {}, can't be run: {fault}", compiler[0])),
    }
}

/// The archiver of the same tools, or another that is there: rustc makes the index of an archive itself.
fn archiver(prefix: &str) -> String {
    let own = format!("{prefix}ar");
    let is_there = |name: &str| Command::new(name).arg("--version").output().is_ok();
    let others = ["llvm-ar", "ar"].map(str::to_string);
    let all = [own.clone()].into_iter().chain(others);
    all.into_iter().find(|name| is_there(name)).unwrap_or(own)
}
