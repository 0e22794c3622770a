// Which C compiler a target has by default, and the flags that c/processors.txt has for its processor; tests/flags.rs holds them
// against that table.

/// A target's compiler: what stands before its tools' names, Debian's package, the row of c/processors.txt, and the flags.
pub struct Target {
    pub prefix: &'static str,
    pub package: &'static str,
    #[allow(dead_code)] // a test reads it
    pub row: &'static str,
    pub flags: &'static str,
}

/// What each compiler knows: no floating point, no library, and sections of which a linker drops what isn't called.
pub const EACH: &str = "-std=c99 -Os -ffreestanding -fbuiltin -ffunction-sections -fdata-sections \
    -fno-stack-protector -fno-asynchronous-unwind-tables -fno-unwind-tables -fno-jump-tables";

/// What GCC alone knows, and what makes this code shorter.
pub const GNU: &str = "-fno-reorder-blocks -fno-if-conversion -fno-if-conversion2 \
    -fno-guess-branch-probability -fno-tree-dominator-opts -fno-schedule-insns2 -fno-cprop-registers \
    -fno-cse-follow-jumps -ftree-slp-vectorize -flive-range-shrinkage -fno-ira-hoist-pressure -fno-caller-saves";

/// Of this machine, where no row fits.
pub const OWN: Target = Target {
    prefix: "",
    package: "gcc",
    row: "",
    flags: "-fPIC",
};

const AARCH64: &str =
    "-march=armv8-a -fno-pie -mgeneral-regs-only -mstrict-align -ffixed-x18 -mno-outline-atomics";
const AARCH64_LINUX: &str =
    "-march=armv8-a -fPIC -mgeneral-regs-only -mstrict-align -ffixed-x18 -mno-outline-atomics";
const ARMV7A: &str =
    "-march=armv7-a -mthumb -mfloat-abi=soft -mno-unaligned-access -ffixed-r9 -include arm.h";
const M0: &str = "-mcpu=cortex-m0plus -mthumb -mfloat-abi=soft -include arm.h";
const M3: &str = "-mcpu=cortex-m3 -mthumb -mfloat-abi=soft -include arm.h -DKELIFANDRO_BY_BYTES=0";
const M4: &str = "-mcpu=cortex-m4 -mthumb -mfloat-abi=soft -fno-thread-jumps -fno-tree-reassoc \
    -fno-optimize-sibling-calls -include arm.h -DKELIFANDRO_BY_BYTES=0";
const M33: &str =
    "-mcpu=cortex-m33 -mthumb -mfloat-abi=soft -include arm.h -DKELIFANDRO_BY_BYTES=0";
const KERNEL: &str = "-m64 -fPIE -mno-red-zone -mgeneral-regs-only -DKELIFANDRO_BY_BYTES=0";
const I386: &str =
    "-march=i386 -fPIC -mgeneral-regs-only -DKELIFANDRO_BY_BYTES=0 -fno-tree-slp-vectorize";

/// The targets that are known. Rust's own names of floating-point interfaces count: riscv64gc passes numbers in such registers.
pub const TARGETS: &[(&str, Target)] = &[
    (
        "x86_64-unknown-linux-gnu",
        row("x86_64", "x86_64-linux-gnu-", "gcc", "-m64 -fPIC"),
    ),
    (
        "x86_64-unknown-none",
        row("x86_64-kernel", "x86_64-linux-gnu-", "gcc", KERNEL),
    ),
    (
        "i686-unknown-linux-gnu",
        row("i386", "i686-linux-gnu-", "gcc-i686-linux-gnu", I386),
    ),
    (
        "aarch64-unknown-linux-gnu",
        row(
            "aarch64",
            "aarch64-linux-gnu-",
            "gcc-aarch64-linux-gnu",
            AARCH64_LINUX,
        ),
    ),
    (
        "aarch64-unknown-none",
        row(
            "aarch64",
            "aarch64-linux-gnu-",
            "gcc-aarch64-linux-gnu",
            AARCH64,
        ),
    ),
    (
        "aarch64-unknown-none-softfloat",
        row(
            "aarch64",
            "aarch64-linux-gnu-",
            "gcc-aarch64-linux-gnu",
            AARCH64,
        ),
    ),
    ("armv7a-none-eabi", arm("armv7a", ARMV7A)),
    ("armv7a-none-eabihf", arm("armv7a", ARMV7A)),
    ("thumbv6m-none-eabi", arm("cortex-m0plus", M0)),
    ("thumbv7m-none-eabi", arm("cortex-m3", M3)),
    ("thumbv7em-none-eabi", arm("cortex-m4", M4)),
    ("thumbv7em-none-eabihf", arm("cortex-m4", M4)),
    ("thumbv8m.main-none-eabi", arm("cortex-m33", M33)),
    ("thumbv8m.main-none-eabihf", arm("cortex-m33", M33)),
    (
        "riscv32imac-unknown-none-elf",
        riscv(
            "riscv32",
            "-march=rv32imac -mabi=ilp32 -mcmodel=medany -mstrict-align",
        ),
    ),
    (
        "riscv32imc-unknown-none-elf",
        riscv(
            "",
            "-march=rv32imc -mabi=ilp32 -mcmodel=medany -mstrict-align",
        ),
    ),
    (
        "riscv64imac-unknown-none-elf",
        riscv(
            "riscv64",
            "-march=rv64imac -mabi=lp64 -mcmodel=medany -mstrict-align",
        ),
    ),
    (
        "riscv64gc-unknown-none-elf",
        riscv(
            "",
            "-march=rv64gc -mabi=lp64d -mcmodel=medany -mstrict-align",
        ),
    ),
];

const fn row(
    row: &'static str,
    prefix: &'static str,
    package: &'static str,
    flags: &'static str,
) -> Target {
    Target {
        prefix,
        package,
        row,
        flags,
    }
}

const fn arm(name: &'static str, flags: &'static str) -> Target {
    row(name, "arm-none-eabi-", "gcc-arm-none-eabi", flags)
}

const fn riscv(name: &'static str, flags: &'static str) -> Target {
    row(
        name,
        "riscv64-unknown-elf-",
        "gcc-riscv64-unknown-elf",
        flags,
    )
}
