#!/usr/bin/env python3
"""Makes bindings/js/scrypt.wasm of the erased crate scrypt_c (rust), without what the package doesn't call.

It needs cargo and core for wasm32-unknown-unknown (rust/sysroot.sh); not the kit. Numbers that pass 2^32 keep 64 bits
(rust/by_hand/size.rs), and one that would not fit ends the module.
"""

import os
import shutil
import subprocess
import sys
from pathlib import Path

from rust import check, erase, rules
from tools.generate import declarations

TARGET = "wasm32-unknown-unknown"
WORKSPACE, MADE = Path("build/wasm/workspace"), Path("build/wasm/target")
MODULE = Path("bindings/js/scrypt.wasm")
SYSROOT, DEBIAN = Path("rust/sysroot.sh"), Path("tools/release/cargo.toml")
FLAGS = ["-Coverflow-checks=on", "-Ctarget-feature=+simd128"]
LINKED = ["--export=__heap_base", "-zstack-size=1048576", "--stack-first", "--strip-all"]


def main():
    declarations.main()
    shutil.rmtree(WORKSPACE, ignore_errors=True)
    erase.main(WORKSPACE)
    if check.main(WORKSPACE):
        sys.exit("not erased as wanted")
    linked = [*LINKED, *(f"--export={name}" for name in sorted(rules.JAVASCRIPT))]
    flags = [*FLAGS, *(f"-Clink-arg={it}" for it in linked)]
    own = {"RUSTFLAGS": " ".join(flags), "CARGO_TARGET_DIR": str(MADE.resolve())}
    words = ["cargo", "rustc", "-q", "-p", "scrypt_c", "--release", "--features", "js_module", "--target", TARGET]
    if os.environ.get("CARGO_NET_OFFLINE", "true") == "true":
        words += ["--offline", "--config", DEBIAN.resolve()]
    words += ["--crate-type", "cdylib"]
    subprocess.run([SYSROOT.resolve(), TARGET, *words], cwd=WORKSPACE, env={**os.environ, **own}, check=True)
    shutil.copy(MADE / TARGET / "release/scrypt_c.wasm", MODULE)
    print(f"{MODULE.stat().st_size} bytes")


if __name__ == "__main__":
    main()
