#!/usr/bin/env python3
"""Runs the examples of pages over build/lib: of README, of HASHER, of Python's, Go's and C's pages, and the quick starts
of examples/README.

Most have code around them. `cargo test` runs the example of Rust's page, and bindings/js/test the quick start for Express
and the examples of JavaScript's page. Missing tools are named with their Debian package. The script fails if an example
fails or is missing.
"""

import json
import os
import re
import shutil
import subprocess
import sys
import tempfile
from pathlib import Path

TOP = Path(__file__).resolve().parents[1]
LIBRARY = TOP / "build/lib"
GO_MODULE = "nilomafy.example/scrypt"
QUICK = "examples/README.md"
DEBIANS = "/usr/bin/python3"  # which has Debian's packages

# A rejected hash has the response of a wrong password, and at least a quarter of its time: about all, but other programs run.
PYTHON_CHECKS = {
    "bindings/python/README.md": "assert is_right('$2b$05$abc', 'x') is False",
}
QUICK_PYTHON = """
def status(**form):
    try:
        return log_in(**form) or 204
    except HTTPException as error:
        return error.status_code
assert status(name="ann", password="correct horse") == 204
assert [status(name=it, password=that) for it, that in (("ann", "x"), ("eve", "x"), ("ann", "\\ud800"))] == [401] * 3
"""

QUICK_GO = """package main

import (
	"context"
	"errors"
	"log"
	"net/http"
	"net/http/httptest"
	"time"

	"nilomafy.example/scrypt"
)

{example}
func main() {{
	hasher, err := scrypt.NewHasher(scrypt.Options{{}})
	if err != nil {{
		log.Fatal(err)
	}}
	text, err := hasher.Hash(context.Background(), []byte("x"))
	for form, status := range map[string]int{{"name=ann&password=x": 204, "name=ann&password=y": 401, "name=eve": 401}} {{
		answer := httptest.NewRecorder()
		request := httptest.NewRequest("POST", "/login?"+form, nil)
		request.PostForm = request.URL.Query()
		logIn(hasher, map[string]string{{"ann": text}})(answer, request)
		if err != nil || answer.Code != status {{
			log.Fatal(form, ": ", answer.Code, err)
		}}
	}}
}}
"""

LOGIN = """#include <scrypt_c.h>
#include <stdio.h>
#include <string.h>
#include <time.h>
enum {{ LOGGED_IN, WRONG_NAME_OR_PASSWORD, TRY_LATER }};
static scrypt_hasher *hasher;
static const char *find_hash(const char *name) {{
  return strcmp(name, "damaged") == 0 ? "$2b$05$abc" : NULL;
}}
static int log_in(const char *name, const char *password, size_t password_len) {{
{example}}}
static double seconds_of(const char *name) {{
  clock_t begun = clock();
  return log_in(name, "x", 1) == WRONG_NAME_OR_PASSWORD ? (double)(clock() - begun) : 0;
}}
int main(void) {{
  return scrypt_hasher_new(NULL, &hasher) || !(seconds_of("nobody") > 0 && seconds_of("damaged") > seconds_of("nobody") / 4);
}}
"""
QUICK_RUST = """use scrypt_c::{{Error, Hasher}};

{example}
fn main() {{
    let hasher = Hasher::default();
    let text = hasher.hash(b"x").unwrap();
    for (text, password, status) in [(Some(text.clone()), "x", 204), (Some(text), "y", 401), (None, "x", 401)] {{
        let hasher = hasher.clone();
        let answer = std::thread::spawn(move || log_in(&hasher, text.as_deref(), password));
        assert_eq!(answer.join().unwrap(), status);
    }}
}}
"""


def examples(language, page="README.md"):
    """The blocks of a page in this language."""
    found = re.findall(rf"^```{language}\n(.*?)^```$", (TOP / page).read_text("utf-8"), re.M | re.S)
    if not found:
        sys.exit(f"{page} has no example in {language}")
    return found


def written(room, name, text):
    """Writes a file with this text, and returns its path."""
    path = room / name
    path.parent.mkdir(exist_ok=True, parents=True)
    path.write_text(text, "utf-8")
    return path


def run(command, **more):
    return subprocess.run(command, check=True, **more)


def lacks(what, *packages):
    run([TOP / "tools/lacks", what, *packages])


def run_python(room):
    env = os.environ | {"PYTHONPATH": str(TOP / "bindings/python"), "SCRYPT_C_LIBRARY": str(LIBRARY)}
    for page in ["README.md", "bindings/python/README.md"]:
        for example in examples("python", page):
            if "passlib" in example:  # bindings/python/tests has it
                continue
            login = written(room, "login.py", example + PYTHON_CHECKS.pop(page, ""))
            run([sys.executable, "-B", login], env=env)
    if subprocess.run([DEBIANS, "-c", "import fastapi"], stderr=subprocess.DEVNULL, env=env).returncode:
        lacks("fastapi", "python3-fastapi")
    else:
        run([DEBIANS, "-B", written(room, "login.py", examples("python", QUICK)[0] + QUICK_PYTHON)], env=env)


def run_go(room):
    folder = room / "the module"  # as in a folder whose name has a blank
    shutil.copytree(TOP / "bindings/go", folder)
    for name in ["libscrypt_c.a", "scrypt_c.h"]:
        shutil.copy(LIBRARY / name, folder)
    written(room, "go/go.mod", f"module login\n\nrequire {GO_MODULE} v0.0.0\n\nreplace {GO_MODULE} => {json.dumps(str(folder))}\n")
    for around, page in ("{example}", "bindings/go/README.md"), (QUICK_GO, QUICK):
        written(room, "go/main.go", around.format(example=examples("go", page)[0]))
        run(["go", "run", "-mod=mod", "."], cwd=room / "go", env=os.environ | {"GOPROXY": "off"})


def run_c(room):
    for example in [*examples("c", "bindings/c/README.md"), LOGIN.format(example=examples("c", "docs/HASHER.md")[0])]:
        source, program = written(room, "login.c", example), room / "login"
        run(["cc", "-std=c99", "-Wall", "-Wextra", "-Werror", f"-I{LIBRARY}", source, f"{LIBRARY}/libscrypt_c.a", "-o", program])
        run([program])


def run_rust(room):
    shutil.copytree(TOP / "bindings/rust", room / "scrypt_c", ignore=shutil.ignore_patterns("target"))
    written(room, "login/Cargo.toml", '[package]\nname = "login"\nversion = "0.1.0"\nedition = "2021"\n'
            '[dependencies]\nscrypt_c = { path = "../scrypt_c" }\n')
    written(room, "login/src/main.rs", QUICK_RUST.format(example=examples("rust", QUICK)[0]))
    run(["cargo", "run", "--quiet", "--offline"], cwd=room / "login",
        env=os.environ | {"SCRYPT_C_LIBRARY": str(LIBRARY), "LD_LIBRARY_PATH": str(LIBRARY)})


def main():
    for language, runs, command, package in [
        ("Python", run_python, "python3", "python3"),
        ("Go", run_go, "go", "golang-go"),
        ("C", run_c, "cc", "gcc"),
        ("Rust", run_rust, "cargo", "cargo"),
    ]:
        if not shutil.which(command):
            lacks(command, package)
            continue
        with tempfile.TemporaryDirectory() as room:
            runs(Path(room))
        print(f"ok the examples in {language} run")


if __name__ == "__main__":
    main()
