#!/bin/sh
# Tests the package in Node and in Chromium, against node:crypto; its module against the C library;
# its types; and the bundles of README. Prints the packages that are not installed.
set -eu
cd "$(dirname "$0")/../../.."
room=$(mktemp -d)
app=$room/app package=$room/app/node_modules/scrypt-proved here=bindings/js/test
trap 'rm -rf "$room"' EXIT

# Whether this succeeds, or else which package brings it, and what was left out.
has() {
  ("$3" "$4" "${5:-}") > /dev/null 2>&1 && return
  tools/lacks "$1" "$2"
  return 1
}

# The lines of README, in a folder that has what is packed, and what they make without that.
by_esbuild() {
  mkdir -p "$package"
  # A release adds the files whose names are in capitals.
  files=$(node -p 'require("./bindings/js/package.json").files.join(" ")' | sed 's/ [A-Z].*//')
  # shellcheck disable=SC2086 # names without blanks
  (cd bindings/js && cp package.json $files "$package")
  sed -n '/^```sh$/,/^```$/{/^```/d; p}' bindings/js/README.md > "$app/lines"
  sed -n '/^```javascript$/,/^```$/{/^```/d; p}' bindings/js/README.md > "$app/page.js"
  echo '<!doctype html><script src="dist/page.js"></script><script>
    const post = () => document.title && fetch(`http://127.0.0.1:${location.hash.slice(1)}`, { method: "POST", mode: "no-cors", body: document.title });
    new MutationObserver(post).observe(document, { childList: true, subtree: true });
  </script>' > "$app/page.html"
  echo '{ "type": "module" }' > "$app/package.json"
  echo "import { hash, verify } from 'scrypt-proved';
    console.log(await verify('a', await hash('a', { N: 2 })));" > "$app/login.js"
  sed 's/ --bundle/& --platform=node/; s/worker\.js/node_&/' "$app/lines" > "$app/for_node"
  bundles() { (cd "$app" && sh -eu "$1" 2> log) || { cat "$app/log"; exit 1; }; }
  [ "$(node "$app/login.js")" = true ]
  bundles for_node
  # A bundle that does not know where it is says so, and no call waits forever.
  echo "import { readFileSync } from 'node:fs';
    import { hash, load } from 'scrypt-proved';
    const show = ({ code, message }) => console.log(code, message);
    load().catch(show).then(() => load(readFileSync('$package/scrypt.wasm')))
      .then(() => hash('a', { N: 2 })).catch(show);" > "$app/plain.js"
  (cd "$app" && esbuild plain.js --bundle --platform=node --log-level=error --outfile=plain.cjs)
  node "$app/plain.cjs" > "$app/said"
  grep -q '^LOAD_FAILED .*"In a page" in README$' "$app/said"
  grep -q '^WORKER_FAILED worker.js did not start' "$app/said"
  mv "$app/node_modules" "$app/away"
  [ "$(node "$app/dist/login.js")" = true ]
  mv "$app/away" "$app/node_modules"
  bundles lines
  echo "ok bundled by esbuild"
}

# What npm runs for a folder, in one that has no module yet.
says_what_makes_it() {
  script=$(node -p 'require("./bindings/js/package.json").scripts.prepare')
  if (cd "$room" && sh -c "$script") 2> "$room/said"; then exit 1; fi
  grep -q 'make js' "$room/said"
  (cd bindings/js && sh -c "$script")
}

has "Node 18" nodejs node -e 'process.exit(Number(parseInt(process.versions.node) < 18))' || exit 77
says_what_makes_it
node --test --test-reporter=tap $here/node.test.js > "$room/log" || { cat "$room/log"; exit 1; }
grep -E '^# (pass|fail) ' "$room/log"
if [ -e build/lib/libscrypt_c.so ]; then
  python3 -B $here/random_calls.py "${CALLS:-120000}" > "$room/log" || { cat "$room/log"; exit 1; }
  tail -n 1 "$room/log"
else
  echo "not compared with the C library, which make lib builds"
fi
if has esbuild esbuild esbuild --version; then by_esbuild; fi
if has tsc node-typescript tsc --version; then
  tsc --strict --exactOptionalPropertyTypes --noEmit --target es2022 --module node16 $here/types.ts
  echo "ok types"
fi
has chromium chromium chromium --version || exit 0
python3 -B $here/in_browser.py
if [ -e "$app" ]; then # a page that is opened from the disk makes a hash its title
  python3 -B $here/in_browser.py "file://$app/page.html" | grep '^$scrypt$ln=17,r=8,p=1'
fi
