# How the page for a browser is built and tried. To be sourced by bash, behind common.sh.

# As `set_target`, for the page. Where it can't be built here, `why` tells what is missing.
set_page_target() {
  why=
  if ! set_target wasm32-unknown-unknown std "$1/out"; then
    why="neither rustup's wasm32-unknown-unknown is there nor Debian's rustc-web, cargo-web and rust-web-src"
  elif [ "$rustc" != rustc ] && ! command -v wasm-ld >/dev/null; then
    why="wasm-ld isn't there, which Debian's package lld has"
  fi
  [ -z "$why" ]
}

# Builds the page, plain/out/web/spiffs.html, once `set_page_target` has been called. Where it was built stands nowhere in it.
build_page() {
  (cd "$1/out/web" && RUSTFLAGS="--remap-path-prefix=$1/out=plain" "${for_target[@]}") &&
    python3 "$1/web/assemble.py" "$made/web.wasm" "$1/out/web/spiffs.html"
}

# Builds the page and tries it, as steps. What a tool is missing for is passed over.
try_page() {
  local each=(python3 "$1/web/try.py" "$1/out/target/release/spiffs")
  if ! set_page_target "$1"; then
    echo "passed over: the page for a browser; $why"
    return
  fi
  try 'the page for a browser is built' build_page "$1"
  if ! python3 "$1/web/browser.py"; then
    echo "passed over: what the page shows; there is no Chromium"
    return
  fi
  try 'it shows of images what spiffs prints' "${each[@]}" "$made/web.wasm"
  try 'each way of breaking it is seen' "${each[@]}" "$made/web.wasm" --wrong
}
