# What the scripts of the plain edition share: whether its tools are there, and its crates. To be sourced by bash.

# Crates of a registry that the edition stands on, and the folder that Debian's packages of them fill.
registry_crates="arrayvec byteorder itoa memchr"
debian_crates=/usr/share/cargo/registry
parts=$(dirname "${BASH_SOURCE[0]}")/parts

# What is built is looked for in the folder of the edition.
unset CARGO_TARGET_DIR

# Tells why the edition can't be built here, if it can't: its manifests tell rust-version 1.87, for `str::from_utf8`.
missing_tool() {
  local version said from="it comes with Rust, by https://rustup.rs or as Debian's packages cargo-web and rustc-web"
  command -v python3 >/dev/null || { echo "python3 isn't there"; return; }
  command -v cargo >/dev/null || { echo "cargo isn't there; $from"; return; }
  said=$(cargo --version 2>&1) || { echo "cargo doesn't run: ${said%%$'\n'*}"; return; }
  version=$(awk '{ split($2, part, "."); print part[1] * 1000 + part[2] }' <<<"$said")
  [ "${version:-0}" -ge 1087 ] || { echo "cargo is older than 1.87; $from"; return; }
  python3 -c 'import sys; sys.exit(sys.version_info < (3, 9))' 2>/dev/null || echo 'python3 is older than 3.9'
}

has_debian_crates() {
  local name
  for name in $registry_crates; do
    compgen -G "$debian_crates/$name-[0-9]*" >/dev/null || return 1
  done
}

# Debian's packages of the crates.
debian_packages() { printf 'librust-%s-dev ' $registry_crates; }

# Installs Debian's crates, if a script was told to: nothing is installed unasked.
get_debian_crates() {
  [ "${may_install-}" = yes ] && [ "$(id -u)" -eq 0 ] && command -v apt-get >/dev/null || return 1
  export DEBIAN_FRONTEND=noninteractive
  { within 60 apt-get update -qq && within 120 apt-get install -y -qq --no-install-recommends $(debian_packages); } >/dev/null 2>&1 </dev/null
}

# Whether Debian's crates have the versions of a workspace's Cargo.lock, if there is one.
fits_lock() {
  local crate
  [ -e "$1/Cargo.lock" ] || return 0
  for crate in $(awk -F'"' '/^name/ { name = $2 } /^version = "/ { version = $2 } /^source/ { print name "-" version }' "$1/Cargo.lock"); do
    [ -d "$debian_crates/$crate" ] || return
  done
}

take_debian_crates() {
  local config=$1/.cargo/config.toml
  mkdir -p "$1/.cargo"
  printf '[source.crates-io]\nreplace-with = "debian"\n\n[source.debian]\ndirectory = "%s"\n' "$debian_crates" >"$config.new" &&
    mv -f "$config.new" "$config"
}

# Sees to it that cargo finds the crates of the workspaces in a folder, with the versions of their Cargo.lock: Debian's if they are installed,
# else those of crates.io. If neither can be had so, Debian's are taken in the versions that there are; if `may_install` is yes they are
# installed first. Fails if there are none.
get_crates() {
  if has_debian_crates && fits_lock "$1"; then
    take_debian_crates "$1"
    return
  fi
  rm -f "$1/.cargo/config.toml"
  (cd "$1" && CARGO_NET_RETRY=0 within 60 cargo fetch --quiet $(locked "$1")) >/dev/null 2>&1 </dev/null && return
  has_debian_crates || { get_debian_crates && has_debian_crates; } || return
  fits_lock "$1" || rm -f "$1"/Cargo.lock "$1"/*/Cargo.lock
  take_debian_crates "$1"
}

# The word for cargo, if the workspaces of a folder have the Cargo.lock of the repository.
locked() { if cmp -s "$parts/Cargo.lock" "$1/Cargo.lock"; then echo --locked; fi; }

# Runs a program for so many seconds at most, if there is one that ends it then.
within() {
  if command -v timeout >/dev/null; then timeout "$@"; else shift && "$@"; fi
}

# What to do if the crates can't be had.
tell_of_crates() {
  echo "the crates $registry_crates can't be fetched from crates.io, and Debian's packages of them are not installed"
  command -v apt-get >/dev/null || return 0
  echo "to install them give: $([ "$(id -u)" -eq 0 ] || echo 'sudo ')apt-get install --no-install-recommends $(debian_packages)"
}

# What `cargo build` needs for a target, as words in `for_target`, its compiler in `rustc`, and where the programs then are in `made`.
# The target's library is rustup's, or else it is built of Debian's sources of it (package rust-web-src, of the version of rustc-web),
# once for all workspaces of the edition. Fails where neither is there.
#
#   set_target TARGET LIBRARY FOLDER    LIBRARY is core or std; FOLDER is that of the edition
set_target() {
  local sysroot sources linker= name=${1//-/_} library=-Zbuild-std=$2
  sysroot=$(rustc --print sysroot)
  for_target=(cargo)
  rustc=rustc
  if ! compgen -G "$sysroot/lib/rustlib/$1/lib/lib$2-*.rlib" >/dev/null; then
    sources=/usr/src/rustc-$(/usr/bin/rustc --version 2>/dev/null | cut -d' ' -f2)/library
    [ -d "$sources/vendor" ] && [ -x /usr/bin/cargo ] && has_debian_crates || return
    lock_crates "$3" || return
    mkdir -p "$3/crates"
    ln -sfn "$debian_crates"/* "$sources"/vendor/* "$3/crates/"
    # (Debian's rustc has no linker of its own for these)
    case $1 in
      thumb*) linker=CARGO_TARGET_${name^^}_LINKER=arm-none-eabi-ld ;;
      wasm32*) linker=CARGO_TARGET_${name^^}_LINKER=wasm-ld ;;
    esac
    # (without backtraces, for which six more crates would be built)
    [ "$2" != std ] || library+=",panic_abort -Zbuild-std-features=panic-unwind"
    rustc=/usr/bin/rustc
    for_target=(env RUSTC=$rustc RUSTC_BOOTSTRAP=1 $linker /usr/bin/cargo --offline $library
      --config "source.debian.directory='$3/crates'")
  fi
  for_target+=(build --release --quiet --target "$1" --target-dir "$3/target")
  # (beside the sources of a library cargo looks at the lock of these too, which isn't ours)
  [ "$rustc" != rustc ] || for_target+=($(locked "$3"))
  made=$3/target/$1/release
}

# As `set_target`, for the program that goes into a release, which a linker for the target is needed for, too. A library that is built of Debian's
# sources is linked with the libraries of musl-gcc, and with gcc's for unwinding.
#
#   set_program_target TARGET FOLDER
set_program_target() {
  local name=${1//-/_} flags="--remap-path-prefix=$2=plain" gcc=cc
  set_target "$1" std "$2" || return
  case $1 in
    aarch64-*-gnu) [ "$(uname -m)" = aarch64 ] || gcc=aarch64-linux-gnu-gcc ;;
    *-musl)
      if [ "$rustc" != rustc ]; then
        gcc=musl-gcc
        flags+=" -Clink-self-contained=no -Ctarget-feature=+crt-static -Crelocation-model=static -L$2/unwind"
        mkdir -p "$2/unwind" && ln -sfn "$(cc -print-file-name=libgcc_eh.a)" "$2/unwind/libunwind.a" || return
      fi
      ;;
  esac
  command -v "$gcc" >/dev/null || return
  for_target=(env "CARGO_TARGET_${name^^}_LINKER=$gcc" "CARGO_TARGET_${name^^}_RUSTFLAGS=$flags" "${for_target[@]}")
}

# Writes down which crates the workspaces of the edition take, where that isn't done yet: of the sources beside a library cargo would take newer
# ones, which it doesn't find in the next build without them.
lock_crates() {
  local workspace
  for workspace in "$1" "$1/spiffs_c" "$1/firmware" "$1/web"; do
    (cd "$workspace" && { [ -e Cargo.lock ] || /usr/bin/cargo generate-lockfile --quiet --offline; }) || return
  done
}

passed=0
failed=0

# Does a step, tells whether it went well and how many seconds of a processor it took, and what it said if not.
try() {
  local name=$1 status took said TIMEFORMAT='%U %S'
  shift
  said=$(mktemp)
  took=$({ time "$@" >"$said" 2>&1 </dev/null; } 2>&1)
  status=$?
  took=$(awk '{ printf "%.0f", $1 + $2 }' <<<"$took")
  if [ "$status" -eq 0 ]; then
    passed=$((passed + 1))
    echo "ok    $name, $took s"
  else
    failed=$((failed + 1))
    printf 'WRONG %s, %s s (status %d)\n%s\n' "$name" "$took" "$status" "$(tail -n 20 "$said")"
  fi
  rm -f "$said"
}

# Ends a script of such steps.
tell_all() {
  echo "$passed passed, $failed failed"
  [ "$failed" -eq 0 ]
}

# Writes the edition into a folder, else into that of the edition, and gets its crates, or tells why that can't be done:
# ready FOLDER_OF_THE_EDITION [INTO]
ready() {
  local why into=${2:-$1/out}
  why=$(missing_tool)
  [ -z "$why" ] && { python3 "$1/plain.py" --into "$into" >/dev/null || why="it can't be written"; }
  [ -z "$why" ] && { get_crates "$into" || why=$(tell_of_crates); }
  [ -z "$why" ] || { printf 'the plain edition: %s\n' "$why" >&2; return 1; }
}
