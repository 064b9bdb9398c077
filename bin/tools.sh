# shellcheck shell=bash
# Sourced, at the top of the repository, by the scripts that build and run: the kit, which runs on x86-64, and what makes and runs programs
# for this machine, or for another one, which takes Debian's cross compiler and an emulator.
export PATH="$PATH:/opt/rattle/bin:${CARGO_HOME:-${HOME:-/root}/.cargo}/bin"
if ! command -v rt >/dev/null; then
  echo "$0 needs the Rattle kit: its command rt is neither on PATH nor in /opt/rattle/bin" >&2
  exit 1
fi
kit=$(cd "$(dirname "$(readlink -f "$(command -v rt)")")/.." && pwd)
toolchain=$kit/toolchain
machine=$(uname -m)

# MACHINE: from here on `archive` is the six operations for it, `cc` makes programs for it and `emulator` runs them: empty for this
# machine itself. For wasm32 nothing is made, and node runs what is written in JavaScript.
aim_at() {
  archive=target/$1/libmuiwash.a cc=cc emulator=
  case $1 in
  "$machine") ;;
  wasm32) archive=target/$1/muiwash.wasm cc='' emulator=node ;;
  *)
    cc=$1-linux-gnu-gcc emulator=qemu-$1
    # where the emulator finds the cross compiler's libraries
    export QEMU_LD_PREFIX=/usr/$1-linux-gnu
    ;;
  esac
}
aim_at "$machine"

# COMMAND: the Debian packages that have it; nothing for rustc, which Debian has too old.
packages_of() {
  case $1 in
  cc) echo gcc libc6-dev ;;
  c++) echo g++ ;;
  aarch64-linux-gnu-gcc) echo gcc-aarch64-linux-gnu libc6-dev-arm64-cross ;;
  qemu-x86_64 | qemu-aarch64) echo qemu-user ;;
  node) echo nodejs ;;
  python3 | make | pkg-config) echo "$1" ;;
  esac
}

# PACKAGE ..: installs them where this is root on Debian; whether it could.
get_packages() {
  [ $# -gt 0 ] && [ "$(id -u)" = 0 ] && command -v apt-get >/dev/null || return 1
  echo "installing $*" >&2
  local get='apt-get -qq -y -o DPkg::Lock::Timeout=120'
  export DEBIAN_FRONTEND=noninteractive
  $get install --no-install-recommends "$@" >/dev/null 2>&1 && return
  $get update >/dev/null 2>&1 && $get install --no-install-recommends "$@" >/dev/null 2>&1
}

# COMMAND: what gets it, behind a colon.
got_by() {
  local packages
  packages=$(packages_of "$1")
  if [ "$1" = rustc ]; then
    echo ': rustup gets it'
  elif [ -n "$packages" ]; then
    echo ": as root, \`apt-get install $packages\` gets it, and so does MUIWASH_INSTALL=1 before this command"
  fi
}

# COMMAND ..: whether this machine has them all, or is given them, which MUIWASH_INSTALL=1 asks for and nothing else does; `lacks` says
# which is the first that it hasn't, and what gets it.
tools() {
  local needed
  for needed; do
    command -v "$needed" >/dev/null && continue
    # shellcheck disable=SC2046
    [ "${MUIWASH_INSTALL:-}" = 1 ] && get_packages $(packages_of "$needed") && command -v "$needed" >/dev/null && continue
    lacks="there is no $needed$(got_by "$needed")"
    return 1
  done
}

# FILE: whether it is there and newer than every source of the code and than what compiles it.
is_fresh() {
  [ -e "$1" ] && [ -z "$(find bin crates.txt crates -name out -prune -o \( -name '*.rt' -o -name crates.txt -o -name archive -o -name module.sh \) -newer "$1" -print -quit)" ]
}

# FILE ..: proves the operations and writes these of target/, each an archive or muiwash.wasm, but for those that are fresh.
make_archives() {
  local file old=()
  for file; do
    if ! is_fresh "$file"; then old+=("$(basename "$(dirname "$file")")"); fi
  done
  if [ ${#old[@]} -gt 0 ]; then
    echo "proving the operations for C, and compiling them for ${old[*]}" >&2
    bin/archive "${old[@]}" >&2
  fi
}
