#!/usr/bin/env bash
# The products are for x86-64 Linux. This is the one place that asks which machine it is. On Arm it uses a cross
# compiler and an emulator, and installs them where they are missing.
#
#   x86.sh PROGRAM [WORDS..]   runs a program made for x86-64
#   x86.sh --preload LIBRARY PROGRAM [WORDS..]   runs it with this library before the C library
#   x86.sh --cc [WORDS..]      compiles and links C for x86-64 by gcc
#   x86.sh --sanitizers        prints gcc's words for those of its sanitizers that run here
#   x86.sh --cargo [WORDS..]   runs cargo for x86-64; what it makes is under target/x86_64-unknown-linux-gnu/
#   x86.sh --count PLUGIN PROGRAM [WORDS..]   runs it under the emulator, on any machine, with a plugin of the emulator
#   x86.sh --prepare           installs all that the words above need here
#   x86.sh --native            says by its exit status whether x86-64 programs run here without the emulator
set -eu

loader=/lib64/ld-linux-x86-64.so.2
# Without the processor's string moves, which the emulator carries out and counts byte by byte: half the time where images are
# copied.
emulator="qemu-x86_64 -cpu qemu64,-erms"
target=x86_64-unknown-linux-gnu
native=false
[ "$(uname -m)" != x86_64 ] || native=true

here=$(cd "$(dirname "$0")" && pwd)

install() {
  "$here"/install.sh "$@" >&2
}

need_emulator() {
  if ! command -v qemu-x86_64 >/dev/null || [ ! -e "$loader" ]; then
    install qemu-user libc6:amd64
  fi
}

need_compiler() {
  if ! command -v x86_64-linux-gnu-gcc >/dev/null; then
    install gcc-x86-64-linux-gnu libc6-dev-amd64-cross
  fi
}

# Debian's compiler has a standard library for x86-64; the machine's own need not have one.
need_rust() {
  if [ ! -x /usr/bin/rustc ] || [ ! -d /usr/lib/rustlib/$target ]; then
    install rustc-web libstd-rust-web-dev:amd64
  fi
}

need_all() {
  need_emulator
  need_compiler
  need_rust
}

# with_target FIRST [WORDS..]: cargo's words with the target after the first, the subcommand.
with_target() {
  local subcommand=$1
  shift
  exec cargo "$subcommand" --target $target "$@"
}

case ${1:-} in
--native)
  $native
  ;;
--cc)
  shift
  $native && exec gcc "$@"
  need_compiler
  exec x86_64-linux-gnu-gcc "$@"
  ;;
--sanitizers)
  # The one for addresses wants more memory than the emulator has; the other needs no library if it traps.
  $native && exec echo -fsanitize=address,undefined -fno-sanitize-recover=all
  echo -fsanitize=undefined -fsanitize-undefined-trap-on-error
  ;;
--preload)
  library=$2
  shift 2
  $native && LD_PRELOAD=$library exec "$@"
  need_emulator
  exec $emulator $loader --preload "$library" --library-path /lib/x86_64-linux-gnu "$@"
  ;;
--prepare)
  $native || need_all
  ;;
--cargo)
  shift
  $native && with_target "$@"
  need_all
  export RUSTC=/usr/bin/rustc
  export CARGO_TARGET_X86_64_UNKNOWN_LINUX_GNU_LINKER=x86_64-linux-gnu-gcc
  export CARGO_TARGET_X86_64_UNKNOWN_LINUX_GNU_RUNNER="$emulator $loader --library-path /lib/x86_64-linux-gnu"
  with_target "$@"
  ;;
--count)
  plugin=$2
  shift 2
  need_emulator
  exec $emulator -plugin "$plugin" $loader --library-path /lib/x86_64-linux-gnu "$@"
  ;;
*)
  $native && exec "$@"
  need_emulator
  exec $emulator $loader --library-path /lib/x86_64-linux-gnu "$@"
  ;;
esac
