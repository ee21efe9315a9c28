# Sourced by tests/run and bench/run: the C compiler for this machine, or for x86-64 where the library's own archive is
# linked, which is compiled for x86-64. Installs Debian's packages where something is missing.

install_packages() {
  local root=()
  [ "$(id -u)" -eq 0 ] || root=(sudo)
  "${root[@]}" apt-get install -y -q "$@" >&2 && return
  "${root[@]}" apt-get update -q >&2 && "${root[@]}" apt-get install -y -q "$@" >&2
}

# for_this_machine: sets `compiler`, the command that compiles C, and `runner`, what runs a program: nothing
for_this_machine() {
  compiler=(cc)
  runner=()
  symbols=(nm)
  command -v cc >/dev/null || install_packages gcc libc6-dev
}

# for_x86_64: the same for programs of x86-64, which elsewhere an emulator runs
for_x86_64() {
  if [ "$(uname -m)" = x86_64 ]; then
    for_this_machine
    return
  fi
  compiler=(x86_64-linux-gnu-gcc -static)
  runner=(qemu-x86_64)
  symbols=(x86_64-linux-gnu-nm)
  command -v x86_64-linux-gnu-gcc >/dev/null || install_packages gcc-x86-64-linux-gnu libc6-dev-amd64-cross || return
  command -v qemu-x86_64 >/dev/null || install_packages qemu-user
}
