# Sourced, not run: how a C program over an archive of the library is built and started. The archive is for x86-64 and so is the program,
# on whatever machine it is built: compiler, linker and C library are those of the Rattle kit, the headers those of tools/libc. Another
# processor needs an emulator to start it, qemu-x86_64, and that is all that differs.
#
# Before it is used, `made` is the folder for what is built, and `me` the name of the script that sources this, for its messages. The current
# folder is the top of the repository.

stop() {
  printf '%s: %s\n' "$me" "$*" >&2
  exit 2
}

# build WORDS COMMAND..: what it prints is shown only where it fails
build() {
  local words=$1
  shift
  "$@" >"$made/log" 2>&1 && return
  cat "$made/log" >&2
  stop "cannot build $words"
}

needs() {
  local name
  for name in "$@"; do
    [[ -n $(type -P "$name") ]] || stop "$name is missing"
  done
}

# archive_of CRATE: builds its archive, over whatever is proved of it and below it, and proves the rest first; `archive` is the path of a
# copy, since a later check of the crate may take away what stands in out/
archive_of() {
  needs rt
  build "the archive of crate $1" env -C "crates/$1" rt lib
  archive=$made/lib$1.a
  build "the archive of crate $1" cp "crates/$1/out/lib$1.a" "$archive"
}

# independent_archive: builds the independent program of tests/ as an archive with the library's calls, for this machine; `archive` is its
# path
independent_archive() {
  needs cargo
  build 'the independent program' cargo build --release --offline --example stand_in --manifest-path tests/Cargo.toml \
    --target-dir target/comparison
  archive=target/comparison/release/examples/libstand_in.a
}

# find_kit: the kit's tools, and its C library for x86-64. `rt doc` names the page at the top of the kit.
find_kit() {
  local page
  needs rt
  page=$(rt doc) || stop 'rt does not say where its kit is'
  kit_tools=${page%/*}/toolchain
  kit_lib=$kit_tools/lib
}

is_x86_64() {
  [[ $(uname -m) == x86_64 ]]
}

# forget_emulator: the emulator takes no setting but the words of `start`
forget_emulator() {
  local name
  for name in "${!QEMU_@}"; do unset "$name"; done
}

# start_of PROGRAM: `start` is the command that starts a program for x86-64, with the C library of the kit
start_of() {
  local loader emulator=()
  find_kit
  loader=$kit_lib/ld-linux-x86-64.so.2
  is_x86_64 || emulator=(qemu-x86_64)
  needs "${emulator[@]}" "$loader"
  start=("${emulator[@]}" "$loader" --library-path "$kit_lib" "$1")
  forget_emulator
}

# write_starter TO: a script that does what `start` says
write_starter() {
  {
    printf '#!/usr/bin/env bash\n'
    declare -f forget_emulator
    printf 'forget_emulator\nexec'
    printf ' %q' "${start[@]}"
    printf ' "$@"\n'
  } >"$1" && chmod +x "$1" || stop "cannot write $1"
}

# program_of CRATE [TREE]: builds the program that a crate is, in this checkout or in another; `start` is the command that starts it. rt
# builds a program only to run it, so it is run once, on the crate's own input.
program_of() {
  local crate=${2:-$PWD}/crates/$1
  needs rt
  build "the program $1" env -C "$crate" rt run <"$crate/stdin"
  start_of "$crate/out/$1"
}

# link_program OUT FLAG.. -- FILE..: compiles each FILE that ends in .c with the flags and links all FILEs to the program OUT. `start` is
# then the command that starts it.
link_program() {
  local out=$1 flags=() objects=() file
  shift
  while [[ $1 != -- ]]; do
    flags+=("$1")
    shift
  done
  shift
  find_kit
  needs "$kit_tools"/bin/{clang,ld.lld}
  for file in "$@"; do
    if [[ $file == *.c ]]; then
      objects+=("$out.${file//\//-}.o")
      build "${out##*/}" "$kit_tools/bin/clang" --target=x86_64-unknown-linux-gnu -nostdinc -isystem tools/libc "${flags[@]}" -fPIE -c \
        -o "${objects[-1]}" "$file"
    else
      objects+=("$file")
    fi
  done
  build "${out##*/}" "$kit_tools/bin/ld.lld" -pie -dynamic-linker /lib64/ld-linux-x86-64.so.2 -o "$out" \
    "$kit_lib"/{Scrt1.o,crti.o,crtbeginS.o} "${objects[@]}" "$kit_lib"/{libc.so.6,libc_nonshared.a,crtendS.o,crtn.o}
  start_of "$out"
}
