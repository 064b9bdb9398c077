# shellcheck shell=bash
# Sourced behind bin/tools.sh: has rattle prove a crate for a machine and compile what is proved, and keeps the module of it that the kit's
# clang is given, so that clang makes WebAssembly of it too. No proof covers how the module is made, nor what is compiled of it.
modules=$PWD/target/module
clang=$toolchain/bin/clang

# MACHINE: as clang calls it; fails for one that nothing is made for.
triple_of() {
  case $1 in
  x86_64 | aarch64) echo "$1-unknown-linux-gnu" ;;
  wasm32) echo wasm32-unknown-unknown ;;
  *)
    echo "$0: it knows the machines x86_64, aarch64 and wasm32, and no $1" >&2
    return 2
    ;;
  esac
}

# What a proof reads: a sum of the kit's name, of crates.txt and of every file of the crates.
sources() {
  { cat "$kit/KIT-ID" crates.txt && find crates -name out -prune -o -type f -print0 | sort -z | xargs -0 sha256sum; } | sha256sum | cut -d' ' -f1
}

# FILE: whether it was built of the sources as they stand: what built it left their sum beside it.
of_sources() { [ -e "$1" ] && [ "$(cat "$1.sources" 2>/dev/null)" = "$(sources)" ]; }

# Whether the libraries in the crates' folders out/ are those that the gate's rt ci has just proved: the gate hands down of which sources in
# MUIWASH_PROVED. What rt check builds there has a file `stamp`.
of_gate() { [ -n "${MUIWASH_PROVED:-}" ] && ! compgen -G 'crates/*/out/rlib/stamp' >/dev/null && [ "$MUIWASH_PROVED" = "$(sources)" ]; }

# CRATE: proves it and the crates below it, whose libraries stand in their folders out/ then.
proved=
prove() {
  if [ "$proved" = "$1" ] || of_gate; then return; fi
  (cd "crates/$1" && rt check) && proved=$1
}

# FOLDER INTO: the kit's toolchain once more, by links, but for its clang: this one keeps the module and the words that it is given in INTO,
# and does as the kit's own. FOLDER stands outside the checkout, where rt ci takes no links.
keeping_toolchain() {
  local tool
  mkdir -p "$1/bin"
  for tool in "$toolchain"/bin/*; do ln -s "$tool" "$1/bin/"; done
  ln -s "$toolchain/lib" "$1/lib"
  rm "$1/bin/clang"
  cat >"$1/bin/clang" <<KEEPS
#!/bin/sh
if [ -e module.bc ]; then cp module.bc '$2/'; fi
printf '%s\n' "\$@" >'$2/words' && exec '$clang' "\$@"
KEEPS
  chmod +x "$1/bin/clang"
}

# CRATE MACHINE TOOLCHAIN FILE: has rattle prove the crate for that machine, x86_64 or aarch64, over the libraries below it as they stand in
# their folders out/, and compile it by that toolchain: a library for C to FILE.a, a program to FILE.o.
compile_crate() {
  local name folder words=(--crate-name "$1")
  if [ -e "crates/$1/src/main.rt" ]; then
    words+=(src/main.rt -o "$4.o")
  else
    words+=(src/lib.rt --crate-type staticlib -o "$4.a")
  fi
  words+=(--extern "std=$kit/rlibs/std.rlib" -L "dependency=$kit/rlibs")
  # what crates.txt has behind its name
  for name in $(sed -n "s/^$1\( [^:]*\)\?://p" crates.txt); do
    folder=$kit/rlibs
    if [ -d "crates/$name" ]; then folder=$PWD/crates/$name/out/rlib; fi
    words+=(--extern "$name=$folder/$name.rlib")
  done
  for folder in "$PWD"/crates/*/out/rlib; do words+=(-L "dependency=$folder"); done
  words+=(--antt-project "$kit/rattle/logic/antt-project.json" --logic-built "$kit/logic_built" --incremental out/incremental --jobs 2)
  words+=(--links "$1=" --target "$(triple_of "$2")" --toolchain "$3" --backend llvm)
  (cd "crates/$1" && rattle build "${words[@]}")
}

# CRATE MACHINE [named]: proves the crate and compiles it, to made.a or made.o in $modules/CRATE/MACHINE, and keeps the module and clang's
# words beside it; with `named` it names each crate whose proof begins.
keep_module() {
  local into=$modules/$1/$2 lent shown=''
  rm -rf "$into"
  mkdir -p "$into"
  lent=$(mktemp -d)
  keeping_toolchain "$lent" "$into"
  if [ "${3:-}" = named ]; then shown='s/^rt: chose .* for \([a-z_]*\)$/proving \1/p'; fi
  until { prove "$1" && compile_crate "$1" "$2" "$lent" "$into/made"; } > >(tee "$into/log" | sed -un "$shown" >&2) 2>&1; do
    wait $!
    # where the gate left a library out, rt check proves it
    if of_gate; then MUIWASH_PROVED=''; else
      cat "$into/log" >&2
      rm -rf "$lent"
      exit 1
    fi
  done
  wait $!
  rm -rf "$lent"
}

# PROGRAM FILE: links what keep_module made of a program for x86-64, as rt does.
link_program() {
  "$kit/bin/rattle-link" --target "$(triple_of x86_64)" --toolchain "$toolchain" -o "$2" "$modules/$1/x86_64/made.o" \
    "$kit"/c/lib{os,libc}_c.a 2>"$modules/$1/link.log" && return
  cat "$modules/$1/link.log" >&2
  exit 1
}

# CRATE OBJECT: the kept module of the crate for x86-64 as code for wasm32, which rattle makes nothing for: compiled with the same words,
# but the machine's name and the layout of its data are those that clang gives an empty program for it, and the processor is clang's choice.
# An address is read in as many bits as the module asks for, of which wasm32 has 32, and the others are zeros; and a byte with a pointer is
# read from where the module stores the two, and not where wasm32 would have the pointer: clang says how far behind the byte x86-64 has it.
compile_wasm() {
  local made=$modules/$1/x86_64 triple words at align
  triple=$(triple_of wasm32)
  "$clang" --no-default-config --target="$triple" -x c -S -emit-llvm -o "$made/empty.ll" /dev/null
  "$clang" --no-default-config -x ir -S -emit-llvm -o "$made/module.ll" "$made/module.bc"
  "$clang" --no-default-config --target="$(triple_of x86_64)" -x c -S -emit-llvm -o "$made/pair.ll" - <<<'struct pair { char tag; void *ptr; };
    unsigned long at = __builtin_offsetof(struct pair, ptr), align = _Alignof(struct pair);'
  at=$(sed -n 's/^@at = .* \(i[0-9]* [0-9]*\), align .*/\1/p' "$made/pair.ll")
  align=$(sed -n 's/^@align = .* i[0-9]* \([0-9]*\), align .*/align \1/p' "$made/pair.ll")
  grep '^target ' "$made/empty.ll" >"$made/wasm32.ll"
  sed -e '/^target /d' -e 's/ "target-cpu"="[^"]*"//' -e 's/= ptrtoaddr ptr \(%[^ ]*\) to \(i[0-9]*\)$/= ptrtoint ptr \1 to \2/' \
    -e "s/^  \(%[^ ]*\) = load { i8, ptr }, ptr \(%[^ ,]*\), $align\$/  \1.tag = load i8, ptr \2, $align\n  \1.at = getelementptr i8, ptr \2, $at\n  \1.ptr = load ptr, ptr \1.at, $align\n  \1.one = insertvalue { i8, ptr } poison, i8 \1.tag, 0\n  \1 = insertvalue { i8, ptr } \1.one, ptr \1.ptr, 1/" "$made/module.ll" >>"$made/wasm32.ll"
  mapfile -t words < <(sed -e "s|^--target=.*|--target=$triple|" -e '/^-march=/d' -e "s|^module.bc\$|$made/wasm32.ll|" -e "s|^module.o\$|$2|" "$made/words")
  "$clang" "${words[@]}"
}

# CRATE MACHINE: which proof its code comes from, in two lines.
proof_of() {
  local of=$2
  if [ "$of" = wasm32 ]; then of=x86_64; fi
  printf 'kit: %s\nmodule: sha256 %s\n' "$(cat "$kit/KIT-ID")" "$(sha256sum <"$modules/$1/$of/module.bc" | cut -d' ' -f1)"
}
