# Static libraries of the repository's crates, as the kit makes them, over the libraries that rt ci
# has left: for tools/archive and tools/page, which set LOG, a file for what a command said.
kit=$(dirname "$(dirname "$(readlink -f "$(command -v rt)")")")

# quietly FOLDER COMMAND..: runs it there, and shows what it said where it fails
quietly() {
  local folder=$1
  shift
  (cd "$folder" && "$@") >"$LOG" 2>&1 || { cat "$LOG" >&2; exit 1; }
}

# below CRATE: the crates that it stands on, each after its own
below() {
  local crate
  for crate in $(sed -nE "s/^$1( staticlib)?: *//p" crates.txt); do
    [ ! -d "crates/$crate" ] || { below "$crate"; echo "$crate"; }
  done
}

# is_built CRATE: whether its library stands there, and no source of it is younger
is_built() {
  local library=crates/$1/out/rlib/$1.rlib
  [ -d "$library" ] &&
    [ -z "$(find "crates/$1"/{src,specs,proofs} -newer "$library" -type f -print -quit 2>/dev/null)" ]
}

# static_library CRATE TOOLCHAIN OUT: proves and builds it, and what it stands on that is not there
# or older than its sources; a crate that is built anew takes those above it along
static_library() {
  local stale='' crates libraries=(--extern "std=$kit/rlibs/std.rlib" -L "dependency=$kit/rlibs")
  mapfile -t crates < <(below "$1" | awk '!seen[$0]++')
  for crate in "${crates[@]}"; do
    if [ -n "$stale" ] || ! is_built "$crate"; then
      stale=yes
      echo "${0##*/}: proving $crate" >&2
      quietly "crates/$crate" rt lib
    fi
    libraries+=(--extern "$crate=../$crate/out/rlib/$crate.rlib")
    libraries+=(-L "dependency=../$crate/out/rlib")
  done
  mkdir -p "crates/$1/out"
  quietly "crates/$1" "$kit/bin/rattle" build --crate-name "$1" src/lib.rt "${libraries[@]}" \
    --antt-project "$kit/rattle/logic/antt-project.json" --logic-built "$kit/logic_built" \
    --incremental out/incremental --links "$1=" --crate-type staticlib --toolchain "$2" -o "$3"
}
