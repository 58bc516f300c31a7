# Functions of ./mapf and ./prove: which program is of the sources as they are now, and how cargo builds one. `top` is
# the folder of the repository.
#
# Beside a program stands the list of what it was built from, under its name with `.sources` after it: first the program
# itself and then each source, with its size and the time of its last change. Specs, proofs and tests don't change a
# program, so no list has them.

# Sets `crates` to the crates of this repository that a crate stands on, each after those below it, and last the crate.
find_crates() {
  local lines line
  local -A below=()
  mapfile -t lines <"$top/crates.txt"
  for line in "${lines[@]}"; do
    if [[ $line == [!#]*:* ]]; then
      below[${line%%[ :]*}]=${line#*:}
    fi
  done
  crates=()
  add_crate "$1"
}

# Adds a crate after those below it, and takes them from what is left.
add_crate() {
  local name names=${below[$1]}
  unset "below[$1]"
  for name in $names; do
    if [[ -v below[$name] ]]; then
      add_crate "$name"
    fi
  done
  crates+=("$1")
}

# Sets `program` to what ./prove makes of a crate, and `sources` to patterns of the files that it is built from.
choose_proved() {
  program=$top/crates/$1/out/$2
  find_crates "$1"
  sources=("${crates[@]/#/crates/}")
  sources=(crates.txt "${sources[@]/%//src/**/*.rt}")
}

# Sets `program` to what cargo makes below `target`, and `sources` to patterns of the files that it is built from.
choose_cargos() {
  target=${CARGO_TARGET_DIR:-$top/target}
  [[ $target == /* ]] || target=$PWD/$target
  program=$target/release/mapf
  sources=(crates.txt Cargo.toml Cargo.lock build.rs)
  sources+=('crates/!(mapf_rows)/src/**/*.rt' 'rust/!(tests|examples)/**/*.rs')
}

# Prints a line for each of these files and for each source. It becomes another program, in another folder, so a shell
# of its own calls it.
list_sources() {
  export LC_ALL=C
  shopt -s extglob globstar nullglob
  # shellcheck disable=SC2068 # a pattern becomes the names of files
  cd "$top" && exec stat --dereference --format='%n %s %.9Y' -- "$@" ${sources[@]} 2>/dev/null
}

# Whether the program and its sources are as its list says.
is_current() {
  local listed IFS=$'\n'
  [ -f "$program.sources" ] && mapfile -t listed <"$program.sources" &&
    [ "${listed[*]}" = "$(list_sources "${program#"$top/"}")" ]
}

# Makes the list of the program, with what was listed of its sources before it was built.
keep_list() {
  { (sources=() && list_sources "${program#"$top/"}") && printf '%s\n' "$1"; } >"$program.sources.$$" &&
    mv -f "$program.sources.$$" "$program.sources"
}

# Sets `program` to the proved program if it is of these sources, and otherwise to cargo's, which is built if need be.
find_program() {
  choose_proved mapf mapf
  if ! is_current; then
    choose_cargos
    is_current || build_by_cargo
  fi
}

# Builds the program by cargo, whose words are shown only if it fails.
build_by_cargo() {
  local room listed status worker=
  require_cargo
  room=$(mktemp -d -t mapf-cargo.XXXXXX) || exit 2
  trap 'stop_cargo 129' HUP
  trap 'stop_cargo 130' INT
  trap 'stop_cargo 143' TERM
  echo "mapf: building the program by cargo, which takes about half a minute;" \
    "it isn't proved (./prove builds the proved one)" >&2
  listed=$(list_sources)
  run_cargo &
  worker=$!
  wait "$worker" 2>/dev/null
  status=$?
  trap - HUP INT TERM
  if [ "$status" != 0 ] || ! is_made; then
    tell_failure
  fi
  rm -rf "$room"
  # Where no list can be written, the next call asks cargo once more.
  keep_list "$listed" 2>/dev/null || rm -f "$program.sources.$$"
}

# Becomes cargo, in a session of its own, so that it can be ended with all that it starts.
run_cargo() {
  cd "$top" && exec setsid cargo build --release --target-dir "$target" --message-format json-render-diagnostics \
    </dev/null >"$room/made" 2>"$room/said"
}

# Whether the program is the one that cargo says it made.
is_made() {
  [[ $(<"$room/made") =~ \"executable\":\"([^\"]+)\" && ${BASH_REMATCH[1]} -ef $program ]]
}

# Ends cargo and then this script, with this status.
stop_cargo() {
  if [ -n "$worker" ]; then
    kill -TERM -- "-$worker" 2>/dev/null || kill -TERM "$worker" 2>/dev/null
    wait "$worker" 2>/dev/null
  fi
  rm -rf "$room"
  exit "$1"
}

# Ends with a sentence if cargo isn't there, doesn't work, or is older than Cargo.toml says.
require_cargo() {
  local wanted said advice
  [[ $(<"$top/Cargo.toml") =~ rust-version\ *=\ *\"([0-9]+)\.([0-9]+) ]]
  wanted=("${BASH_REMATCH[@]:1}")
  advice="install Rust ${wanted[0]}.${wanted[1]} or later, as https://rustup.rs says"
  if ! command -v cargo >/dev/null; then
    give_up "cargo, which builds the program from these sources, isn't here: $advice"
  fi
  if ! said=$(cd "$top" && cargo --version 2>&1) || ! [[ $said =~ cargo\ ([0-9]+)\.([0-9]+) ]]; then
    give_up "cargo, which builds the program from these sources, doesn't work, but says '${said%%$'\n'*}': $advice"
  fi
  if ((BASH_REMATCH[1] * 1000 + BASH_REMATCH[2] < wanted[0] * 1000 + wanted[1])); then
    give_up "${BASH_REMATCH[0]} is too old to build the program: $advice"
  fi
}

# Ends with a sentence that says why cargo made no program, after its own last lines where those say it.
tell_failure() {
  local said
  if [ "$status" = 0 ]; then
    said="cargo made no $program: unset what puts its programs elsewhere, such as CARGO_BUILD_TARGET"
  elif [ "$status" -gt 128 ]; then
    said="cargo was ended by the signal $(kill -l "$status"), so the program isn't built"
  elif grep -qE 'No space left on device|Bus error|SIGBUS' "$room/said" || ! echo 2>/dev/null >"$room/made"; then
    # A linker that writes into memory which stands for a file gets a bus error where the disk is full.
    said="the disk is full, so cargo can't build the program in $target"
  else
    tail -n 20 "$room/said" >&2
    said="cargo can't build the program in $target, as it says above"
  fi
  rm -rf "$room"
  give_up "$said"
}

give_up() {
  echo "mapf: $1" >&2
  exit 2
}
