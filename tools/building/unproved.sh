# Read by bin/quick, after tools/building/crates.sh and tools/building/tried.sh: builds a program without its proof. `program` is the file into
# which it goes, `made` its crate, and `reads` are words with which it reads standard input to its end.

# Builds the program in a folder of its own, and puts it in its place when it is whole. A source that changes in the
# meantime is newer than the program afterwards.
build() {
  local begun=$SECONDS
  say "building $made without a proof, which takes one or two minutes"
  rm -rf "$program".building.*
  work="$(mktemp -d "$program.building.XXXXXX")"
  trap 'end_builder; rm -rf "$work"' EXIT
  trap 'exit 129' HUP
  trap 'exit 130' INT
  trap 'exit 143' TERM
  touch "$work/begun"
  mkdir "$work/cases"
  # Blank lines.
  head -c 2000000 /dev/zero | tr '\0' '\n' >"$work/cases/long"
  if ! catch_program "$made" "$work" -- "${reads[@]}"; then
    cat "$work/log" >&2 || true
    say "$made is not built"
    exit 1
  fi
  chmod +rx "$work/program"
  touch -r "$work/begun" "$work/program"
  mv -f "$work/program" "$program"
  rm -rf "$work"
  trap - EXIT HUP INT TERM
  say "built in $((SECONDS - begun)) seconds; this $made is not proved here: bin/$made proves it, and builds a faster one"
  say 'with its checks a walk of 65,536 matches takes 8.6 s, and 0.024 s where it is proved; 8,192 rules take 22 to 110 s, and 0.15 s'
}

# Builds the program, unless another call has done so in the meantime. What a call that was killed has left is removed by
# the next that builds.
build_alone() {
  need_rt
  mkdir -p "$(dirname "$program")"
  exec 9>"$program.lock"
  if ! flock -n 9; then
    say 'waiting for another call, which builds the program'
    flock 9
  fi
  if ! is_built "$program" src; then build; fi
  exec 9>&-
}
