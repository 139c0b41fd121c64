# Read by bin/iptsim and bin/iptaudit, after tools/building/crates.sh: proves and builds a program where it isn't built yet or a source of
# its crates is newer. Standard error says what that takes, and how far it is, crate by crate. Where it can't be built, standard error
# says why, and the script ends with status 1.
#
# A script says `takes`, `needs` and `ready`: how long the proof takes, what memory and disk, and where the program then lies.
program="$root/crates/$made/out/$made"

# build_crate CRATE WORD..: neither command builds tests. The program's run, which builds it, has the words.
build_crate() {
  cd "$root/crates/$1" || return
  if [ "$1" = "$made" ]; then rt run -- "${@:2}"; else rt lib; fi
}

# A source that changes in the meantime is newer than the program afterwards.
build() {
  local crate number=0 begun work
  need_rt
  say "the program is proved and built first: $takes"
  say "that takes $needs"
  work="$(mktemp -d)"
  trap 'rm -rf "$work"' EXIT
  touch "$work/begun"
  for crate in "${crates[@]}"; do
    number=$((number + 1))
    begun=$SECONDS
    say "proving and building $crate, $number of ${#crates[@]}"
    if ! (build_crate "$crate" "$@") </dev/null >"$work/log" 2>&1; then
      cat "$work/log" >&2
      say "$crate is not built"
      exit 1
    fi
    say "$crate took $((SECONDS - begun)) seconds"
  done
  say "built in $SECONDS seconds; crates/$made/out/$made runs by itself$ready"
  touch -r "$work/begun" "$program"
  rm -rf "$work"
  trap - EXIT
}

# build_where_needed WORD..: the words are those of a run of the program that does nothing, on no input.
build_where_needed() {
  if ! is_built "$program" src specs proofs; then build "$@"; fi
}
