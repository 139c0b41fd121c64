# Read by bin/iptsim, bin/iptaudit and bin/quick: the crates on which a program stands, whether a file that was built of them is
# up to date, and what these scripts say. `root` is the top of the repository, `made` the program's crate, and `name` is what a
# script's messages begin with.

# What each crate stands on, by crates.txt.
declare -A uses=()
while IFS=: read -r crate below; do
  uses["${crate%% *}"]="$below"
done < <(sed 's/#.*//; /:/!d' "$root/crates.txt")

# Puts a crate into `crates`, after those of this repository on which it stands.
crates=()
gather() {
  case " ${crates[*]-} " in *" $1 "*) return ;; esac
  local below
  for below in ${uses["$1"]}; do
    if [ -n "${uses["$below"]+listed}" ]; then gather "$below"; fi
  done
  crates+=("$1")
}
gather "$made"

# is_built FILE FOLDER..: whether the file is there, and nothing in these folders of the crates is newer, nor crates.txt.
is_built() {
  local crate folder file="$1" sources=("$root/crates.txt")
  shift
  for crate in "${crates[@]}"; do
    for folder; do
      if [ -d "$root/crates/$crate/$folder" ]; then sources+=("$root/crates/$crate/$folder"); fi
    done
  done
  [ -x "$file" ] && [ -z "$(find "${sources[@]}" -newer "$file" -print -quit)" ]
}

# say TEXT: writes a message to standard error. One that can't be written is let go.
say() {
  echo "$name: $1" >&2 || true
}

# Ends the script where the toolchain can't be called.
need_rt() {
  if ! command -v rt >/dev/null; then
    say "rt, the command of the Rattle toolchain, is not on the path: \
install the toolchain that README.md names, and add its folder bin to PATH"
    exit 1
  fi
}
