# What bin/rohcfn, bin/prove and .ci/run share: their streams, and what the program was built of, as a note beside it says. `root` is the checkout.
# shellcheck shell=bash disable=SC2154

# Where a standard stream is closed, one that can't be used takes its place, so that no pipe and no file does.
[ -e /dev/fd/0 ] || exec 0>/dev/null
[ -e /dev/fd/1 ] || exec 1</dev/null
[ -e /dev/fd/2 ] || exec 2</dev/null

program=$root/crates/rohcfn/out/rohcfn
note=$program.built

# Looks among the files that say what the program does and what is claimed of it, and among the folders in which they stand.
sources() {
  (cd "$root" && find crates.txt HANDLES crates \( -name out -o -name proofs -o -name must-fail \) -prune -o \( ! -path 'crates*' -o -path '*/src*' -o -path '*/specs*' \) "$@")
}

# Prints a sum of them.
sum_of_sources() {
  sources -type f -print0 | LC_ALL=C sort -z | (cd "$root" && xargs -0 sha256sum) | sha256sum | cut -d ' ' -f 1
}

# Prints the commit of the checkout, where git knows it.
commit() {
  GIT_OPTIONAL_LOCKS=0 git --git-dir="$root/.git" --work-tree="$root" describe --always --exclude='*' --dirty=' with changes' 2>/dev/null </dev/null || true
}

# Notes what the program was built of: the sources that had this sum before, where they have it still.
note_built() {
  local sum
  sum=$(sum_of_sources)
  if [[ $sum != "$1" ]]; then sum='the sources changed meanwhile'; fi
  printf '%s\n%s\n' "$sum" "$(commit)" >"$note" || true
}

# Whether the program, or another one that is named, was built of the sources that stand here. Where none of them is newer than the note, or the program where
# there is no note, that takes a hundredth of a second; else they are summed.
is_current() {
  local program=${1:-$program} note=${1:-$program}.built since
  since=$note
  if ! [ -e "$root/crates.txt" ]; then return 0; fi
  if ! [ -e "$note" ]; then since=$program; fi
  if [ -e "$note" ] && ! [[ $(head -n 1 "$note") =~ ^[0-9a-f]{64}$ ]]; then return 1; fi
  if [ -z "$(sources -newer "$since" -print -quit 2>/dev/null)" ]; then return 0; fi
  if ! [ -e "$note" ] || [[ $(head -n 1 "$note") != "$(sum_of_sources)" ]]; then return 1; fi
  touch "$note" 2>/dev/null || true
}

# How many checks at a time: one takes up to 3 GiB.
side_by_side() {
  local processors memory
  processors=$(nproc)
  memory=$(awk '/^MemAvailable/ { print int($2 / 3145728) }' /proc/meminfo)
  echo $((memory < 1 ? 1 : memory < processors ? memory : processors))
}
