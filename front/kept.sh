# What bin/rohcfn and front/keep.sh share: the unproved program that is kept, and who makes it. Where nothing is proved, the first call answers by `rt try`, and
# front/keep.sh makes a program of the same sources behind it, which the calls after it run. `root` is the checkout.
# shellcheck shell=bash disable=SC2154

room_kept=$root/crates/rohcfn/out/unproved
kept=$room_kept/rohcfn
# Why none can be made of the sources of this sum: the first line is the sum, the second what went wrong.
kept_fault=$room_kept/fault

# Whether a kept program stands here that was built of the sources that stand here.
is_kept() {
  [[ -x $kept && -e $kept.built ]] && is_current "$kept"
}

# Prints why no program can be kept on this machine, or nothing.
lacks() {
  local kit
  kit=$(readlink -f "$(command -v rt)") kit=${kit%/*/*}
  if ! command -v flock >/dev/null || ! command -v setsid >/dev/null; then
    echo "flock and setsid aren't on the PATH"
  elif ! [[ -x $kit/toolchain/bin/clang && -x $kit/bin/rattle-link ]]; then
    echo "the kit of rt has no compiler where it is looked for"
  elif ! { mkdir -p "$room_kept" && [ -w "$room_kept" ]; } 2>/dev/null; then
    echo "crates/rohcfn/out can't be written"
  elif [[ -e $kept_fault && $(head -n 1 "$kept_fault") == "$(sum_of_sources)" ]]; then
    sed -n 2p "$kept_fault"
  fi
}

# Waits for the turn for ten seconds, as a job, so that a signal ends the call at once.
has_turn() {
  flock -w 10 "$turn" &
  wait "$!"
}

# Takes the turn to make a program, as the lock of its folder. While another call has it, that is said, and again every ten seconds.
take_turn() {
  local since=$SECONDS
  exec {turn}<&-
  exec {turn}<"$room_kept"
  if flock -n "$turn"; then return; fi
  say "another call makes the unproved program that is kept, and this one waits for it"
  until has_turn; do say "still waiting, for $((SECONDS - since)) seconds"; done
}
