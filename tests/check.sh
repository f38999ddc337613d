#!/usr/bin/env bash
# Runs each example through the built program and compares what it prints, and then the modules of tests/ that docs/CHECKS.md lists.
# The program is taken as it stands; where it was built of other sources that is said.
set -u
cd "$(dirname "$0")/.." || exit 1
root=$PWD
# shellcheck source=front/built.sh
source front/built.sh
if [ ! -x "$program" ]; then
  echo "examples: no proved program stands here; bin/prove or .ci/run makes one"
  exit 1
fi
is_current || echo "examples: the program that is tried was built of other sources than stand here"
passed=0
failed=0
for bundle in examples/*.bundle examples/bundles/*.bundle; do
  expected=${bundle%.bundle}.expected
  if bin/rohcfn --as-built <"$bundle" | cmp -s - "$expected"; then
    passed=$((passed + 1))
  else
    echo "example $bundle: output differs from $expected"
    failed=$((failed + 1))
  fi
done
echo "examples: $passed passed, $failed failed"

# As many modules run side by side as there are processors, the long ones first; what each prints comes in the order of the second list. hostile and report run after
# them, by themselves: their calls have at most so many seconds, and beside other work each takes up to half as many more.
longest=(first_call loss library files 'why stored' refusals traces 'why drawn' server robust certificates roundtrip advise trees cases json_lines lint lines frames walks warned session)
ordered=(sentences pages readmes rooms walks left_out editors tuning 'flows line' cases prefixes certificates forged trees roundtrip fields stats advise json_lines 'why stored' 'why drawn'
  avoided lint warned lines frames loss robust refusals ends first_call files server session traces hostile report library manual)
printed=$(mktemp -d)
trap 'rm -rf "$printed"' EXIT
python=$(python3 -c 'import sys; print(sys.executable)') # (one in the PATH may be a script that takes its time)
export printed python
module() {
  # shellcheck disable=SC2086 # (the words of one module)
  "$python" -m tests.$1 >"$printed/$1" 2>&1
  echo $? >"$printed/$1.status"
}
export -f module
printf '%s\n' "${longest[@]}" "${ordered[@]}" | awk '$0 != "hostile" && $0 != "report" && !seen[$0]++' | xargs -d '\n' -P "$(nproc)" -I{} bash -c 'module "{}"'
module hostile
module report
for name in "${ordered[@]}"; do
  cat "$printed/$name"
  [ "$(cat "$printed/$name.status" 2>/dev/null)" = 0 ] || failed=1
done
[ "$failed" -eq 0 ]
