#!/usr/bin/env bash
# Builds the shared library, the C programs and their tests into clients/out, with the machine's C compiler: build.sh [OUT]
# CC is the compiler, CFLAGS are more of its words, ROHCFN_ARCHIVE is the library that `rt lib` made. Status 3: there is none; 4: there is no C compiler.
set -eu
here=$(cd "$(dirname "$0")" && pwd)
out=${1:-$here/out}
archive=${ROHCFN_ARCHIVE:-$here/../crates/rohcfn_c/out/librohcfn_c.a}
compiler=${CC:-cc}
[ -f "$archive" ] || { echo "build.sh: no library at $archive; \`rt lib\` in crates/rohcfn_c makes it" >&2; exit 3; }
command -v "$compiler" >/dev/null || { echo "build.sh: no C compiler" >&2; exit 4; }
kit=$(dirname "$(dirname "$(readlink -f "$(command -v rt)")")")
memory=$kit/c/liblibc_c.a

mkdir -p "$out"
# shellcheck disable=SC2206 # (words of the caller)
words=(-std=c11 -O2 -Wall -Wextra -Werror -I"$here" ${CFLAGS:-})
"$compiler" -shared -o "$out/librohcfn_c.so" -Wl,--whole-archive "$archive" -Wl,--no-whole-archive "$memory"
for name in items calls rounds threads; do
  "$compiler" "${words[@]}" -pthread -o "$out/$name" "$here/c/$name.c" "$archive" "$memory"
done
"$compiler" "${words[@]}" -Wl,--wrap=malloc,--wrap=realloc -o "$out/refused" "$here/c/refused.c" "$archive" "$memory"
