# What the parts of the repository's own checks share. Each part reads this file first, and ends
# with `exit "$failed"`.
# shellcheck shell=bash disable=SC2034
set -u
cd "$(dirname "${BASH_SOURCE[0]}")/.." || exit 1
program=crates/hx_tool/out/hx_tool
picture=crates/hx_picture/out/hx_picture
failed=0

complain() {
  printf 'check failed: %s\n' "$1"
  failed=1
}

# needs PROGRAM..: ends the part where one of them isn't built, since nothing is seen without it
needs() {
  local it
  for it in "$@"; do
    [ -x "$it" ] && continue
    complain "$it is not built: .ci/run builds it, by rt ci, once all is proved"
    exit 1
  done
}

# hx WORD..: the program, which is stopped where it doesn't end
hx() {
  timeout 120 "$program" "$@"
}

# consistent NAME <REPORT: complains where the audit of a report doesn't say yes
consistent() {
  local told
  told=$(hx audit 2>&1)
  [ "$? $told" = '0 audit yes' ] || complain "the audit of $1 tells '$told'"
}
