# What the suites of the bench tool share, for bash: tests/hall/run and the others set `root` and source this file. It finds
# the library, by default the proved one, and goes to the folder of the suite.
library=$(if [ $# -gt 0 ]; then realpath "$1"; else "$root/.ci/build" capi; fi)
cd "$(dirname "$0")" || exit 1
out=$(mktemp -d)
trap 'rm -rf "$out"' EXIT
passed=0
failed=0

# Counts a command as a test.
try() {
  local name=$1
  shift
  if "$@"; then
    passed=$((passed + 1))
  else
    echo "failed: $name"
    failed=$((failed + 1))
  fi
}

end() {
  echo "$passed passed, $failed failed"
  [ "$failed" -eq 0 ]
  exit
}

if [ ! -f "$library" ]; then
  echo "the library could not be built"
  failed=1
  end
fi

# Whether a command is there; if it is missing, the Debian package that has it is installed first.
has_installed() {
  command -v "$1" >/dev/null && return
  { apt-get install -y "$2" || { apt-get update && apt-get install -y "$2"; }; } >"$out/said" 2>&1 && return
  echo "$1 is not there, and apt-get, which needs root, could not install it: $(tail -n 1 "$out/said")"
  return 1
}

# -- Building

warnings="-pedantic -Wall -Wextra -Werror -Wconversion -Wsign-conversion -Wshadow -Wcast-qual -Wcast-align -Wundef"
checked="-g -O1 -fsanitize=address,undefined -fno-sanitize-recover=all"
c() { cc -std=c99 $warnings -I"$root/include" -I"$root/tool" -I"$root/tests/hall" "$@"; }

# The tool; the tool with a library that lies, behind it; and a program NAME of the files given that calls the tool many times,
# under the compiler's sanitizers. Options of the compiler may stand among the files.
lies="-Wl,--wrap=hall_version,--wrap=hall_length,--wrap=hall_settle,--wrap=hall_page,--wrap=hall_step"
lies="$lies,--wrap=hall_check,--wrap=hall_settle_held,--wrap=hall_step_back"
build_hall() {
  mkdir -p "$out/objects" && (cd "$out/objects" && c -O2 -c "$root"/tool/*.c) && c "$out"/objects/*.o "$library" -o "$out/hall"
}
build_liar() { c $lies "$out"/objects/*.o "$root/tests/hall/liar.c" "$library" -o "$out/liar"; }
build_harness() {
  local name=$1 part parts=()
  shift
  for part in "$root"/tool/*.c; do
    [ "$part" = "$root/tool/main.c" ] || parts+=("$part")
  done
  c $checked "$@" "$root/tests/hall/calls.c" "${parts[@]}" "$library" -o "$out/$name"
}
hall() { "$out/hall" "$@"; }
# A command with one of the lies of liar.c.
lie() { LIE=$1 "$out/liar" "${@:2}"; }

# Runs a command. Its exit status is the wanted one, and what it says on standard error is this; `given` has its output.
says() {
  local status=$1 words=$2 ended
  shift 2
  "$@" >"$out/given" 2>"$out/said"
  ended=$?
  if [ "$ended" -ne "$status" ] || [ "$(cat "$out/said")" != "$words" ]; then
    echo "status $ended, and it says"
    cat "$out/said"
    return 1
  fi
}
gave() { diff <(printf '%s\n' "$@") "$out/given"; }
