# Sourced by tests/run: the cases of examples/host.c, compiled to $out/host.
# shellcheck shell=bash disable=SC2154

# host STATUS EXPECTED WORDS ARGUMENT..: whether the host ends with the status within 20 seconds, prints what is
# expected, and has the words in what it says on standard error; where there are no words it says nothing
host() {
  local expected="$2, status $1" words=$3 got said
  shift 3
  got=$(timeout 20 "${runner[@]}" "$out/host" "$@" 2>"$out/host.said")
  got="$got, status $?"
  said=$(cat "$out/host.said")
  [ "$got" = "$expected" ] && [[ $said = *"$words"* ]] && { [ -n "$words" ] || [ -z "$said" ]; } && return
  printf 'expected: %s, and in words: %s\nprinted: %s\nsaid: %s\n' "$expected" "$words" "$got" "$said"
  return 1
}

# takers: a pattern of six group variables in one set, and a block of thirty events each of which all six take: far too
# many readings for a pass without a limit
takers() {
  local i
  printf '\x16\0\0\0\0\0\0\xff\x18\x18\x18\x18\x18\x18' >"$out/takers.pattern"
  for ((i = 1; i <= 30; i++)); do
    # shellcheck disable=SC2059
    printf "\0\0\0\0\0\0\x$(printf %02x "$i")\0\0\0\0\0\0\0\0\0"
  done >"$out/takers.block"
}

host_cases() {
  local bench=(examples/bench.pattern examples/bench.block) limit spans
  spans=$(printf '4 0@0 1@2 1@3 2@4\n2 1@8 0@9 1@10 2@11\n2 0@9 1@10 2@11\nok 3 14 5')
  step "host on the bench" host 0 "$spans" "" "${bench[@]}"
  step "host on the bench, limit 5" host 0 "$spans" "" "${bench[@]}" 5
  step "host on the bench, limit 4" host 1 "refused 10 5" "forward pass: more readings" "${bench[@]}" 4
  step "host on the bench, limit 0" host 1 "refused 8 0" "forward pass: the limit" "${bench[@]}" 0
  step "host on the bench, limit 2^32 - 1" host 1 "refused 8 0" "forward pass: the limit" "${bench[@]}" 4294967295
  step "host without records" host 0 "ok 0 0 0" "" examples/bench.pattern /dev/null
  step "host without a pattern" host 1 "refused 1 0" "forward pass: the pattern's length" /dev/null examples/bench.block
  takers
  step "host on readings without end" \
    host 1 "refused 10 2" "forward pass: more readings" "$out/takers.pattern" "$out/takers.block"
  for limit in "" -1 +1 x 5x 4294967296 4294967301 99999999999999999999; do
    step "host with the limit '$limit'" host 2 "" "no number of 32 bits" "${bench[@]}" "$limit"
  done
  step "host on one file" host 2 "" "usage: " examples/bench.pattern
  step "host on a folder" host 2 "" "examples: Is a directory" examples/bench.pattern examples
  step "host on a file that is missing" host 2 "" "$out/none: No such file" "$out/none" examples/bench.block
  step "host on a file that cannot be read" \
    host 2 "" "/proc/self/mem: Input/output error" examples/bench.pattern /proc/self/mem
}
