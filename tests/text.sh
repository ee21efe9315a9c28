# Sourced by tests/run: the cases of examples/text.c, compiled to $out/text. The texts that docs/MANUAL.md refuses are
# among them.
# shellcheck shell=bash disable=SC2154

# text STATUS SAID WORD..: whether the program ends with the status on $out/text.in, and says on standard error just
# what is expected; what it makes is in $out/text.out
text() {
  local status=$1 said=$2 got
  shift 2
  timeout 20 "${runner[@]}" "$out/text" "$@" <"$out/text.in" >"$out/text.out" 2>"$out/text.said"
  got=$?
  [ "$got" -eq "$status" ] && [ "$(cat "$out/text.said")" = "$said" ] && return
  printf 'expected: status %s, said: %s\nended: %s, said: %s\n' "$status" "$said" "$got" "$(cat "$out/text.said")"
  return 1
}

# converts FILE WORD RESULT: whether the program makes the one file of the other
converts() {
  cp "$1" "$out/text.in"
  text 0 "" "$2" && cmp "$out/text.out" "$3"
}

# refuses NUMBER PLACE LINE TEXT: whether the text, as printf writes it, is refused so and the line shown; nothing is
# made
refuses() {
  local said
  case $1 in
  2) said="more variables, conditions or cycles than a pattern has fields for, or a bad header" ;;
  3) said="too many sets, too many variables in a set, or a bad variable byte" ;;
  14) said="a line that is bad or missing" ;;
  esac
  # shellcheck disable=SC2059
  printf "$4" >"$out/text.in"
  text 1 "refused $1 $2: $said${3:+$'\n'    $3}" read && [ ! -s "$out/text.out" ]
}

# lines COUNT LINE: so many of the line, as printf's text
lines() {
  local i
  for ((i = 0; i < $1; i++)); do printf '%s\\n' "$2"; done
}

text_refusals() {
  local number place line bytes
  while IFS='|' read -r number place line bytes; do
    step "text refused with $number: $bytes" refuses "$number" "$place" "$line" "$bytes"
  done <<TEXTS
14|0||
14|0|set|set\n
14|0|set a  b|set a  b\n
14|0|set A|set A\n
14|1|set b a|set a\nset b a\nwithin 1\n
14|1|when b.core = 1|set a\nwhen b.core = 1\nset b\n
14|1|when a.core == 1|set a\nwhen a.core == 1\nwithin 1\n
14|1|when a.core =! 1|set a\nwhen a.core =! 1\nwithin 1\n
14|1|when a.Core = 1|set a\nwhen a.Core = 1\nwithin 1\n
14|1|when a.core = 007|set a\nwhen a.core = 007\nwithin 1\n
14|1|when a.core >= -1|set a\nwhen a.core >= -1\nwithin 1\n
14|1|when a.slot < 4294967296|set a\nwhen a.slot < 4294967296\nwithin 1\n
14|1|when a.amount = -2147483649|set a\nwhen a.amount = -2147483649\nwithin 1\n
14|1||set a\n
14|1|within 10|set a\nwithin 10
14|2|set b|set a\nwithin 10\nset b\n
14|1||set a b c d e f g h i j k l m\n
2|0||set a b c d e f g h i j k l m\nwithin 1\n
2|0||set a\n$(lines 33 "when a.core = 1")within 1\n
2|0||set a\nwithin 1099511627776\n
3|6||set a b c d e f g\nwithin 1\n
3|8||set a\nset b\nset c\nset d\nset e\nset f\nset g\nset h\nset i\nwithin 1\n
TEXTS
}

text_cases() {
  step "text read on the bench" converts examples/bench.txt read examples/bench.pattern
  step "text write on the bench" converts examples/bench.pattern write examples/bench.txt
  text_refusals
  printf '\x23' >"$out/text.in"
  step "text write of a byte" text 1 "refused 1 0: the pattern's length is not what its header says" write
  step "text without a word" text 2 "usage: text read < TEXT > PATTERN, or text write < PATTERN > TEXT"
  head -c 1048576 /dev/zero >"$out/text.in"
  step "text on a megabyte" text 2 "text: the input cannot be read, or is a megabyte or longer" read
}
