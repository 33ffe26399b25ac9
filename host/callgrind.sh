#!/bin/sh
# Instructions a page byte inside the library, counted by valgrind's callgrind: sizes, depths and the worst cases.
# callgrind.sh [WORD]: only the sets of pages whose name has WORD, and 'mean', to which all are compared.
# callgrind.sh tags [WORD]: instructions a byte of tag text, in the reader of tags.
# callgrind.sh conversions [WORD]: instructions a byte of both outs, in the way up and the way down.
# callgrind.sh fillings [WORD]: instructions a byte of HTML, in fillings.
# callgrind.sh catalogue [WORD]: instructions a byte of a catalogue of 16,777,216, in arrivals, leavings and checks, and
# how many times those of a plain pass over its bytes.
# callgrind.sh lookups [WORD]: instructions a byte of templates that are checked, and a template of the walk at 256 numbers.
set -eu
cd "$(dirname "$0")"
command -v valgrind >/dev/null || { echo "callgrind.sh: no valgrind here" >&2; exit 1; }
word=${1:-}
built=$(cargo bench --offline --no-run --bench speed 2>&1) || { echo "$built" >&2; exit 1; }
speed=$(echo "$built" | sed -n 's/.*Executable benches\/speed.rs (\(.*\))/\1/p')
rates=$(mktemp)
trap 'rm -f "$rates" "$rates.one"' EXIT
tab=$(printf '\t')

# A copy by `rep` would be counted as one instruction for each byte.
export GLIBC_TUNABLES=glibc.cpu.x86_rep_stosb_threshold=0x10000000:glibc.cpu.x86_rep_movsb_threshold=0x10000000

count() { # FUNCTION COMMAND NAME: instructions, answer
  valgrind --tool=callgrind --toggle-collect="$1" --callgrind-out-file=/dev/null "$speed" "$2" "$3" 2>&1 |
    awk '/Collected :/ { n = $NF } /^[0-9]+$/ { answer = $0 } END { print n "\t" answer }'
}

if [ "$word" = tags ]; then
  printf '%-34s %7s %13s %9s  %s\n' text bytes instructions 'a byte' answer
  "$speed" tags | while IFS=$tab read -r name bytes; do
    case $name in *"${2:-}"*) ;; *) continue ;; esac
    count jsx_precompile_read_tag tag "$name" >"$rates.one"
    IFS=$tab read -r instructions answer <"$rates.one" || true
    echo "$name$tab$bytes$tab$instructions$tab$answer" |
      awk -F '\t' '{ printf "%-34s %7d %13d %9.1f  %s\n", $1, $2, $3, $3 / $2, $4 }'
  done
  exit
fi

if [ "$word" = conversions ]; then
  printf '%-34s %7s %13s %9s  %s\n' outs bytes instructions 'a byte' answer
  "$speed" conversions | while IFS=$tab read -r name bytes; do
    case $name in *"${2:-}"*) ;; *) continue ;; esac
    case $name in *Up) way=upgrade ;; *) way=downgrade ;; esac
    count "jsx_precompile_$way" convert "$name" >"$rates.one"
    IFS=$tab read -r instructions answer <"$rates.one" || true
    echo "$name$tab$bytes$tab$instructions$tab$answer" |
      awk -F '\t' '{ printf "%-34s %7d %13d %9.1f  %s\n", $1, $2, $3, $3 / $2, $4 }'
  done
  exit
fi

if [ "$word" = fillings ]; then
  printf '%-34s %9s %7s %7s %13s %9s  %s\n' order templates order HTML instructions 'a byte' answer
  "$speed" fillings | while IFS=$tab read -r name templates order html; do
    case $name in *"${2:-}"*) ;; *) continue ;; esac
    count jsx_precompile_fill fill "$name" >"$rates.one"
    IFS=$tab read -r instructions answer <"$rates.one" || true
    echo "$name$tab$templates$tab$order$tab$html$tab$instructions$tab$answer" | tee -a "$rates" |
      awk -F '\t' '{ printf "%-34s %9d %7d %7d %13d %9.1f  %s\n", $1, $2, $3, $4, $5, $5 / $4, $6 }'
  done
  # Of each way to have 9,361 orders: over their bytes in one template, as one string, and with a gap for each of them.
  awk -F '\t' '{ instructions[$1] = $5 } END {
    one = instructions["their bytes, one template"]
    gaps = instructions["their bytes, 9,361 gaps"]
    for (name in instructions) {
      if (name !~ /^9,361/) continue
      if (one) printf "%s, over their bytes in one string: %.1f\n", name, instructions[name] / one
      if (gaps) printf "%s, over their bytes in 9,361 gaps: %.1f\n", name, instructions[name] / gaps
    }
  }' "$rates"
  exit
fi

if [ "$word" = catalogue ]; then
  printf '%-34s %9s %8s %9s %13s %9s %9s  %s\n' catalogue used pages templates instructions 'a byte' 'x a pass' answer
  "$speed" catalogues | while IFS=$tab read -r name used pages templates; do
    case $name in *"${2:-}"*) ;; *) continue ;; esac
    case $name in *arrival) call=add ;; *) call=remove ;; esac
    count plain_pass pass "$name" | cut -f 1 >"$rates.one"
    count "jsx_precompile_catalogue_$call" catalogue "$name" >>"$rates.one"
    echo "$name$tab$used$tab$pages$tab$templates$tab$(tr '\n' '\t' <"$rates.one")" |
      awk -F '\t' '{ printf "%-34s %9d %8d %9d %13.0f %9.1f %9.1f  %s\n", $1, $2, $3, $4, $6, $6 / $2, $6 / $5, $7 }'
  done
  exit
fi

if [ "$word" = lookups ]; then
  printf '%-34s %8s %8s %13s %9s %13s %11s\n' templates bytes count 'the check' 'a byte' 'the walk' 'a template'
  "$speed" lookups | while IFS=$tab read -r name bytes records; do
    case $name in *"${2:-}"*) ;; *) continue ;; esac
    count jsx_precompile_find check "$name" | cut -f 1 >"$rates.one"
    count jsx_precompile_find find "$name" | cut -f 1 >>"$rates.one"
    echo "$name$tab$bytes$tab$records$tab$(tr '\n' '\t' <"$rates.one")" |
      awk -F '\t' '{ printf "%-34s %8d %8d %13d %9.1f %13d %11.1f\n", $1, $2, $3, $4, $4 / $2, $5 - $4, ($5 - $4) / $3 }'
  done
  exit
fi

printf '%-34s %5s %7s %6s %6s %5s %13s %9s %7s  %s\n' set pages bytes tags attrs depth instructions 'a byte' 'x mean' answer
"$speed" list | while IFS=$tab read -r name pages bytes tags attributes depth; do
  case $name in
    mean | *"$word"*) ;;
    *) continue ;;
  esac
  count jsx_precompile_transform run "$name" >"$rates.one"
  IFS=$tab read -r instructions answer <"$rates.one" || true
  printf '%s\t%s\t%s\t%s\t%s\t%s\t%s\t%s\n' "$name" "$pages" "$bytes" "$tags" "$attributes" "$depth" "$instructions" "$answer" |
    tee -a "$rates" |
    awk -F '\t' -v mean="$(awk -F '\t' '$1 == "mean" { print $7 / $3 }' "$rates")" '{
      rate = $7 / $3
      printf "%-34s %5d %7d %6d %6d %5d %13s %9.1f %7.1f  %s\n", $1, $2, $3, $4, $5, $6, $7, rate, rate / (mean ? mean : rate), $8
    }'
done

# Linear in size, also at the greatest depth.
awk -F '\t' '{ rate[$1] = $7 / $3 } END {
  if (rate["1 KB"] && rate["32 KB"]) printf "32 KB over 1 KB: %.2f\n", rate["32 KB"] / rate["1 KB"]
  if (rate["depth 48, 1 KB"] && rate["depth 48, 32 KB"])
    printf "32 KB over 1 KB at depth 48: %.2f\n", rate["depth 48, 32 KB"] / rate["depth 48, 1 KB"]
}' "$rates"
