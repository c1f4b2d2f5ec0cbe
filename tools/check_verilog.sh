#!/bin/sh
# Builds every example and shows what other tools say of the texts, where they are installed: Icarus Verilog (and its run and its nets beside `tapa cosim`), GTKWave's vcd2fst, Verilator, Yosys.
#
#     tools/check_verilog.sh PROGRAM
#
# Nothing is shown where they agree. Left out of Verilator's warnings are UNUSEDSIGNAL, a fact of the source (bits that a conversion drops, the data of a memory that is
# only stored to, `done` of detached instances), and DECLFILENAME.
program=$1
if [ "$program" = --help ] || [ "$program" = -h ]; then
  sed -n '2,7s/^# \{0,1\}//p' "$0"
  exit 0
fi
if [ -z "$program" ]; then
  sed -n '2,7s/^# \{0,1\}//p' "$0" >&2
  exit 2
fi
cd "$(dirname "$0")/.." || exit 2
folder=$(mktemp -d)
trap 'rm -rf "$folder"' EXIT
tools=""
for tool in iverilog vcd2fst verilator yosys; do
  if command -v "$tool" >/dev/null; then tools="$tools $tool"; else echo "check_verilog: $tool is not installed, so it was not tried" >&2; fi
done
status=0

# The circuit of one example, with these options of `build`.
look() {
  source=$1 options=$2
  set -- $(head -n 1 "$source" | sed 's|^// tapa run ||')
  text=$folder/$(basename "$source" .cpp).v
  "$program" build "$1" "$2" $options > "$text" || { echo "check_verilog: $source is not built"; status=1; return; }
  "$program" cosim "$text" $3 --cycles 2000 --vcd > "$folder/cosim.vcd" 2>/dev/null
  case $tools in *iverilog*)
    iverilog -g2005 -gno-xtypes -Wall -o /dev/null "$text" > "$folder/said" 2>&1 || status=1
    sed "s|^|iverilog: |" "$folder/said"
    [ -s "$folder/said" ] && status=1
    "$program" cosim "$text" $3 --cycles 2000 > "$folder/cosim" 2>/dev/null
    python3 tools/icarus.py "$text" $3 --cycles 2000 > "$folder/icarus"
    diff "$folder/cosim" "$folder/icarus" || { echo "check_verilog: $source runs otherwise in Icarus Verilog"; status=1; }
    python3 tools/icarus.py "$text" $3 --cycles 2000 --beside "$folder/cosim.vcd" || { echo "check_verilog: nets of $source are otherwise in Icarus Verilog"; status=1; };;
  esac
  case $tools in *vcd2fst*)
    vcd2fst "$folder/cosim.vcd" "$folder/cosim.fst" > "$folder/said" 2>&1 || { sed "s|^|vcd2fst: |" "$folder/said"; status=1; };;
  esac
  case $tools in *verilator*)
    verilator --lint-only -Wall -Wno-UNUSEDSIGNAL -Wno-DECLFILENAME "$text" > "$folder/said" 2>&1 || status=1
    sed "s|^|verilator: |" "$folder/said";;
  esac
  case $tools in *yosys*)
    yosys -q -p "read_verilog $text; hierarchy -check; proc; check -assert" > "$folder/said" 2>&1 || status=1
    sed "s|^|yosys: |" "$folder/said";;
  esac
}

for source in examples/*.cpp examples/refused/*_mended.cpp; do look "$source" ""; done
look examples/two_ways.cpp "--device examples/devices/two_dies.json"
exit $status
