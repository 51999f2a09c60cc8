#!/usr/bin/env bash
# Runs maltlink over inputs, rates and sets of parameters by GNU parallel, and writes one row for each run, as sweep.py.
#
#     printf '%s\n' 10mbit 50mbit > rates
#     printf '%s\n' 'target 5ms' 'target 20ms noecn' > sets
#     sweep.sh FOLDER rates sets ARRIVALS.csv... > rows.csv
#
# FOLDER has what each run wrote. A run that failed or was lost is reported on standard error, and the status is 1. The
# same command again makes these runs alone. Where MACHINES names a file with a machine a line, as `parallel` takes it
# for --sshloginfile, the runs go there: each machine needs maltlink, and the inputs under the same names. MALTLINK
# names another program. It needs Debian's package parallel.
set -euo pipefail
folder=$1 rates=$2 sets=$3
shift 3
maltlink=${MALTLINK:-maltlink}
mkdir -p "$folder"
machines=()
[[ -z ${MACHINES:-} ]] || machines=(--sshloginfile "$MACHINES")

# The order of the runs is that of the words, the last of which varies fastest. So a run keeps its number.
mapfile -t inputs < <(realpath "$@")
parallel --will-cite --joblog "$folder/log" --resume-failed --results "$folder/{#}" "${machines[@]}" \
    "$maltlink --rate {1} {=2 uq() =} < {3}" :::: "$rates" :::: "$sets" ::: "${inputs[@]}" >"$folder/all" 2>&1 || true

# Writes the row of a run, and the header before the first one.
row() { # NUMBER RUN
    awk -F, -v run="$2" -v with_head="$((rows == 0))" '
        NR == 1 && with_head { sub(/^queue,tuple,/, ""); head = "input,link,words," $0 }
        NR > 1 && $2 == "all" { sub(/^[^,]*,all,/, ""); row = run "," $0; count++ }
        END { if (count != 1) exit 1; if (with_head) print head; print row }' "$folder/$1"
}

rows=0 number=0
while IFS= read -r rate; do while IFS= read -r words; do for input in "${inputs[@]}"; do
    number=$((number + 1))
    # The last line of the log for a run is that of its last try.
    status=$(awk -F'\t' -v n="$number" '$1 == n { last = $7 " " $8 } END { print last }' "$folder/log")
    if [[ $status == '0 0' ]] && row "$number" "$input,$rate,$words"; then
        rows=$((rows + 1))
    else
        echo "sweep: no row of $input, rate $rate, set '$words': ${status:-never started} (exit status and signal)" >&2
        cat "$folder/$number.err" >&2 2>/dev/null || true
    fi
done; done <"$sets"; done <"$rates"
echo "sweep: $rows of $number runs have a row" >&2
((rows == number && number > 0))
