# The steps of ./verify and of ./x test, and how one is run. The current folder is the top of the repository, $room a folder for what they leave, and SECONDS
# was 0 at the start. Each step is a command whose last line is 'N passed, M failed'.

# Fills `steps` with those that stand on no more than the program, and `of_libraries` with those that take the libraries for C where these are made.
list_steps() {
    local it
    steps=(./scripts/misuse ./examples/check) of_libraries=()
    for it in ./tests/*; do
        case $it in
            ./tests/library | ./tests/library_texts | ./tests/backend | ./tests/llvm | ./tests/packaging) of_libraries+=("$it") ;;
            *) [ ! -f "$it" ] || steps+=("$it") ;;
        esac
    done
}

# Each line with the minutes since the start, which is when SECONDS was 0.
stamp() {
    local line
    while IFS= read -r line || [ -n "$line" ]; do
        printf '[%3d.%d] %s\n' $((SECONDS / 60)) $((SECONDS % 60 / 6)) "$line"
    done
}

# Runs a step. Writes its count to a file, its times to the table, and its name to those that were left out if it tested nothing. Answers whether all of it
# passed. The log of a step stands in a file of its own, as several steps may run at one time.
run_step() {
    local step=$1 log=$room/log.$BASHPID status counts TIMEFORMAT='%R %U %S'
    { time $step 2>&1 </dev/null; } 2>"$log.times" | tee "$log" | stamp
    status=${PIPESTATUS[0]}
    counts=$(tail -n 1 "$log" | sed -nE 's/^([0-9]+) passed, ([0-9]+) failed$/\1 \2/p')
    if [ -z "$counts" ]; then
        echo "${0##*/}: FAILED: $step stopped without a count" | tee -a "$room/failures" | stamp
        counts="0 1"
    elif [ "$status" -ne 0 ] && [ "${counts#* }" -eq 0 ]; then
        counts="${counts% *} 1"
    elif [ "$counts $status" = "0 0 0" ]; then
        echo "$step" >>"$room/left-out"
    fi
    echo "$counts" >>"$room/counts"
    grep -E 'FAILED|NOT |BAD EDIT|: error' "$log" | grep -v 'as it must be' | head -n 40 | cut -c 1-400 >>"$room/failures"
    tail -n 1 "$log.times" |
        awk -v step="$step" '{ printf "%-18s %8.1f %11.1f\n", step, $1 / 60, ($2 + $3) / 60 }' >>"$room/table"
    [ "${counts#* }" -eq 0 ]
}

# Tells the times of the steps, what failed, which steps tested nothing, and as the last line the count. Answers whether nothing failed.
tell_steps() {
    local passed failed
    { echo "minutes:               wall   processor"; cat "$room/table"; } | stamp
    read -r passed failed < <(awk '{ passed += $1; failed += $2 } END { print passed, failed }' "$room/counts")
    [ "$failed" -eq 0 ] || { echo "what failed:"; cat "$room/failures"; } | stamp
    [ ! -s "$room/left-out" ] || echo "left out: $(paste -s -d , "$room/left-out" | sed 's/,/, /g')" | stamp
    echo "$passed passed, $failed failed"
    [ "$failed" -eq 0 ]
}
