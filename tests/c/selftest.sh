#!/usr/bin/env bash
# Shows that the C test can fail: bash tests/c/selftest.sh (five to ten minutes, so no part of the gate)
# The reference takes the archive's place (standin.c), as it is and then with one error planted at a time; as it is no
# call may depart, and with an error some call must. What compares energies with the least of all plans, and the planner
# with the dull engine, must find errors that the stand-in and the test's reference have alike; the first gets errors of
# its own too.
set -eu
. -- "$(dirname -- "$0")/../../scripts/root.sh" || exit 1

out=target/tests/planted
mkdir -p "$out"
for part in calls sets least reference; do
    cc -O2 -c tests/c/$part.c -o "$out/$part.o"
done

# build FOLDER: the test with the stand-in of that folder, under names of its own so that the test's reference stays as
# it is. Parts of the test that were compiled in the folder take the place of those that are as they should be.
build() {
    local renamed="-Dexpect_plan=standin_plan -Dexpect_walk=standin_walk -Dexpect_generate=standin_generate" part parts=()
    renamed="$renamed -Dexpect_dull=standin_dull -Dcan_be_written=standin_can_be_written"
    for part in calls sets least reference; do
        if [ -f "$1/$part.o" ]; then parts+=("$1/$part.o"); else parts+=("$out/$part.o"); fi
    done
    # shellcheck disable=SC2086
    cc -O1 -w $renamed -Itests/c "$1/reference.c" "$1/standin.c" "${parts[@]}" -o "$1/calls"
}

# lay_out NAME: a copy of the stand-in, in a folder that it prints.
lay_out() {
    local folder=$out/$1
    rm -rf "$folder"
    mkdir -p "$folder"
    cp tests/c/reference.c tests/c/reference.h "$folder"
    sed 's|"\.\./\.\./include/|"|' tests/c/standin.c >"$folder/standin.c"
    cp include/seedspell.h "$folder"
    echo "$folder"
}

# change NAME FILE OLD NEW: replaces the one place where FILE has OLD.
change() {
    local text rest
    text=$(cat "$2")
    rest=${text#*"$3"}
    if [ "$rest" = "$text" ] || [ "${rest#*"$3"}" != "$rest" ]; then
        echo "selftest: $1: there is not one place in ${2##*/} with: $3" >&2
        exit 1
    fi
    printf '%s\n' "${text/"$3"/"$4"}" >"$2"
}

# compile_test FOLDER FILE: a part of the test as it stands in that folder.
compile_test() {
    cc -O2 -w -Itests/c -c "$1/$2" -o "$1/${2%.c}.o"
}

# run FOLDER: builds the test and runs it; so few random sets are too few, which is no matter here. Its output stays in
# the folder, and `status` is what it ended with.
run() {
    build "$1"
    status=0
    { "$1/calls" 1 4000 >"$1/output" 2>&1; } 2>/dev/null || status=$?
}

# departs FOLDER: prints which call departs; nothing where the run came to its end.
departs() {
    grep -m 1 -E '^call [0-9]+ of .* departs$' "$1/output" || true
}

# departs_by_energy FOLDER: the same, where it is as the reference has it, and departs by its energy beside the least.
departs_by_energy() {
    if grep -q -E '^unit [0-9]+ and energy [0-9]+, where some plan has [0-9]+$' "$1/output"; then departs "$1"; fi
}

# departs_by_engines FOLDER: the same, where it departs in that the planner and the dull engine differ.
departs_by_engines() {
    if grep -q '^the planner and the dull engine differ$' "$1/output"; then departs "$1"; fi
}

# run_without FOLDER NAME PART..: the test without these lines, which compare.
judge='judge_energy(c);'
compare='compare_engines(&c, planner, &dull);'
run_without() {
    local folder=$1 name=$2 part
    shift 2
    cp tests/c/calls.c "$folder"
    for part in "$@"; do
        change "$name" "$folder/calls.c" "$part" ';'
    done
    compile_test "$folder" calls.c
    run "$folder"
}

# passes FOLDER: whether the run came to its end and turned nothing down.
passes() {
    ! grep -q departs "$1/output" && grep -q '^hyper-period over' "$1/output"
}

missed=0
planted=0
# note NAME FOUND: counts an error, and says how it was found; nothing where it was not.
note() {
    planted=$((planted + 1))
    if [ -z "$2" ]; then
        echo "selftest: $1: not found" >&2
        missed=$((missed + 1))
    else
        printf '%-28s %s\n' "$1" "$2"
    fi
}

# plant NAME FILE OLD NEW: an error in the stand-in; expects that a call departs, or that the error ends the run.
plant() {
    local folder found
    folder=$(lay_out "$1")
    change "$1" "$folder/$2" "$3" "$4"
    run "$folder"
    found=$(departs "$folder")
    if [ -z "$found" ] && [ "$status" -gt 128 ]; then
        found="the run is ended by signal $((status - 128))"
    fi
    note "$1" "$found"
}

# plant_in_test NAME FILE OLD NEW: an error in the test, which asks for other energies then; expects that a call departs
# by its energy, though all that is called is as it should be.
plant_in_test() {
    local folder
    folder=$(lay_out "$1")
    cp "tests/c/$2" "$folder"
    change "$1" "$folder/$2" "$3" "$4"
    compile_test "$folder" "$2"
    run "$folder"
    note "$1" "$(departs_by_energy "$folder")"
}

# lay_out_both NAME OLD NEW: an error in the reference, as the stand-in and as the test has it, so that they agree, in a
# folder that it prints.
lay_out_both() {
    local folder
    folder=$(lay_out "$1")
    change "$1" "$folder/reference.c" "$2" "$3"
    compile_test "$folder" reference.c
    echo "$folder"
}

# only_by NAME FOLDER FOUND: what was found, if nothing departs without what found it.
only_by() {
    if passes "$2"; then
        echo "$3"
    else
        echo "selftest: $1: found by more than what compares: see $2/output" >&2
    fi
}

# plant_in_both NAME OLD NEW: such an error, of the planner; expects that a call departs by its energy, and without this
# from the dull engine's, and that none departs without either.
plant_in_both() {
    local folder by_energy by_engines found=
    folder=$(lay_out_both "$@")
    run_without "$folder" "$1" "$compare"
    by_energy=$(departs_by_energy "$folder")
    run_without "$folder" "$1" "$judge"
    by_engines=$(departs_by_engines "$folder")
    run_without "$folder" "$1" "$judge" "$compare"
    if [ -n "$by_energy" ] && [ -n "$by_engines" ]; then found=$(only_by "$1" "$folder" "$by_energy; $by_engines"); fi
    note "$1" "$found"
}

# plant_in_both_dull NAME OLD NEW: such an error, of the dull engine; expects that a call departs from the planner's, and
# that none departs without this.
plant_in_both_dull() {
    local folder found
    folder=$(lay_out_both "$@")
    run "$folder"
    found=$(departs_by_engines "$folder")
    run_without "$folder" "$1" "$compare"
    note "$1" "$(only_by "$1" "$folder" "$found")"
}

folder=$(lay_out none)
run "$folder"
if ! passes "$folder"; then
    echo "selftest: the stand-in without an error is turned down: see $folder/output" >&2
    exit 1
fi

# Document 01's plausible errors
plant rate-entry-one-late reference.c 's->task[t].cycles, s->rate[r])' 's->task[t].cycles, s->rate[r + 1])'
plant energy-entry-one-early reference.c 's->task[t].period * s->task[t].energy[r]' 's->task[t].period * s->task[t].energy[r - 1]'
plant rounded-to-nearest reference.c 'divided_up(reduced_energy(s, t, r), unit)' '(reduced_energy(s, t, r) + unit / 2) / unit'
plant rounded-down reference.c 'divided_up(reduced_energy(s, t, r), unit)' 'reduced_energy(s, t, r) / unit'
plant rounded-by-job reference.c \
    'divided_up(reduced_energy(s, t, r), unit)' \
    's->span / s->task[t].period * divided_up(left_of(s, t, r), unit)'
plant full-load-refused reference.c 'return load <= s->span;' 'return load < s->span;'
plant load-one-over reference.c 'return load <= s->span;' 'return load <= s->span + 1;'
plant ties-by-rate-first reference.c 'if (x->load != y->load)' 'if (0)'
plant ties-by-first-task reference.c 'return &e->back[MOST_TASKS - 1 - t];' 'return &e->back[t];'
plant ties-by-highest-rate reference.c 'return memcmp(x->back, y->back, MOST_TASKS);' 'return memcmp(y->back, x->back, MOST_TASKS);'
plant miss-when-late-job-ends reference.c 'if (job[t].left != 0 && is_due(s, t, tick))' 'if (job[t].left == 1 && job[t].deadline < tick)'

# The choice
plant job-time-rounded-down reference.c 'return divided_up(s->task[t].cycles, s->rate[r]);' 'return s->task[t].cycles / s->rate[r];'
plant first-unit-of-lowest-rate reference.c 'energy += reduced_energy(s, t, s->rates);' 'energy += reduced_energy(s, t, 1);'
plant stops-only-above reference.c 'return s->slack * rounded >= 2000 * s->tasks;' 'return s->slack * rounded > 2000 * s->tasks;'
plant stops-one-task-early reference.c 'return s->slack * rounded >= 2000 * s->tasks;' 'return s->slack * rounded >= 2000 * (s->tasks - 1);'
plant smallest-unit-2 reference.c '|| unit == 1)' '|| unit <= 2)'
plant every-set-refused reference.c 'if (answer->alike == 0) {' 'if (1) {'
plant all-at-highest-rate reference.c 'uint64_t r = *rate_of(best, t);' 'uint64_t r = s->rates;'
plant load-given-as-energy reference.c 'answer->value[3] += task_energy(s, t, r);' 'answer->value[3] += task_load(s, t, r);'

# Checks and their order
plant slack-to-1001 reference.c 'next_word(&from, 1, 1000);' 'next_word(&from, 1, 1001);'
plant energy-from-0 reference.c \
    's->task[t].energy[r] = next_word(&from, 1, 1000000);' \
    's->task[t].energy[r] = next_word(&from, 0, 1000000);'
plant rates-to-7 reference.c 'next_word(&from, 2, 8);' 'next_word(&from, 2, 7);'
plant rates-from-1 reference.c 'next_word(&from, 2, 8);' 'next_word(&from, 1, 8);'
plant tasks-to-31 reference.c 'next_word(&from, 1, 32);' 'next_word(&from, 1, 31);'
plant period-below-end reference.c 'next_word(&from, 1, 10000000);' 'next_word(&from, 1, 9999999);'
plant cycles-one-more reference.c 'next_word(&from, 1, 4000000000u);' 'next_word(&from, 1, 4000000001u);'
plant energy-one-more reference.c \
    's->task[t].energy[r] = next_word(&from, 1, 1000000);' \
    's->task[t].energy[r] = next_word(&from, 1, 1000001);'
plant left-over-allowed reference.c 'from.at_fault || from.at < from.len ?' 'from.at_fault ?'
plant reads-past-the-set reference.c 'from->at == from->len ||' 'from->at == from->len + 1 ||'
plant equal-rates-allowed reference.c 'if (!(s->rate[r] > s->rate[r - 1]))' 'if (!(s->rate[r] >= s->rate[r - 1]))'
plant rate-number-for-place reference.c 'return refusal(3, 2 + r);' 'return refusal(3, r);'
plant span-below-limit reference.c 'if (running > LONGEST)' 'if (running >= LONGEST)'
plant span-one-over reference.c 'if (running > LONGEST)' 'if (running > LONGEST + 1)'
plant place-of-cycles reference.c 'return refusal(4, place_of(s, t));' 'return refusal(4, place_of(s, t) + 1);'
plant fewer-words-needed reference.c '(4000 * s->tasks / s->slack + 1)' '(4000 * s->tasks / s->slack)'
plant words-rounded-up reference.c '(4000 * s->tasks / s->slack + 1)' '(divided_up(4000 * s->tasks, s->slack) + 1)'
plant work-one-more-asked reference.c 'if (work_len < words_needed(s))' 'if (work_len <= words_needed(s))'
plant plan-list-before-work reference.c 'if (work_len < words_needed(s))' 'if (plan_len >= s->tasks && work_len < words_needed(s))'
plant plan-list-one-short reference.c 'if (plan_len < s->tasks)' 'if (plan_len + 1 < s->tasks)'
plant results-31-allowed reference.c 'if (results_len < RESULT_BYTES)' 'if (results_len < RESULT_BYTES - 1)'
plant results-before-7 reference.c \
    'answer->code = check_lent(&s, plan_len, work_len, results_len);' \
    'answer->code = least_load(&s) > s.span && work_len >= words_needed(&s) ? refusal(7, 0) : check_lent(&s, plan_len, work_len, results_len);'
plant plan-word-m-plus-1 reference.c 'plan[i] > s->rates)' 'plan[i] > s->rates + 1)'
plant plan-word-0 reference.c 'if (plan[i] < 1 ||' 'if (plan[i] < 0 ||'
plant long-plan-by-length reference.c 'lowest = s->tasks;' 'lowest = plan_len;'
plant last-bad-plan-word reference.c 'for (size_t i = plan_len; i-- > 0;)' 'for (size_t i = 0; i < plan_len; i++)'
plant results-before-8 reference.c 'if (answer->code == 0 && results_len < RESULT_BYTES)' 'if (results_len < RESULT_BYTES)'

# The idle energy
plant idle-to-1001 reference.c 's->idle = next_word(&from, 0, 1000);' 's->idle = next_word(&from, 0, 1001);'
plant idle-to-999 reference.c 's->idle = next_word(&from, 0, 1000);' 's->idle = next_word(&from, 0, 999);'
plant idle-from-1 reference.c 's->idle = next_word(&from, 0, 1000);' 's->idle = next_word(&from, 1, 1000);'
plant idle-before-slack reference.c 's->slack = next_word(&from, 1, 1000);
    s->idle = next_word(&from, 0, 1000);' 's->idle = next_word(&from, 0, 1000);
    s->slack = next_word(&from, 1, 1000);'
plant idle-behind-rate-count reference.c 's->idle = next_word(&from, 0, 1000);
    s->rates = next_word(&from, 2, 8);' 's->rates = next_word(&from, 2, 8);
    s->idle = next_word(&from, 0, 1000);'
plant no-idle-word reference.c 's->idle = next_word(&from, 0, 1000);' 's->idle = 0;'
plant selected-as-given reference.c 'return energy > idle ? energy - idle : 0;' 'return energy;'
plant idle-once-for-a-job reference.c 'idle = waiting(s, t, r);' 'idle = s->idle;'
plant idle-put-in reference.c 'return energy > idle ? energy - idle : 0;' 'return energy + idle;'
plant idle-once-for-a-task reference.c \
    'return s->span / s->task[t].period * left_of(s, t, r);' \
    'return task_energy(s, t, r) > waiting(s, t, r) ? task_energy(s, t, r) - waiting(s, t, r) : 0;'
plant at-least-1-is-left reference.c 'return energy > idle ? energy - idle : 0;' 'return energy > idle ? energy - idle : 1;'
plant rounded-before-idle reference.c \
    'divided_up(reduced_energy(s, t, r), unit)' \
    'divided_up(task_energy(s, t, r), unit) - s->span / s->task[t].period * waiting(s, t, r) / unit'
plant first-unit-of-0 reference.c 'while (unit < energy)
        unit *= 2;' 'if (energy == 0)
        unit = 0;
    while (unit < energy)
        unit *= 2;'
plant stops-where-nothing-is-left reference.c 'qualifies(&s, best.rounded) ||' 'best.rounded == 0 || qualifies(&s, best.rounded) ||'
plant idle-not-reported reference.c 'answer->value[3] += s->idle * (s->span - answer->value[1]);' ''
plant idle-for-busy-ticks-too reference.c 's->idle * (s->span - answer->value[1]);' 's->idle * s->span;'
plant idle-for-busy-ticks reference.c 's->idle * (s->span - answer->value[1]);' 's->idle * answer->value[1];'
plant idle-for-a-tick-more reference.c 's->idle * (s->span - answer->value[1]);' 's->idle * (s->span - answer->value[1] + 1);'
plant idle-at-32-bits reference.c 's->idle * (s->span - answer->value[1]);' '(uint32_t)(s->idle * (s->span - answer->value[1]));'
plant reduced-energy-reported reference.c \
    'answer->value[3] += s->idle * (s->span - answer->value[1]);' \
    'answer->value[3] -= s->idle * answer->value[1];'
plant 10-at-equality reference.c 'if (s->task[t].energy[r] < waiting(s, t, r))' 'if (s->task[t].energy[r] <= waiting(s, t, r))'
plant 10-from-2-below reference.c 'if (s->task[t].energy[r] < waiting(s, t, r))' 'if (s->task[t].energy[r] + 1 < waiting(s, t, r))'
plant 10-by-h-alone reference.c 'if (s->task[t].energy[r] < waiting(s, t, r))' 'if (s->task[t].energy[r] < s->idle)'
plant 10-by-full-ticks reference.c \
    'if (s->task[t].energy[r] < waiting(s, t, r))' \
    'if (s->task[t].energy[r] < s->idle * (s->task[t].cycles / s->rate[r]))'
plant 10-at-32-bits reference.c 'if (s->task[t].energy[r] < waiting(s, t, r))' 'if (s->task[t].energy[r] < (uint32_t)waiting(s, t, r))'
plant 10-of-rates-that-fit reference.c \
    'if (s->task[t].energy[r] < waiting(s, t, r))' \
    'if (s->task[t].energy[r] < waiting(s, t, r) && job_time(s, t, r) <= s->task[t].period)'
plant 10-of-the-lowest-rate reference.c 'for (uint64_t r = 1; r <= s->rates; r++)
            if (s->task[t].energy[r] < waiting(s, t, r))' 'for (uint64_t r = 1; r <= 1; r++)
            if (s->task[t].energy[r] < waiting(s, t, r))'
plant 10-of-the-highest-rate reference.c 'for (uint64_t r = 1; r <= s->rates; r++)
            if (s->task[t].energy[r] < waiting(s, t, r))' 'for (uint64_t r = s->rates; r <= s->rates; r++)
            if (s->task[t].energy[r] < waiting(s, t, r))'
plant 10-not-of-the-last-task reference.c 'for (uint64_t t = 0; t < s->tasks; t++)
        for (uint64_t r = 1; r <= s->rates; r++)
            if (s->task[t].energy[r] < waiting(s, t, r))' 'for (uint64_t t = 0; t + 1 < s->tasks; t++)
        for (uint64_t r = 1; r <= s->rates; r++)
            if (s->task[t].energy[r] < waiting(s, t, r))'
plant 10-rates-before-tasks reference.c 'for (uint64_t t = 0; t < s->tasks; t++)
        for (uint64_t r = 1; r <= s->rates; r++)
            if (s->task[t].energy[r] < waiting(s, t, r))' 'for (uint64_t r = 1; r <= s->rates; r++)
        for (uint64_t t = 0; t < s->tasks; t++)
            if (s->task[t].energy[r] < waiting(s, t, r))'
plant 10-highest-rate-first reference.c 'for (uint64_t r = 1; r <= s->rates; r++)
            if (s->task[t].energy[r] < waiting(s, t, r))' 'for (uint64_t r = s->rates; r >= 1; r--)
            if (s->task[t].energy[r] < waiting(s, t, r))'
plant 10-last-task-first reference.c 'for (uint64_t t = 0; t < s->tasks; t++)
        for (uint64_t r = 1; r <= s->rates; r++)
            if (s->task[t].energy[r] < waiting(s, t, r))' 'for (uint64_t t = s->tasks; t-- > 0;)
        for (uint64_t r = 1; r <= s->rates; r++)
            if (s->task[t].energy[r] < waiting(s, t, r))'
plant 10-one-place-early reference.c 'return refusal(10, place_of(s, t) + 2 + r);' 'return refusal(10, place_of(s, t) + 1 + r);'
plant 10-one-place-late reference.c 'return refusal(10, place_of(s, t) + 2 + r);' 'return refusal(10, place_of(s, t) + 3 + r);'
plant 10-with-its-period reference.c 'return refusal(10, place_of(s, t) + 2 + r);' 'return refusal(10, place_of(s, t));'
plant 10-with-the-task reference.c 'return refusal(10, place_of(s, t) + 2 + r);' 'return refusal(10, t + 1);'
plant 10-before-3 reference.c 'if (refused == 0)
        refused = check_3(s);
    if (refused == 0 && call != WALK)
        refused = check_10(s);' 'if (refused == 0 && call != WALK)
        refused = check_10(s);
    if (refused == 0)
        refused = check_3(s);'
plant 10-after-4 reference.c 'if (refused == 0 && call != WALK)
        refused = check_10(s);
    if (refused == 0)
        refused = check_4(s);' 'if (refused == 0)
        refused = check_4(s);
    if (refused == 0 && call != WALK)
        refused = check_10(s);'
plant 10-after-5-and-6 reference.c 'check_set(PLANNER, set, set_len, &s);
    if (answer->code != 0)
        return;
    answer->span = s.span;
    answer->least_load = least_load(&s);
    answer->plans = number_of_plans(&s);
    answer->code = check_lent(&s, plan_len, work_len, results_len);' 'check_set(WALK, set, set_len, &s);
    if (answer->code != 0)
        return;
    answer->span = s.span;
    answer->plans = number_of_plans(&s);
    answer->code = check_lent(&s, plan_len, work_len, results_len);
    if (answer->code == 0)
        answer->code = check_10(&s);'
plant 10-after-7 reference.c 'check_set(PLANNER, set, set_len, &s);' 'check_set(WALK, set, set_len, &s);
    if (answer->code == 0 && (check_lent(&s, plan_len, work_len, results_len) != 0 || least_load(&s) <= s.span))
        answer->code = check_10(&s);'
plant 10-never reference.c 'if (refused == 0 && call != WALK)' 'if (0)'
plant 10-by-the-walk reference.c 'if (refused == 0 && call != WALK)' 'if (refused == 0)'

# The least energy: calls that are as they should be go beyond a margin that is too narrow, and depart from the least of
# other plans or of other energies
plant_in_test margin-of-unit-less-2 calls.c 'return tasks * (unit - 1);' 'return tasks * (unit - 2);'
plant_in_test margin-of-n-less-1 calls.c 'return tasks * (unit - 1);' 'return (tasks - 1) * (unit - 1);'
plant_in_test margin-of-one-task calls.c 'return tasks * (unit - 1);' 'return unit - 1;'
plant_in_test margin-of-1-less calls.c 'return tasks * (unit - 1);' 'return tasks * (unit - 1) - 1;'
plant_in_test margin-of-half-units calls.c 'return tasks * (unit - 1);' 'return tasks * unit / 2;'
plant_in_test least-at-unit-2 calls.c '(unit == 1 ? energy != least' '(unit <= 2 ? energy != least'
plant_in_test slack-of-1-less calls.c '> (1000 + slack) * least' '> (1000 + slack - 1) * least'
plant_in_test least-of-plans-that-miss least.c 'if (then <= s->span)' 'if (1)'
plant_in_test least-below-full-load least.c 'if (then <= s->span)' 'if (then < s->span)'
plant_in_test least-without-idle-ticks least.c 'energy += s->set[1] * (s->span - ticks);' ''
plant_in_test least-idle-for-all-ticks least.c 's->set[1] * (s->span - ticks);' 's->set[1] * s->span;'
plant_in_test least-not-at-highest-rate least.c 'for (uint64_t r = 0; r < s->rates; r++)' 'for (uint64_t r = 0; r < s->rates - 1; r++)'

# Errors on which the stand-in and the reference agree, and which none of the worked cases shows
plant_in_both idle-by-task-in-both 'return s->span / s->task[t].period * left_of(s, t, r);' 'return task_energy(s, t, r) > waiting(s, t, r) ? task_energy(s, t, r) - waiting(s, t, r) : 0;'
plant_in_both rounded-at-8-bits-in-both 'return divided_up(reduced_energy(s, t, r), unit);' 'return (uint8_t)divided_up(reduced_energy(s, t, r), unit);'
plant_in_both fourth-rate-as-third-in-both 'uint64_t energy = s->task[t].energy[r], idle' 'uint64_t energy = s->task[t].energy[r > 3 ? 3 : r], idle'
plant_in_both fourth-task-free-in-both 'return divided_up(reduced_energy(s, t, r), unit);' 'return t < 3 ? divided_up(reduced_energy(s, t, r), unit) : 0;'
plant_in_both unit-2-as-1-in-both 'answer->value[0] = unit;' 'answer->value[0] = unit == 2 && s->tasks > 3 ? 1 : unit;'
plant_in_both unit-a-step-low-in-both 'answer->value[0] = unit;' 'answer->value[0] = unit > 2 && s->tasks > 3 ? unit / 2 : unit;'
plant_in_both highest-for-4-tasks-in-both 'uint64_t r = *rate_of(best, t);' 'uint64_t r = s->tasks > 3 ? s->rates : *rate_of(best, t);'
plant_in_both idle-of-4-tasks-more-in-both 'answer->value[3] += s->idle * (s->span - answer->value[1]);' 'answer->value[3] += s->idle * (s->span - answer->value[1] + (s->tasks > 3));'

plant_in_both_dull dull-fourth-task-free-in-both 'p->units[t][r] = (beyond_waiting(s, t, r) + unit - 1) / unit;' 'p->units[t][r] = t > 2 ? 0 : (beyond_waiting(s, t, r) + unit - 1) / unit;'
plant_in_both_dull dull-third-at-8-bits-in-both 'p->units[t][r] = (beyond_waiting(s, t, r) + unit - 1) / unit;' 'p->units[t][r] = (beyond_waiting(s, t, r) + unit - 1) / unit % (t == 2 ? 256 : UINT64_MAX);'
plant_in_both_dull dull-second-of-6-left-out-in-both 'p->plan[n - 1] = r;' 'if (r == 2 && p->rates > 5)
            continue;
        p->plan[n - 1] = r;'
plant_in_both_dull dull-last-alike-of-4-in-both 'p->alike++;
        return;' 'p->alike++;
        if (p->tasks == 4)
            memcpy(p->best, p->plan, sizeof p->best);
        return;'
plant_in_both_dull dull-stops-early-of-4-in-both 's.slack * p.k < 2000 * s.tasks' 's.slack * p.k < 2000 * s.tasks - 200 * (s.tasks > 3)'
plant_in_both_dull dull-unit-2-as-1-in-both 'answer->value[0] = d;' 'answer->value[0] = d == 2 && s->tasks > 3 ? 1 : d;'
plant_in_both_dull dull-load-of-4-over-in-both 'if (load > p->span)' 'if (load > p->span + (p->tasks > 3))'

# The dull engine
plant dull-task-n-fastest reference.c 'p->plan[n - 1] = r;
        go_through(p, n - 1, units + p->units[n - 1][r], load + p->ticks[n - 1][r]);' 'p->plan[p->tasks - n] = r;
        go_through(p, n - 1, units + p->units[p->tasks - n][r], load + p->ticks[p->tasks - n][r]);'
plant dull-highest-rate-first reference.c \
    'for (uint32_t r = 1; r <= p->rates; r++) {' \
    'for (uint32_t r = (uint32_t)p->rates; r >= 1; r--) {'
plant dull-highest-rate-left-out reference.c \
    'for (uint32_t r = 1; r <= p->rates; r++) {' \
    'for (uint32_t r = 1; r < p->rates; r++) {'
plant dull-lowest-rate-left-out reference.c \
    'for (uint32_t r = 1; r <= p->rates; r++) {' \
    'for (uint32_t r = 2; r <= p->rates; r++) {'
plant dull-last-plan-left-out reference.c 'look_at(p, units, load);
        return;' 'uint64_t t = 0;
        while (t < p->tasks && p->plan[t] == p->rates)
            t++;
        if (t < p->tasks)
            look_at(p, units, load);
        return;'
plant dull-first-plan-left-out reference.c 'look_at(p, units, load);
        return;' 'uint64_t t = 0;
        while (t < p->tasks && p->plan[t] == 1)
            t++;
        if (t < p->tasks)
            look_at(p, units, load);
        return;'
plant dull-last-of-those-alike reference.c 'p->alike++;
        return;' 'p->alike++;
        memcpy(p->best, p->plan, sizeof p->best);
        return;'
plant dull-first-of-equal-energy reference.c \
    '(units > p->k || (units == p->k && load > p->load))' \
    'units >= p->k'
plant dull-last-of-equal-energy reference.c \
    '(units > p->k || (units == p->k && load > p->load))' \
    'units > p->k'
plant dull-load-before-energy reference.c \
    '(units > p->k || (units == p->k && load > p->load))' \
    '(load > p->load || (load == p->load && units > p->k))'
plant dull-first-that-fits reference.c \
    '(units > p->k || (units == p->k && load > p->load))' \
    '1'
plant dull-least-from-the-unit-before reference.c 'unit /= 2;
        pass_through(&s, unit, &p);' 'struct pass before = p;
        unit /= 2;
        pass_through(&s, unit, &p);
        if (before.k <= p.k)
            p = before;'
plant dull-best-of-the-unit-before reference.c 'unit /= 2;
        pass_through(&s, unit, &p);' 'struct pass before = p;
        unit /= 2;
        pass_through(&s, unit, &p);
        memcpy(p.best, before.best, sizeof p.best);'
plant dull-full-load-refused reference.c 'if (load > p->span)' 'if (load >= p->span)'
plant dull-load-one-over reference.c 'if (load > p->span)' 'if (load > p->span + 1)'
plant dull-load-at-32-bits reference.c 'load + p->ticks[n - 1][r]);' '(uint32_t)(load + p->ticks[n - 1][r]));'
plant dull-units-at-32-bits reference.c 'units + p->units[n - 1][r],' '(uint32_t)(units + p->units[n - 1][r]),'
plant dull-energy-at-32-bits reference.c \
    'answer->value[3] += beyond_waiting(s, t, p->best[t]);' \
    'answer->value[3] += (uint32_t)beyond_waiting(s, t, p->best[t]);'
plant dull-rounded-down reference.c '(beyond_waiting(s, t, r) + unit - 1) / unit;' 'beyond_waiting(s, t, r) / unit;'
plant dull-rounded-to-nearest reference.c '(beyond_waiting(s, t, r) + unit - 1) / unit;' '(beyond_waiting(s, t, r) + unit / 2) / unit;'
plant dull-job-time-rounded-down reference.c \
    'p->ticks[t][r] = s->span / s->task[t].period * ((s->task[t].cycles + s->rate[r] - 1) / s->rate[r]);' \
    'p->ticks[t][r] = s->span / s->task[t].period * (s->task[t].cycles / s->rate[r]);'
plant dull-load-of-one-job reference.c \
    'p->ticks[t][r] = s->span / s->task[t].period * (' \
    'p->ticks[t][r] = ('
plant dull-selected-as-given reference.c 'period * (s->task[t].energy[r] - idle);' 'period * s->task[t].energy[r];'
plant dull-idle-not-reported reference.c 'answer->value[3] = s->idle * p->span;' 'answer->value[3] = 0;'
plant dull-idle-for-idle-ticks reference.c 'answer->value[3] = s->idle * p->span;' 'answer->value[3] = s->idle * (p->span - p->load);'
plant dull-first-unit-of-lowest-rate reference.c 'fastest += beyond_waiting(&s, t, s.rates);' 'fastest += beyond_waiting(&s, t, 1);'
plant dull-stops-only-above reference.c 's.slack * p.k < 2000 * s.tasks' 's.slack * p.k <= 2000 * s.tasks'
plant dull-stops-at-the-first-unit reference.c 's.slack * p.k < 2000 * s.tasks && unit > 1' '0'
plant dull-down-to-unit-1 reference.c 's.slack * p.k < 2000 * s.tasks && unit > 1' 'unit > 1'
plant dull-smallest-unit-2 reference.c 's.slack * p.k < 2000 * s.tasks && unit > 1' 's.slack * p.k < 2000 * s.tasks && unit > 2'
plant dull-by-a-first-release reference.c '.span = s->span};' '.span = s->span - s->task[0].first};'
plant dull-every-set-refused reference.c 'if (p.alike == 0) {' 'if (1) {'
plant dull-7-by-the-first-plan reference.c 'if (p.alike == 0) {' 'for (uint64_t t = 0; t < s.tasks; t++)
        p.load += t == 0 ? p.ticks[0][1] - p.load : p.ticks[t][1];
    if (p.load > s.span) {'
plant dull-no-11 reference.c 'if (too_many(s))' 'if (0)'
plant dull-11-at-823543 reference.c 'power <= 1000000; t++)
        power *= s->rates;
    return power > 1000000;' 'power <= 823542; t++)
        power *= s->rates;
    return power > 823542;'
plant dull-11-from-1048577 reference.c 'power <= 1000000; t++)
        power *= s->rates;
    return power > 1000000;' 'power <= 1048576; t++)
        power *= s->rates;
    return power > 1048576;'
plant dull-11-at-32-bits reference.c 't < s->tasks && power <= 1000000; t++)
        power *= s->rates;' 't < s->tasks; t++)
        power = (uint32_t)(power * s->rates);'
plant dull-11-by-n-to-the-m reference.c 't < s->tasks && power <= 1000000; t++)
        power *= s->rates;' 't < s->rates && power <= 1000000; t++)
        power *= s->tasks;'
plant dull-11-by-one-task-less reference.c 't < s->tasks && power' 't + 1 < s->tasks && power'
plant dull-11-by-one-task-more reference.c 't < s->tasks && power' 't <= s->tasks && power'
plant dull-11-with-1000000 reference.c 'return refusal(11, 0);' 'return refusal(11, 1000000);'
plant dull-11-with-n reference.c 'return refusal(11, 0);' 'return refusal(11, s->tasks);'
plant dull-7-for-11 reference.c 'return refusal(11, 0);' 'return refusal(7, 0);'
plant dull-5-for-11 reference.c 'return refusal(11, 0);' 'return refusal(5, words_needed(s));'
plant dull-11-before-4 reference.c 'answer->code = check_set(DULL, set, set_len, &s);' 'answer->code = check_set(DULL, set, set_len, &s);
    if (answer->code >> 32 == 4 && too_many(&s))
        answer->code = refusal(11, 0);'
plant dull-11-before-10 reference.c 'answer->code = check_set(DULL, set, set_len, &s);' 'answer->code = check_set(DULL, set, set_len, &s);
    if (answer->code >> 32 == 10 && too_many(&s))
        answer->code = refusal(11, 0);'
plant dull-11-before-3 reference.c 'answer->code = check_set(DULL, set, set_len, &s);' 'answer->code = check_set(DULL, set, set_len, &s);
    if (answer->code >> 32 == 3 && too_many(&s))
        answer->code = refusal(11, 0);'
plant dull-no-10 reference.c 'check_set(DULL, set, set_len, &s);' 'check_set(WALK, set, set_len, &s);'
plant dull-11-after-the-plan-list reference.c 'if (too_many(s))
        return refusal(11, 0);
    if (s->tasks > plan_len)
        return refusal(6, s->tasks);' 'if (s->tasks > plan_len)
        return refusal(6, s->tasks);
    if (too_many(s))
        return refusal(11, 0);'
plant dull-11-after-the-results reference.c 'if (too_many(s))' 'if (too_many(s) && (s->tasks > plan_len || results_len >= RESULT_BYTES))'
plant dull-11-after-7 reference.c 'if (too_many(s))' 'if (too_many(s) && s->tasks <= plan_len && results_len >= RESULT_BYTES && least_load(s) > s->span)
        return refusal(7, 0);
    if (too_many(s))'
plant dull-plan-list-one-short reference.c 'if (s->tasks > plan_len)' 'if (s->tasks > plan_len + 1)'
plant dull-plan-list-one-more reference.c 'if (s->tasks > plan_len)' 'if (s->tasks >= plan_len)'
plant dull-results-31-allowed reference.c 'return RESULT_BYTES > results_len ?' 'return RESULT_BYTES - 1 > results_len ?'
plant dull-results-33-asked reference.c 'return RESULT_BYTES > results_len ?' 'return RESULT_BYTES >= results_len ?'
plant dull-results-before-the-plan-list reference.c 'if (s->tasks > plan_len)' 'if (RESULT_BYTES > results_len)
        return refusal(6, RESULT_BYTES);
    if (s->tasks > plan_len)'
plant dull-7-before-the-results reference.c 'return RESULT_BYTES > results_len ?' 'if (least_load(s) > s->span)
        return refusal(7, 0);
    return RESULT_BYTES > results_len ?'
plant dull-7-before-the-plan-list reference.c 'if (s->tasks > plan_len)' 'if (least_load(s) > s->span)
        return refusal(7, 0);
    if (s->tasks > plan_len)'

# The walk
plant ties-to-higher-task reference.c 'job[t].deadline < earliest->deadline))' 'job[t].deadline <= earliest->deadline))'
plant highest-task-missed reference.c 'for (uint64_t t = 0; t < s->tasks; t++)
        if (job[t].left != 0' 'for (uint64_t t = s->tasks; t-- > 0;)
        if (job[t].left != 0'
plant no-check-at-the-end reference.c 'if (late != 0) {' 'if (late != 0 && tick < end) {'
plant finished-is-preempted reference.c 'return another && before->left > 0;' 'return another;'
plant preempted-by-task reference.c 'is_preempted(&before, runs);' 'is_preempted(&job[before.task], runs);'
plant idle-one-less reference.c 'value[2] = idle;' 'value[2] = idle - (idle > 0);'

# First releases
plant first-at-the-period reference.c 'next_word(&from, 0, s->task[t].period - 1);' 'next_word(&from, 0, s->task[t].period);'
plant first-to-2-below reference.c \
    'next_word(&from, 0, s->task[t].period - 1);' \
    'next_word(&from, 0, s->task[t].period > 1 ? s->task[t].period - 2 : 0);'
plant first-to-any-tick reference.c 'next_word(&from, 0, s->task[t].period - 1);' 'next_word(&from, 0, UINT32_MAX);'
plant first-by-task-1 reference.c 'next_word(&from, 0, s->task[t].period - 1);' 'next_word(&from, 0, s->task[0].period - 1);'
plant first-from-1 reference.c 'next_word(&from, 0, s->task[t].period - 1);' 'next_word(&from, 1, s->task[t].period - 1);'
plant first-by-half-a-word reference.c 's->task[t].first = next_word(&from, 0, s->task[t].period - 1);' 'next_word(&from, 0, UINT32_MAX);
        if (!from.at_fault && (uint16_t)set[from.at - 1] >= s->task[t].period) {
            from.at--;
            from.at_fault = 1;
        }
        s->task[t].first = from.at_fault ? 0 : (uint16_t)set[from.at - 1];'
plant no-first-word reference.c 's->task[t].first = next_word(&from, 0, s->task[t].period - 1);' 's->task[t].first = 0;'
plant first-before-cycles reference.c 's->task[t].cycles = next_word(&from, 1, 4000000000u);
        s->task[t].first = next_word(&from, 0, s->task[t].period - 1);' 's->task[t].first = next_word(&from, 0, s->task[t].period - 1);
        s->task[t].cycles = next_word(&from, 1, 4000000000u);'
plant planned-to-l-and-first reference.c 'return load <= s->span;' 'return load <= s->span + s->task[0].first;'
plant planned-for-2-l reference.c 'answer->value[2] = s->span;' 'answer->value[2] = s->task[0].first > 0 ? 2 * s->span : s->span;'
plant first-does-not-count reference.c 'uint64_t first = s->task[t].first;' 'uint64_t first = 0;'
plant released-at-multiples reference.c '(uint32_t)(tick - first) %' '(uint32_t)tick %'
plant released-at-first-then-multiples reference.c \
    'return tick >= first && (uint32_t)(tick - first) % (uint32_t)s->task[t].period == 0;' \
    'return tick == first || (tick > first && tick % s->task[t].period == 0);'
plant released-a-period-late reference.c 'return tick >= first &&' 'return tick >= first + (first > 0) * s->task[t].period &&'
plant released-one-tick-late reference.c 'uint64_t first = s->task[t].first;' 'uint64_t first = s->task[t].first + (s->task[t].first > 0);'
plant deadline-from-tick-0 reference.c \
    'job[t].deadline = tick + s->task[t].period;' \
    'job[t].deadline = (tick / s->task[t].period + 1) * s->task[t].period;'
plant first-put-to-deadline reference.c \
    'job[t].deadline = tick + s->task[t].period;' \
    'job[t].deadline = tick + s->task[t].period + s->task[t].first;'
plant walked-to-l reference.c 'return 2 * s->span;' 'return s->span;'
plant walked-to-2-l-always reference.c 'return 2 * s->span;
    return s->span;' 'return 2 * s->span;
    return 2 * s->span;'
plant walked-to-3-l reference.c 'return 2 * s->span;' 'return 3 * s->span;'
plant walked-to-l-and-first reference.c 'return 2 * s->span;' 'return s->span + s->task[t].first;'
plant walked-to-2-l-and-first reference.c 'return 2 * s->span;' 'return 2 * s->span + s->task[t].first;'
plant walked-to-2-l-by-task-1 reference.c 'for (uint64_t t = 0; t < s->tasks; t++)
        if (s->task[t].first > 0)' 'for (uint64_t t = 0; t < 1; t++)
        if (s->task[t].first > 0)'
plant walked-to-2-l-if-all-above reference.c 'if (s->task[t].first > 0)
            return 2 * s->span;
    return s->span;' 'if (s->task[t].first == 0)
            return s->span;
    return 2 * s->span;'
plant missed-up-to-l reference.c 'if (late != 0) {' 'if (late != 0 && tick <= s->span) {'
plant no-check-at-2-l reference.c 'if (late != 0) {' 'if (late != 0 && (tick < end || end == s->span)) {'
plant unfinished-at-2-l-missed reference.c \
    'if (job[t].left != 0 && is_due(s, t, tick))' \
    'if (job[t].left != 0 && (is_due(s, t, tick) || tick == last_tick(s)))'
plant unfinished-asked-late reference.c 'preemptions += (uint64_t)is_preempted(&before, runs);' 'static uint64_t ran_at;
        if (ran_at + 1 == tick)
            before.left = job[before.task].left;
        ran_at = tick;
        preemptions += (uint64_t)is_preempted(&before, runs);'

# The generator
plant draw-before-the-step reference.c '*state = *state * 1664525 % WRAP;
    *state = (*state + 1013904223) % WRAP;
    return *state / 65536;' 'uint64_t old = *state;
    *state = *state * 1664525 % WRAP;
    *state = (*state + 1013904223) % WRAP;
    return old / 65536;'
plant added-before-multiplying reference.c '*state = *state * 1664525 % WRAP;
    *state = (*state + 1013904223) % WRAP;' '*state = (*state + 1013904223) % WRAP;
    *state = *state * 1664525 % WRAP;'
plant multiplier-one-less reference.c '*state * 1664525 % WRAP' '*state * 1664524 % WRAP'
plant added-one-more reference.c '(*state + 1013904223) % WRAP' '(*state + 1013904224) % WRAP'
plant sum-not-wrapped reference.c '*state = (*state + 1013904223) % WRAP;' '*state = *state + 1013904223;'
plant wrapped-at-31-bits reference.c '#define WRAP 4294967296u' '#define WRAP 2147483648u'
plant low-half-drawn reference.c 'return *state / 65536;' 'return *state % 65536;'
plant draw-rounded-up reference.c 'return *state / 65536;' 'return divided_up(*state, 65536);'
plant draw-divided-by-65535 reference.c 'return *state / 65536;' 'return *state / 65535;'
plant entry-mod-7 reference.c 'next_draw(state) % 8;' 'next_draw(state) % 7;'
plant entry-from-1 reference.c 'task[0] = periods[entry];' 'task[0] = periods[(entry + 7) % 8];'
plant another-entry reference.c '50, 100, 200, 400};' '50, 100, 250, 400};'
plant cycles-from-0 reference.c '1 + next_draw(state) % 1000;' 'next_draw(state) % 1000;'
plant cycles-to-999 reference.c '1 + next_draw(state) % 1000;' '1 + next_draw(state) % 999;'
plant sum-before-mod-1000 reference.c '1 + next_draw(state) % 1000;' '(1 + next_draw(state)) % 1000;'
plant energy-to-9 reference.c '2 + next_draw(state) % 9;' '2 + next_draw(state) % 8;'
plant energy-from-1 reference.c '2 + next_draw(state) % 9;' '1 + next_draw(state) % 9;'
plant energy-as-the-rate reference.c '(factor * j * j);' '(factor * j);'
plant energy-drawn-by-rate reference.c \
    'task[2 + j] = (uint32_t)(factor * j * j);' \
    'task[2 + j] = (uint32_t)((j == 1 ? factor : 2 + next_draw(state) % 9) * j * j);'
plant cycles-drawn-first reference.c 'uint64_t entry = next_draw(state) % 8;
    uint64_t cycles = 1 + next_draw(state) % 1000;' 'uint64_t cycles = 1 + next_draw(state) % 1000;
    uint64_t entry = next_draw(state) % 8;'
plant energy-before-cycles reference.c 'uint64_t cycles = 1 + next_draw(state) % 1000;
    uint64_t factor = 2 + next_draw(state) % 9;' 'uint64_t factor = 2 + next_draw(state) % 9;
    uint64_t cycles = 1 + next_draw(state) % 1000;'
plant a-step-before-the-first reference.c 'uint64_t state = seed;' 'uint64_t state = (seed * 1664525u + 1013904223u) % WRAP;'
plant seed-goes-on reference.c 'uint64_t state = seed;' 'static uint64_t last;
    uint64_t state = seed == 0 ? last : seed;
    last = seed;'
plant each-task-from-the-seed reference.c \
    'generate_task(&state, &set[9 + 8 * t]);' \
    'state = seed + t, generate_task(&state, &set[9 + 8 * t]);'
plant generated-slack-1000 reference.c 'set[0] = 100;' 'set[0] = 1000;'
plant generated-idle-of-1 reference.c 'set[1] = 0;' 'set[1] = 1;'
plant generated-idle-untouched standin.c 'memcpy(set, answer.set, answer.set_words * sizeof *set);' 'if (answer.code == 0) answer.set[1] = set[1];
    memcpy(set, answer.set, answer.set_words * sizeof *set);'
plant generated-first-of-1 reference.c 'task[2] = 0; ' 'task[2] = 1; '
plant generated-first-untouched standin.c 'memcpy(set, answer.set, answer.set_words * sizeof *set);' 'if (answer.code == 0) answer.set[11] = set[11];
    memcpy(set, answer.set, answer.set_words * sizeof *set);'
plant generated-rates-of-10 reference.c 'set[2 + j] = 100 * j;' 'set[2 + j] = 10 * j;'
plant generated-n-of-0 reference.c 'if (tasks < 1 || tasks > 32)' 'if (tasks > 32)'
plant generated-n-of-33 reference.c 'if (tasks < 1 || tasks > 32)' 'if (tasks < 1 || tasks > 33)'
plant generated-n-to-31 reference.c 'if (tasks < 1 || tasks > 32)' 'if (tasks < 1 || tasks > 31)'
plant generated-n-by-its-byte reference.c 'answer->code = check_generate(' 'tasks &= 255;
    answer->code = check_generate('
plant generated-n-signed reference.c 'if (tasks < 1 || tasks > 32)' 'if (tasks == 0 || (int32_t)tasks > 32)'
plant generated-n-for-place reference.c 'return refusal(2, 0);' 'return refusal(2, tasks);'
plant generated-place-of-n reference.c 'return refusal(2, 0);' 'return refusal(2, 8);'
plant generated-6-before-2 reference.c 'if (tasks < 1 || tasks > 32)
        return refusal(2, 0);
    if (set_len < generated_words(tasks))
        return refusal(6, generated_words(tasks));' 'if (set_len < generated_words(tasks))
        return refusal(6, generated_words(tasks));
    if (tasks < 1 || tasks > 32)
        return refusal(2, 0);'
plant generated-results-first reference.c 'if (tasks < 1 || tasks > 32)' 'if (results_len < 32)
        return refusal(6, 32);
    if (tasks < 1 || tasks > 32)'
plant generated-results-second reference.c 'if (set_len < generated_words(tasks))' 'if (results_len < 32)
        return refusal(6, 32);
    if (set_len < generated_words(tasks))'
plant generated-one-more-asked reference.c 'if (set_len < generated_words(tasks))' 'if (set_len <= generated_words(tasks))'
plant generated-6-with-too-few reference.c 'return refusal(6, generated_words(tasks));' 'return refusal(6, generated_words(tasks) - 1);'
plant generated-6-with-what-lacks reference.c \
    'return refusal(6, generated_words(tasks));' \
    'return refusal(6, generated_words(tasks) - set_len);'
plant generated-31-bytes-allowed reference.c 'return results_len < RESULT_BYTES ?' 'return results_len < RESULT_BYTES - 1 ?'
plant generated-length-one-short reference.c 'answer->value[0] = answer->set_words;' 'answer->value[0] = answer->set_words - 1;'
plant generated-n-for-length reference.c 'answer->value[0] = answer->set_words;' 'answer->value[0] = tasks;'
plant generated-second-result reference.c 'answer->value[0] = answer->set_words;' 'answer->value[0] = answer->set_words;
    answer->value[1] = tasks;'

# What is written
plant plan-word-past-n standin.c \
    'memcpy(plan, answer.plan, answer.plan_words * sizeof *plan);' \
    'memcpy(plan, answer.plan, (answer.plan_words + 1) * sizeof *plan);'
plant plan-untouched standin.c 'memcpy(plan, answer.plan, answer.plan_words * sizeof *plan);' ''
plant plan-from-0 standin.c \
    'memcpy(plan, answer.plan, answer.plan_words * sizeof *plan);' \
    'for (size_t t = 0; t < answer.plan_words; t++) plan[t] = answer.plan[t] - 1;'
plant work-word-past-w standin.c \
    'memset(work, 0, answer.work_words * sizeof *work);' \
    'memset(work, 0, (answer.work_words + 1) * sizeof *work);'
plant work-word-left standin.c \
    'memset(work, 0, answer.work_words * sizeof *work);' \
    'memset(work, 0, (answer.work_words - 1) * sizeof *work);'
plant work-all-cleared standin.c 'memset(work, 0, answer.work_words * sizeof *work);' 'memset(work, 0, work_len * sizeof *work);'
plant work-before-the-list standin.c \
    'memset(work, 0, answer.work_words * sizeof *work);' \
    'memset(work - 1, 0, (answer.work_words + 1) * sizeof *work);'
plant writes-when-refusing-7 standin.c 'if (answer.code != 0)
        return answer.code;' 'if (answer.code >> 32 == 7)
        work[0] = 0;
    if (answer.code != 0)
        return answer.code;'
plant writes-when-refusing-10 standin.c 'if (answer.code != 0)
        return answer.code;' 'if (answer.code >> 32 == 10 && plan_len > 0)
        plan[0] = 0;
    if (answer.code != 0)
        return answer.code;'
plant results-when-refusing standin.c 'if (answer.code == 0)' 'if (answer.code == 0 || (results_len >= 32 && answer.code >> 32 == 8))'
plant highest-byte-first standin.c '(uint8_t)(value[k] >> (8 * i))' '(uint8_t)(value[k] >> (8 * (7 - i)))'
plant four-bytes-of-each standin.c 'for (int i = 0; i < 8; i++)' 'for (int i = 0; i < 4; i++)'
plant byte-past-results standin.c 'for (int k = 0; k < 4; k++)' 'results[32] = 0;
    for (int k = 0; k < 4; k++)'
plant reads-its-room standin.c 'memset(work, 0, answer.work_words * sizeof *work);' 'answer.value[0] += work[0] == 1;
    memset(work, 0, answer.work_words * sizeof *work);'
plant set-changed standin.c 'memset(work, 0, answer.work_words * sizeof *work);' 'memset(work, 0, answer.work_words * sizeof *work);
    ((uint32_t *)set)[set_len - 1] ^= 1;'
plant walk-plan-changed standin.c 'expect_walk(set, set_len, plan, plan_len, results_len, &answer);' 'expect_walk(set, set_len, plan, plan_len, results_len, &answer);
    ((uint32_t *)plan)[plan_len] = 0;'
plant dull-plan-word-past-n standin.c \
    't < answer.plan_words; t++)' \
    't < answer.plan_words + (answer.plan_words > 0); t++)'
plant dull-plan-word-left standin.c 't < answer.plan_words; t++)' 't + 1 < answer.plan_words; t++)'
plant dull-plan-untouched standin.c 'plan[t] = answer.plan[t];' ';'
plant dull-plan-from-0 standin.c 'plan[t] = answer.plan[t];' 'plan[t] = answer.plan[t] - 1;'
plant dull-plan-backwards standin.c 'plan[t] = answer.plan[t];' 'plan[t] = answer.plan[answer.plan_words - 1 - t];'
plant dull-plan-list-cleared standin.c 'plan[t] = answer.plan[t];' 'plan[t] = answer.plan[t];
    for (size_t t = answer.plan_words; t < plan_len && answer.code == 0; t++)
        plan[t] = 0;'
plant dull-writes-when-refusing-7 standin.c 'expect_dull(set, set_len, plan_len, results_len, &answer);' 'expect_dull(set, set_len, plan_len, results_len, &answer);
    if (answer.code >> 32 == 7)
        plan[0] = 1;'
plant dull-writes-when-refusing-6 standin.c 'expect_dull(set, set_len, plan_len, results_len, &answer);' 'expect_dull(set, set_len, plan_len, results_len, &answer);
    if (answer.code >> 32 == 6 && plan_len > 0)
        plan[0] = 1;'
plant dull-writes-when-refusing-11 standin.c 'expect_dull(set, set_len, plan_len, results_len, &answer);' 'expect_dull(set, set_len, plan_len, results_len, &answer);
    if (answer.code >> 32 == 11 && plan_len > 0)
        plan[0] = 1;'
plant dull-results-when-refusing-7 standin.c \
    'if (answer.plan_words > 0)' \
    'if (answer.plan_words > 0 || answer.code >> 32 == 7)'
plant dull-results-when-refusing-11 standin.c \
    'if (answer.plan_words > 0)' \
    'if (answer.plan_words > 0 || (answer.code >> 32 == 11 && results_len >= 32))'
plant dull-results-untouched standin.c 'if (answer.plan_words > 0)' 'if (0)'
plant dull-reads-its-room standin.c 'plan[t] = answer.plan[t];' 'plan[t] = answer.plan[t] + (plan[t] == answer.plan[t]);'
plant dull-set-changed standin.c 'if (answer.plan_words > 0)' 'if (answer.plan_words > 0)
        ((uint32_t *)set)[1] ^= 1;
    if (answer.plan_words > 0)'
plant generated-word-past standin.c \
    'memcpy(set, answer.set, answer.set_words * sizeof *set);' \
    'memcpy(set, answer.set, (answer.set_words + (answer.set_words > 0)) * sizeof *set);'
plant generated-word-less standin.c \
    'memcpy(set, answer.set, answer.set_words * sizeof *set);' \
    'memcpy(set, answer.set, (answer.set_words - (answer.set_words > 0)) * sizeof *set);'
plant generated-room-cleared standin.c 'memcpy(set, answer.set, answer.set_words * sizeof *set);' 'if (answer.code == 0) memset(set, 0, set_len * sizeof *set);
    memcpy(set, answer.set, answer.set_words * sizeof *set);'
plant generated-when-refusing standin.c 'memcpy(set, answer.set, answer.set_words * sizeof *set);' 'if (answer.code >> 32 == 6 && set_len > 0) set[0] = 100;
    memcpy(set, answer.set, answer.set_words * sizeof *set);'
plant generated-results-refusing standin.c \
    'if (answer.set_words > 0)' \
    'if (answer.set_words > 0 || (results_len >= 32 && answer.code >> 32 == 6))'
plant generated-results-untouched standin.c 'if (answer.set_words > 0)' 'if (0)'
plant generated-reads-its-room standin.c 'memcpy(set, answer.set, answer.set_words * sizeof *set);' 'if (answer.code == 0) answer.set[9] += set[9] == 0;
    memcpy(set, answer.set, answer.set_words * sizeof *set);'

echo "$planted errors planted, $missed not found"
[ "$missed" -eq 0 ]
