#!/bin/sh
# tools/refuse_all.sh: plays worked examples and other scripts with each of their allocations refused in
# turn: the event then finds no memory and changes nothing, and the others are answered as where it isn't there. So
# it does with tests of maps, of all orders of a scene, of the pipe and of a world that callers share. The gate, or
# `make build` and `rt test` in crates/am_text_tests, am_explore_tests and am_thread_tests, has built what plays them. The
# last line counts the scripts and tests.
set -u
. "$(dirname "$0")/common.sh"
expect_nothing "$@"
passed=0
failed=0
while read -r name test; do
    if "$(dirname "$0")/refuse_each.sh" "$name" ${test:+"$test"} < /dev/null; then
        passed=$((passed + 1))
    else
        failed=$((failed + 1))
    fi
done << 'SCRIPTS'
one_key
two_namespaces
reduced_copy_of_a_namespace
expiry_and_a_walk_that_waits
death_and_reattachment
a_failure_that_lasts
a_slave_on_a_shared_mount
an_expiry_and_a_death_among_shared_mounts
a_use_and_a_wait
many_mounts_on_one_mount
events_said_twice
a_head_of_two_maps
am_text_tests tests::memory::memory_runs_out_at_the_line_that_takes_it
am_explore_tests tests::orders::out_of_memory_is_all_that_is_told
am_thread_tests tests::rows::one_place
am_thread_tests tests::callers::one_caller
am_thread_tests tests::callers::two_callers_in_turn
SCRIPTS
echo "$passed passed, $failed failed"
[ "$failed" -eq 0 ]
