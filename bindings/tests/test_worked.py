"""Texts that were worked by hand, and what `wcpwatch single` answers."""

from __future__ import annotations

import pytest

import wullaphi

# The text, the status, and what is printed.
WORKED = [
    pytest.param(
        b'wcp 2\nprocs 2\n',
        2,
        b'wcpwatch: line 1: header\n',
        id="another_version"),
    pytest.param(
        b'',
        2,
        b'wcpwatch: line 1: header\n',
        id="empty_text"),
    pytest.param(
        b'wcp 1\nprocs 2\np 0 send 1\np 1 true\np 1 recv 0\np 1 true\np 0 true\n',
        0,
        b'found 1 0\nprocess 0 emitted 1 taken 1\nprocess 1 emitted 2 taken 2\ntotal emitted 3 taken 3\n',
        id="flag_event_same_workload"),
    pytest.param(
        b'wcp 1\nprocs 1\np 0 true\ncap 8\n',
        2,
        b'wcpwatch: line 4: line\n',
        id="head_line_after_step"),
    pytest.param(
        b'wcp 1\nprocs 2\np 0 true',
        2,
        b'wcpwatch: line 3: line\n',
        id="last_line_without_lf"),
    pytest.param(
        b'wcp 1\nprocs 02\n',
        2,
        b'wcpwatch: line 2: number\n',
        id="leading_zero"),
    pytest.param(
        b'wcp 1\nprocs 2\np 0 true\np 0 send 1\np 0 true\np 1 true\np 1 recv 0\n',
        0,
        b'found 0 0\nprocess 0 emitted 2 taken 2\nprocess 1 emitted 1 taken 1\ntotal emitted 3 taken 3\n',
        id="least_of_two_cuts"),
    pytest.param(
        b'wcp 1\nprocs 2\np 0 recv 1\np 1 recv 0\n',
        2,
        b'wcpwatch: line 3: stuck\n',
        id="mutual_receive_is_stuck"),
    pytest.param(
        b'wcp 1\nprocs 2\np 0 recv 1\np 1 recv 0\n',
        2,
        b'wcpwatch: line 3: stuck\n',
        id="mutual_receive_is_stuck_again"),
    pytest.param(
        b'wcp 1\nprocs 1\n',
        1,
        b'none\nprocess 0 emitted 0 taken 0\ntotal emitted 0 taken 0\n',
        id="no_steps"),
    pytest.param(
        b'wcp 1\nprocs 2\np 2 true\n',
        2,
        b'wcpwatch: line 3: process\n',
        id="no_such_process"),
    pytest.param(
        b'wcp 1\nprocs 2\np 0 maybe\n',
        2,
        b'wcpwatch: line 3: line\n',
        id="no_truth_value"),
    pytest.param(
        b'wcp 1\nprocs 1\np 0 true\n',
        0,
        b'found 0\nprocess 0 emitted 1 taken 1\ntotal emitted 1 taken 1\n',
        id="one_true_state"),
    pytest.param(
        b'wcp 1\nprocs 2\np 0 true\np 0 send 1\np 1 recv 0\np 1 true\n',
        1,
        b'none\nprocess 0 emitted 1 taken 1\nprocess 1 emitted 1 taken 1\ntotal emitted 2 taken 2\n',
        id="only_pair_ordered"),
    pytest.param(
        b'wcp 1\n',
        2,
        b'wcpwatch: line 2: header\n',
        id="only_version_line"),
    pytest.param(
        b'wcp 1\nprocs 3\np 0 true\np 0 send 1\np 1 true\np 1 recv 0\np 1 send 2\np 2 recv 1\np 2 true\n',
        1,
        b'none\nprocess 0 emitted 1 taken 1\nprocess 1 emitted 1 taken 1\nprocess 2 emitted 1 taken 1\n'
        b'total emitted 3 taken 3\n',
        id="order_through_third"),
    pytest.param(
        b'wcp 1\nprocs 2\np x true\n',
        2,
        b'wcpwatch: line 3: number\n',
        id="process_not_a_number"),
    pytest.param(
        b'wcp 1\nprocs 2\np 0 true\np 0 true\np 0 true\np 1 true\n',
        0,
        b'found 0 0\nprocess 0 emitted 1 taken 1\nprocess 1 emitted 1 taken 1\ntotal emitted 2 taken 2\n',
        id="repeats_emit_once"),
    pytest.param(
        b'wcp 1\nprocs 3\np 0 true\np 0 false\np 0 send 1\np 1 recv 0\np 1 true\np 1 false\np 1 send 2\n'
        b'p 2 recv 1\np 2 true\np 2 false\np 2 send 0\np 0 recv 2\np 0 true\np 0 false\np 0 send 1\np 1 recv 0\n'
        b'p 1 true\np 1 false\np 1 send 2\np 2 recv 1\np 2 true\np 2 false\n',
        1,
        b'none\nprocess 0 emitted 2 taken 2\nprocess 1 emitted 2 taken 2\nprocess 2 emitted 2 taken 2\n'
        b'total emitted 6 taken 6\n',
        id="ring_three_by_two_single"),
    pytest.param(
        b'wcp 1\nprocs 2\np 1 true\np 1 false\np 0 true\np 0 false\np 0 send 1\np 1 recv 0\np 1 true\n'
        b'p 1 false\n',
        0,
        b'found 0 0\nprocess 0 emitted 1 taken 1\nprocess 1 emitted 2 taken 2\ntotal emitted 3 taken 3\n',
        id="ring_with_fault_found"),
    pytest.param(
        b'wcp 1\nprocs 2\np 1 send 0\np 0 recv 1\np 0 recv 1\n',
        2,
        b'wcpwatch: line 5: stuck\n',
        id="second_receive_is_stuck"),
    pytest.param(
        b'wcp 1\nprocs 2\np 0 send 0\n',
        2,
        b'wcpwatch: line 3: process\n',
        id="send_to_itself"),
    pytest.param(
        b'wcp 1\nprocs 17\n',
        2,
        b'wcpwatch: line 2: plan\n',
        id="seventeen_processes"),
    pytest.param(
        b'wcp 1\nprocs 2\np 0 true\np 0 send 1\np 0 true\np 1 recv 0\np 1 true\n',
        0,
        b'found 1 1\nprocess 0 emitted 2 taken 2\nprocess 1 emitted 1 taken 1\ntotal emitted 3 taken 3\n',
        id="true_again_after_send"),
    pytest.param(
        b'wcp 1\nprocs 2\np 0 true\np 1 true\n',
        0,
        b'found 0 0\nprocess 0 emitted 1 taken 1\nprocess 1 emitted 1 taken 1\ntotal emitted 2 taken 2\n',
        id="two_concurrent"),
    pytest.param(
        b'wcp 1\nprocs 2\ncap 1025\n',
        2,
        b'wcpwatch: line 3: plan\n',
        id="cap_too_large"),
    pytest.param(
        b'wcp 1\nprocs 2\ncap 1\nrelay 0 root\nrelay 1 0\nrelay 2 1\nrelay 3 2\nrelay 4 3\nrelay 5 4\n'
        b'relay 6 5\nrelay 7 6\nattach 0 7\nattach 1 7\np 0 true\np 0 send 1\np 0 true\np 1 recv 0\np 1 true\n',
        0,
        b'found 1 1\nprocess 0 emitted 2 taken 2\nprocess 1 emitted 1 taken 1\ntotal emitted 3 taken 3\n',
        id="eight_relays_in_a_chain_single"),
    pytest.param(
        b'wcp 1\nprocs 2\nhold 4\ncap 8\n',
        2,
        b'wcpwatch: line 4: line\n',
        id="head_out_of_order"),
    pytest.param(
        b'wcp 1\nprocs 2\nrelay 0 root\nattach 0 0\np 0 true\n',
        2,
        b'wcpwatch: line 4: plan\n',
        id="unattached_process"),
]


@pytest.mark.parametrize(("text", "status", "printed"), WORKED)
def test_single(text: bytes, status: int, printed: bytes) -> None:
    assert wullaphi.single(text) == (status, printed)
