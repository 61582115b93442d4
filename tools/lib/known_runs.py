"""Texts of runs that were worked out by hand: those of docs/FORMATS.md, of the examples, and of other rows.

tools/rows holds its own evaluator to them.
"""


def opening(count, followers=None, first=2):
    """Of so many nodes, all in sync, node 0 is elected and leads; then so many others follow it, all where none is given.
    Their answers stand in the lines from the first one on."""
    isr = ",".join(map(str, range(count)))
    follows = ["follows 0 epoch 0"] * (count - 1 if followers is None else followers)
    answers = [f"record leader 0 epoch 0 isr {isr} version 1", "leads epoch 0 from 0", *follows]
    return "".join(f"{line} {answer}\n" for line, answer in enumerate(answers, first))


# A follower's first fetch, of one batch.
FETCHED = opening(2) + """5 at 0
6 sent 0 asks from 0 no epoch
7 sent 1 batches 1 mark 0
8 end 1 mark 0
"""

# The follower is elected, with a batch on the deposed leader alone.
ELECTED = FETCHED + """9 at 1
10 record leader 1 epoch 1 isr 0,1 version 2
11 leads epoch 1 from 1
"""

# What is on a deposed leader alone lies where the next one's watermark has passed already; the answer that their logs part is sent.
DEPOSED = ELECTED + """12 sent 2 proposes isr 1 version 2
13 sent 3 record leader 1 epoch 1 isr 1 version 3
14 isr 1 version 3
15 at 1
16 mark 2
17 follows 1 epoch 1
18 sent 4 asks from 2 epoch 0
19 sent 5 diverges epoch 0 end 1
"""

# Command line, and what it leaves.
RUNS = {
    "run made_example_first.script": opening(1) + """4 at 0
5 read 0
6 mark 1
7 read 1 0=61
8 node 0 life 0 end 1 mark 1 stable 1
status 0
""",
    "run refused_events.script": """2 record leader 0 epoch 0 isr 0 version 1
3 F15 NotLeader
4 leads epoch 0 from 0
5 F22 StaleRecord
6 at 0
7 read 0
8 F16 OffsetOutOfRange
9 mark 1
10 node 0 life 0 end 1 mark 1 stable 1
status 1
""",
    "run batch_comes_twice.script": opening(1) + """4 at 0
5 duplicate 0
6 F12 OutOfOrderSequence
7 node 0 life 0 end 1 mark 0 stable 0
8 mark 1
9 read 1 0=61
status 1
""",
    "run producers_by_the_table.script": opening(1) + """4 F12 OutOfOrderSequence
5 at 0
6 F12 OutOfOrderSequence
7 duplicate 0
8 F12 OutOfOrderSequence
9 at 2
10 F11 InvalidProducerEpoch
11 duplicate 2
12 record leader 0 epoch 1 isr 0 version 2
13 leads epoch 1 from 3
14 duplicate 2
15 F10 BadProducerFields
16 at 3
17 node 0 life 0 end 4 mark 0 stable 0
status 1
""",
    "run aborted_transaction.script": opening(1) + """4 at 0
5 at 1
6 mark 2
7 read 0
8 at 2
9 node 0 life 0 end 3 mark 2 stable 0
10 mark 3
11 read 1 1=62
12 read 2 0=61 1=62
13 at 3
14 F14 CoordinatorFenced
status 1
""",
    "run two_transactions.script": opening(1) + """4 at 0
5 at 1
6 F13 InvalidTxnState
7 F13 InvalidTxnState
8 at 2
9 mark 3
10 read 0
11 node 0 life 0 end 3 mark 3 stable 0
12 at 3
13 mark 4
14 read 1 0=61
15 F14 CoordinatorFenced
status 1
""",
    "run made_example_replicate.script": opening(3, first=3) + """7 at 0
8 at 1
10 sent 0 asks from 0 no epoch
11 sent 1 batches 2 mark 0
12 end 2 mark 0
14 F29 StaleAnswer
16 sent 2 asks from 0 no epoch
17 sent 3 batches 2 mark 0
18 end 2 mark 0
20 mark 0
21 sent 4 asks from 2 epoch 0
22 sent 5 batches 0 mark 0
23 sent 6 asks from 2 epoch 0
24 sent 7 batches 0 mark 0
25 mark 2
27 sent 8 batches 0 mark 2
28 end 2 mark 2
30 read 2 0=61 1=62
31 read 2 0=61 1=62
32 read 0
33 sent 9 asks from 2 epoch 0
34 sent 10 batches 0 mark 2
35 end 2 mark 2
36 read 2 0=61 1=62
status 1
""",
    "run made_example_failover.script": opening(2, first=3) + """6 at 0
7 sent 0 asks from 0 no epoch
8 sent 1 batches 1 mark 0
9 end 1 mark 0
10 sent 2 asks from 1 epoch 0
11 sent 3 batches 0 mark 0
12 mark 1
13 at 1
15 record leader 1 epoch 1 isr 0,1 version 2
16 leads epoch 1 from 1
17 at 1
19 at 2
20 mark 1
22 follows 1 epoch 1
23 sent 4 asks from 3 epoch 0
24 sent 5 diverges epoch 0 end 1
25 cut 1
27 sent 6 asks from 1 epoch 0
28 sent 7 batches 1 mark 0
29 end 2 mark 1
30 sent 8 asks from 2 epoch 1
31 sent 9 batches 0 mark 0
32 mark 2
33 sent 10 asks from 2 epoch 1
34 sent 11 batches 0 mark 2
35 end 2 mark 2
37 read 2 0=61 1=63
38 read 2 0=61 1=63
40 record leader 0 epoch 2 isr 0,1 version 3
41 leads epoch 2 from 2
42 F17 FencedLeaderEpoch
43 F29 StaleAnswer
status 1
""",
    "run first_fetch.script": FETCHED + "status 0\n",
    "run election_of_a_follower.script": ELECTED + "status 0\n",
    "run answer_comes_twice.script": FETCHED + """9 F29 StaleAnswer
10 mark 0
11 sent 2 asks from 1 epoch 0
12 sent 3 batches 0 mark 0
13 mark 1
14 end 1 mark 0
status 1
""",
    "run followers_of_one_leader.script": opening(3) + """6 at 0
7 at 1
8 sent 0 asks from 0 no epoch
9 sent 1 batches 2 mark 0
10 end 2 mark 0
11 sent 2 asks from 2 epoch 0
12 sent 3 batches 0 mark 0
13 mark 0
14 sent 4 asks from 0 no epoch
15 sent 5 batches 2 mark 0
16 mark 0
17 end 2 mark 0
18 sent 6 asks from 2 epoch 0
19 sent 7 batches 0 mark 0
20 mark 2
21 end 2 mark 0
22 sent 8 batches 2 mark 2
23 F29 StaleAnswer
24 F15 NotLeader
25 F15 NotLeader
status 1
""",
    "run fenced_by_leader_epoch.script": opening(2) + """5 sent 0 asks from 0 no epoch
6 record leader 0 epoch 1 isr 0,1 version 2
7 follows 0 epoch 1
8 sent 1 asks from 0 no epoch
9 at 0
10 F18 UnknownLeaderEpoch
11 leads epoch 1 from 1
12 F17 FencedLeaderEpoch
status 1
""",
    "run two_rounds_of_reconciliation.script": ELECTED + """12 at 1
13 record leader 0 epoch 2 isr 0,1 version 3
14 leads epoch 2 from 2
15 at 2
16 record leader 1 epoch 3 isr 0,1 version 4
17 leads epoch 3 from 2
18 at 2
19 follows 1 epoch 3
20 sent 2 asks from 3 epoch 2
21 sent 3 diverges epoch 1 end 2
22 cut 2
23 sent 4 asks from 2 epoch 0
24 sent 5 diverges epoch 0 end 1
25 cut 1
26 F29 StaleAnswer
27 sent 6 asks from 1 epoch 0
28 sent 7 batches 2 mark 0
29 end 3 mark 0
30 mark 1
status 1
""",
    "run cut_twice.script": """3 record leader 1 epoch 0 isr 0,1 version 1
4 record leader 1 epoch 1 isr 0,1 version 2
5 leads epoch 1 from 0
6 at 0
7 follows 1 epoch 1
8 sent 0 asks from 0 no epoch
9 sent 1 batches 1 mark 0
10 end 3 mark 0
11 at 3
12 record leader 0 epoch 2 isr 0,1 version 3
13 leads epoch 2 from 3
14 at 3
15 record leader 1 epoch 3 isr 0,1 version 4
16 leads epoch 3 from 4
17 at 4
18 record leader 0 epoch 4 isr 0,1 version 5
19 leads epoch 4 from 5
20 at 5
21 node 0 life 0 end 7 mark 0 stable 0
22 node 1 life 0 end 6 mark 0 stable 0
23 follows 0 epoch 4
24 sent 2 asks from 6 epoch 3
25 sent 3 diverges epoch 2 end 5
26 cut 4
27 sent 4 asks from 4 epoch 1
28 sent 5 diverges epoch 1 end 3
29 cut 3
30 sent 6 asks from 3 epoch 1
31 sent 7 batches 2 mark 0
32 end 7 mark 0
33 mark 3
34 sent 8 asks from 7 epoch 4
35 sent 9 batches 0 mark 3
36 mark 7
37 read 7 0=61 1=62 2=63 3=65 4=66 5=69 6=6a
status 0
""",
    "run late_messages.script": "3 F15 NotLeader\n4 F29 StaleAnswer\n" + opening(3, 0, first=5) + """8 F15 NotLeader
9 follows 0 epoch 0
10 at 0
11 sent 0 asks from 0 no epoch
12 F29 StaleAnswer
14 sent 1 batches 1 mark 0
15 at 1
16 sent 2 batches 2 mark 0
18 end 2 mark 0
19 F29 StaleAnswer
20 F29 StaleAnswer
22 sent 3 asks from 2 epoch 0
23 sent 4 batches 0 mark 0
24 end 2 mark 0
25 end 2 mark 0
27 record leader 0 epoch 1 isr 0,1,2 version 2
28 follows 0 epoch 1
29 F29 StaleAnswer
30 sent 5 asks from 2 epoch 0
31 F18 UnknownLeaderEpoch
32 leads epoch 1 from 2
33 F17 FencedLeaderEpoch
34 sent 6 batches 0 mark 0
36 record leader 2 epoch 2 isr 0,1,2 version 3
37 end 2 mark 0
38 leads epoch 2 from 0
39 follows 2 epoch 2
40 F29 StaleAnswer
42 sent 7 asks from 2 epoch 0
43 sent 8 diverges no epoch
44 cut 0
45 F29 StaleAnswer
46 node 1 life 0 end 0 mark 0 stable 0
47 sent 9 asks from 0 no epoch
48 sent 10 batches 0 mark 0
49 end 0 mark 0
50 F22 StaleRecord
52 follows 2 epoch 2
53 F15 NotLeader
54 F15 NotLeader
55 F15 NotLeader
status 1
""",
    "run reports_end_with_a_leadership.script": opening(3) + """6 at 0
7 sent 0 asks from 0 no epoch
8 sent 1 batches 1 mark 0
9 end 1 mark 0
10 sent 2 asks from 0 no epoch
11 sent 3 batches 1 mark 0
12 end 1 mark 0
13 sent 4 asks from 1 epoch 0
14 sent 5 batches 0 mark 0
15 sent 6 asks from 1 epoch 0
16 sent 7 batches 0 mark 0
18 record leader 0 epoch 1 isr 0,1,2 version 2
19 leads epoch 1 from 1
20 mark 0
21 follows 0 epoch 1
22 follows 0 epoch 1
24 sent 8 asks from 1 epoch 0
25 sent 9 batches 0 mark 0
26 mark 0
27 end 1 mark 0
28 sent 10 asks from 1 epoch 0
29 sent 11 batches 0 mark 0
30 mark 0
31 sent 12 asks from 1 epoch 0
32 sent 13 batches 0 mark 0
33 end 1 mark 0
34 sent 14 asks from 1 epoch 0
35 sent 15 batches 0 mark 0
36 mark 1
38 end 1 mark 0
39 sent 16 batches 0 mark 1
40 end 1 mark 1
41 node 1 life 0 end 1 mark 0 stable 0
42 node 2 life 0 end 1 mark 1 stable 1
status 0
""",
    "run taken_back_and_forgotten.script": opening(2) + """5 at 0
6 at 1
7 sent 0 asks from 0 no epoch
8 sent 1 batches 2 mark 0
9 end 2 mark 0
11 at 2
12 at 3
13 at 4
15 record leader 1 epoch 1 isr 0,1 version 2
16 leads epoch 1 from 2
17 duplicate 0
18 at 2
19 duplicate 1
20 at 3
22 follows 1 epoch 1
23 sent 2 asks from 5 epoch 0
24 sent 3 diverges epoch 0 end 2
25 cut 2
26 node 0 life 0 end 2 mark 0 stable 0
27 sent 4 asks from 2 epoch 0
28 sent 5 batches 2 mark 0
29 end 4 mark 0
30 sent 6 asks from 4 epoch 1
31 sent 7 batches 0 mark 0
32 mark 4
33 sent 8 asks from 4 epoch 1
34 sent 9 batches 0 mark 4
35 end 4 mark 4
36 read 2 0=61 2=63
37 read 2 0=61 2=63
38 read 3 0=61 1=62 2=63
40 record leader 0 epoch 2 isr 0,1 version 3
41 leads epoch 2 from 4
42 duplicate 2
43 F12 OutOfOrderSequence
44 at 4
45 F14 CoordinatorFenced
46 at 5
47 mark 4
48 node 0 life 0 end 6 mark 4 stable 4
49 read 0
status 1
""",
    "run made_example_insync.script": opening(3, 1, first=3) + """6 at 0
7 sent 0 asks from 0 no epoch
8 sent 1 batches 1 mark 0
9 end 1 mark 0
10 sent 2 asks from 1 epoch 0
11 sent 3 batches 0 mark 0
12 sent 4 proposes isr 0,1 version 1
13 mark 0
14 sent 5 record leader 0 epoch 0 isr 0,1 version 2
15 mark 0
16 isr 0,1 version 2
17 mark 1
19 checkpoint 1
20 stopped
21 life 1 end 1 mark 1
22 F22 StaleRecord
23 record leader 0 epoch 1 isr 0,1 version 3
24 leads epoch 1 from 1
26 follows 0 epoch 1
27 sent 6 asks from 0 no epoch
28 sent 7 batches 1 mark 1
29 end 1 mark 1
30 sent 8 asks from 1 epoch 0
31 sent 9 batches 0 mark 1
32 sent 10 proposes isr 0,1,2 version 3
33 sent 11 record leader 0 epoch 1 isr 0,1,2 version 4
34 isr 0,1,2 version 4
status 1
""",
    "run restart_from_a_checkpoint.script": opening(1) + """4 at 0
5 mark 1
6 at 1
7 checkpoint 1
8 stopped
9 F28 Down
10 life 1 end 2 mark 1
11 F28 Down
12 F15 NotLeader
13 F22 StaleRecord
14 F15 NotLeader
15 F15 NotLeader
status 1
""",
    "run answer_of_an_earlier_life.script": FETCHED + """9 stopped
10 life 1 end 1 mark 0
11 follows 0 epoch 0
12 sent 2 asks from 1 epoch 0
13 sent 3 batches 0 mark 0
14 stopped
15 life 2 end 1 mark 0
16 follows 0 epoch 0
17 end 1 mark 0
18 node 1 life 2 end 1 mark 0 stable 0
status 0
""",
    "run never_held_and_undone.script": DEPOSED + """20 cut 1
21 F23 NotCaughtUp
22 sent 6 asks from 1 epoch 0
23 sent 7 batches 1 mark 2
24 F23 NotCaughtUp
25 end 2 mark 2
26 sent 8 asks from 2 epoch 1
27 sent 9 batches 0 mark 2
28 sent 10 proposes isr 0,1 version 3
29 sent 11 record leader 1 epoch 1 isr 0,1 version 4
30 isr 0,1 version 4
31 read 2 0=61 1=63
status 1
""",
    "run record_moves_on_before_the_cut.script": DEPOSED + """20 record leader 1 epoch 2 isr 1 version 4
21 F22 StaleRecord
22 F23 NotCaughtUp
23 sent 6 asks from 2 epoch 0
24 sent 7 diverges epoch 0 end 1
25 F23 NotCaughtUp
26 F22 StaleRecord
27 sent 8 asks from 2 epoch 0
28 sent 9 diverges epoch 0 end 1
29 F23 NotCaughtUp
30 read 0
31 node 0 life 0 end 2 mark 0 stable 0
33 follows 1 epoch 2
34 F29 StaleAnswer
35 F29 StaleAnswer
36 node 0 life 0 end 2 mark 0 stable 0
status 1
""",
    "run joins_at_the_start_of_a_leadership.script": opening(2) + """6 at 0
7 sent 0 asks from 0 no epoch
8 sent 1 batches 1 mark 0
9 end 7 mark 0
10 sent 2 asks from 7 epoch 0
11 sent 3 batches 0 mark 0
12 mark 7
14 at 7
15 sent 4 asks from 7 epoch 0
16 sent 5 batches 1 mark 7
17 end 8 mark 7
18 at 8
20 record leader 0 epoch 1 isr 0,1 version 2
21 leads epoch 1 from 10
22 node 0 life 0 end 10 mark 7 stable 7
23 sent 6 proposes isr 0 version 2
24 sent 7 record leader 0 epoch 1 isr 0 version 3
25 isr 0 version 3
26 follows 0 epoch 1
28 F23 NotCaughtUp
29 sent 8 asks from 8 epoch 0
30 sent 9 batches 1 mark 7
31 F23 NotCaughtUp
32 end 10 mark 7
33 F23 NotCaughtUp
34 sent 10 asks from 10 epoch 0
35 sent 11 batches 0 mark 7
36 sent 12 proposes isr 0,1 version 3
37 sent 13 record leader 0 epoch 1 isr 0,1 version 4
38 isr 0,1 version 4
39 mark 10
status 1
""",
    "run in_sync_changes.script": """3 F22 StaleRecord
4 F15 NotLeader
5 F15 NotLeader
6 record leader 0 epoch 0 isr 0,1,2 version 1
7 F15 NotLeader
8 leads epoch 0 from 0
9 F22 StaleRecord
10 follows 0 epoch 0
12 F23 NotCaughtUp
13 F23 NotCaughtUp
14 F21 NotInSync
15 F15 NotLeader
16 sent 0 proposes isr 0,1 version 1
17 sent 1 record leader 0 epoch 0 isr 0,1 version 2
18 isr 0,1 version 2
19 F21 NotInSync
20 F21 NotInSync
22 sent 2 asks from 0 no epoch
23 sent 3 batches 0 mark 0
24 sent 4 proposes isr 0,1 version 2
25 sent 5 record leader 0 epoch 0 isr 0,1 version 3
26 isr 0,1 version 3
28 at 0
29 mark 0
30 sent 6 proposes isr 0 version 3
31 sent 7 record leader 0 epoch 0 isr 0 version 4
32 isr 0 version 4
33 mark 1
34 F23 NotCaughtUp
35 end 0 mark 0
36 sent 8 asks from 0 no epoch
37 sent 9 batches 1 mark 1
38 end 1 mark 1
39 F23 NotCaughtUp
40 sent 10 asks from 1 epoch 0
41 sent 11 batches 0 mark 1
42 sent 12 proposes isr 0,1 version 4
43 sent 13 record leader 0 epoch 0 isr 0,1 version 5
44 isr 0,1 version 5
46 record leader 0 epoch 1 isr 0,1 version 6
47 sent 14 proposes isr 0 version 5
48 F34 ChangePending
49 sent 15 record leader 0 epoch 1 isr 0,1 version 6
50 F22 StaleRecord
51 leads epoch 1 from 1
53 F29 StaleAnswer
54 F23 NotCaughtUp
55 mark 1
57 record leader 1 epoch 2 isr 0,1 version 7
58 sent 16 proposes isr 0 version 6
59 F34 ChangePending
60 F34 ChangePending
61 sent 17 record leader 1 epoch 2 isr 0,1 version 7
62 F22 StaleRecord
63 leads epoch 2 from 1
64 sent 18 proposes isr 1 version 7
65 sent 19 record leader 1 epoch 2 isr 1 version 8
66 F21 NotInSync
67 record leader 1 epoch 3 isr 1 version 9
69 isr 1 version 8
status 1
""",
    "run stopped_node.script": "2 F28 Down\n" + opening(2, first=3) + """6 at 0
7 sent 0 asks from 0 no epoch
8 sent 1 batches 1 mark 0
10 stopped
11 F28 Down
12 F28 Down
13 life 1 end 0 mark 0
14 F29 StaleAnswer
15 F15 NotLeader
16 follows 0 epoch 0
17 end 1 mark 0
18 sent 2 asks from 1 epoch 0
20 stopped
""" + "".join(f"{line} F28 Down\n" for line in range(21, 38)) + """39 record leader 0 epoch 1 isr 0,1 version 2
40 follows 0 epoch 1
41 sent 3 asks from 1 epoch 0
42 F28 Down
43 life 1 end 1 mark 0
44 F28 Down
45 F15 NotLeader
46 leads epoch 1 from 1
47 sent 4 batches 0 mark 0
48 stopped
49 F28 Down
50 life 2 end 1 mark 0
51 F29 StaleAnswer
52 F29 StaleAnswer
53 F17 FencedLeaderEpoch
54 mark 1
status 1
""",
    "run committed_batch_survives.script": opening(2) + """5 at 0
6 checkpoint 0
7 sent 0 asks from 0 no epoch
8 sent 1 batches 1 mark 0
9 end 1 mark 0
10 sent 2 asks from 1 epoch 0
11 sent 3 batches 0 mark 0
12 mark 1
13 at 1
15 stopped
16 stopped
17 life 1 end 1 mark 0
18 life 1 end 2 mark 0
19 read 0
21 record leader 1 epoch 1 isr 0,1 version 2
22 leads epoch 1 from 1
23 at 1
24 follows 1 epoch 1
25 sent 4 asks from 2 epoch 0
26 sent 5 diverges epoch 0 end 1
27 cut 1
28 sent 6 asks from 1 epoch 0
29 sent 7 batches 1 mark 0
30 end 2 mark 0
31 sent 8 asks from 2 epoch 1
32 sent 9 batches 0 mark 0
33 mark 2
34 end 2 mark 0
35 read 2 0=61 1=62
36 read 0
38 checkpoint 2
39 stopped
40 life 2 end 2 mark 2
41 read 2 0=61 1=62
42 node 0 life 1 end 2 mark 0 stable 0
status 0
""",
    "run transactions_survive_a_restart.script": opening(1) + """4 at 0
5 mark 1
6 checkpoint 1
7 at 1
8 at 2
9 mark 3
10 node 0 life 0 end 3 mark 3 stable 2
12 stopped
13 life 1 end 3 mark 1
14 node 0 life 1 end 3 mark 1 stable 0
15 read 0
16 read 1 0=61
17 record leader 0 epoch 1 isr 0 version 2
18 leads epoch 1 from 3
19 duplicate 2
20 F13 InvalidTxnState
21 F14 CoordinatorFenced
22 at 3
23 mark 4
24 node 0 life 1 end 4 mark 4 stable 4
25 read 1 2=62
status 1
""",
    "run leads_again_when_elected_anew.script": FETCHED + """9 sent 2 asks from 1 epoch 0
10 sent 3 batches 0 mark 0
11 mark 1
12 at 1
14 stopped
15 life 1 end 2 mark 0
16 F15 NotLeader
17 F22 StaleRecord
18 F15 NotLeader
19 record leader 0 epoch 1 isr 0,1 version 2
20 leads epoch 1 from 2
21 F22 StaleRecord
22 mark 0
23 at 2
25 F17 FencedLeaderEpoch
26 follows 0 epoch 1
27 sent 4 asks from 1 epoch 0
28 sent 5 batches 2 mark 0
29 F23 NotCaughtUp
30 mark 1
31 end 3 mark 0
32 sent 6 asks from 3 epoch 1
33 sent 7 batches 0 mark 1
34 sent 8 proposes isr 0,1 version 2
35 sent 9 record leader 0 epoch 1 isr 0,1 version 3
36 isr 0,1 version 3
37 mark 3
38 end 3 mark 1
39 F29 StaleAnswer
41 sent 10 proposes isr 0 version 3
42 sent 11 record leader 0 epoch 1 isr 0 version 4
43 stopped
44 life 2 end 3 mark 0
45 F15 NotLeader
46 F22 StaleRecord
47 record leader 0 epoch 2 isr 0 version 5
48 leads epoch 2 from 3
49 F22 StaleRecord
50 mark 3
51 F21 NotInSync
status 1
""",
    "run fetch_answer_of_an_earlier_life.script": FETCHED + """9 sent 2 asks from 1 epoch 0
10 at 1
11 sent 3 batches 1 mark 0
13 stopped
14 life 1 end 1 mark 0
15 F29 StaleAnswer
16 follows 0 epoch 0
17 end 2 mark 0
18 sent 4 asks from 2 epoch 0
19 sent 5 batches 0 mark 0
20 end 2 mark 0
21 end 2 mark 0
22 F29 StaleAnswer
23 mark 2
status 1
""",
    "run diverging_answer_of_an_earlier_life.script": ELECTED + """12 follows 1 epoch 1
13 sent 2 asks from 2 epoch 0
14 sent 3 diverges epoch 0 end 1
16 stopped
17 F28 Down
18 life 1 end 2 mark 0
19 F22 StaleRecord
20 follows 1 epoch 1
21 F29 StaleAnswer
22 node 0 life 1 end 2 mark 0 stable 0
23 sent 4 asks from 2 epoch 0
24 sent 5 diverges epoch 0 end 1
25 cut 1
26 F29 StaleAnswer
27 F29 StaleAnswer
28 node 0 life 1 end 1 mark 0 stable 0
30 at 1
31 sent 6 asks from 1 epoch 0
32 sent 7 batches 1 mark 0
33 end 2 mark 0
34 F29 StaleAnswer
35 node 0 life 1 end 2 mark 0 stable 0
status 1
""",
    "run diverging_request_comes_again.script": ELECTED + """12 follows 1 epoch 1
13 sent 2 asks from 2 epoch 0
14 at 1
15 at 2
17 sent 3 diverges epoch 0 end 1
18 mark 0
19 cut 1
20 sent 4 asks from 1 epoch 0
21 sent 5 batches 2 mark 0
23 sent 6 diverges epoch 0 end 1
24 mark 1
25 F29 StaleAnswer
26 end 3 mark 0
27 sent 7 asks from 3 epoch 1
28 sent 8 batches 0 mark 1
30 sent 9 diverges epoch 0 end 1
31 sent 10 batches 2 mark 1
32 mark 3
33 end 3 mark 1
34 F29 StaleAnswer
35 F29 StaleAnswer
36 read 3 0=61 1=63 2=64
status 1
""",
    "run cut_at_the_smaller_end.script": ELECTED + """12 at 1
13 record leader 0 epoch 2 isr 0,1 version 3
14 leads epoch 2 from 2
15 sent 2 proposes isr 0 version 3
16 sent 3 record leader 0 epoch 2 isr 0 version 4
17 isr 0 version 4
18 mark 2
19 follows 0 epoch 2
21 sent 4 asks from 2 epoch 1
22 sent 5 diverges epoch 0 end 2
23 cut 1
24 node 1 life 0 end 1 mark 0 stable 0
25 sent 6 asks from 1 epoch 0
26 sent 7 batches 1 mark 2
27 end 2 mark 2
28 read 2 0=61 1=62
status 0
""",
    "run nothing_in_common.script": """2 record leader 0 epoch 0 isr 0,1 version 1
3 leads epoch 0 from 0
4 at 0
5 record leader 1 epoch 1 isr 0,1 version 2
6 leads epoch 1 from 0
7 at 0
8 follows 1 epoch 1
10 sent 0 asks from 1 epoch 0
11 sent 1 diverges no epoch
12 mark 0
13 cut 0
14 F29 StaleAnswer
15 sent 2 asks from 0 no epoch
16 sent 3 batches 1 mark 0
17 end 2 mark 0
18 F29 StaleAnswer
19 node 0 life 0 end 2 mark 0 stable 0
status 1
""",
    "run one_change_at_a_time.script": opening(2) + """5 at 0
6 sent 0 proposes isr 0 version 1
7 mark 0
8 sent 1 proposes isr 0 version 1
9 F34 ChangePending
10 sent 2 record leader 0 epoch 0 isr 0 version 2
11 mark 0
12 sent 3 record leader 0 epoch 0 isr 0 version 2
13 isr 0 version 2
14 mark 1
15 F29 StaleAnswer
16 stopped
17 life 1 end 1 mark 0
18 F22 StaleRecord
19 record leader 0 epoch 1 isr 0 version 3
20 leads epoch 1 from 1
status 1
""",
    "run decision_comes_late.script": opening(3, 0) + """5 sent 0 proposes isr 0,2 version 1
6 sent 1 record leader 0 epoch 0 isr 0,2 version 2
7 isr 0,2 version 2
8 F29 StaleAnswer
9 sent 2 proposes isr 0 version 2
10 F29 StaleAnswer
11 F34 ChangePending
12 sent 3 record leader 0 epoch 0 isr 0 version 3
13 isr 0 version 3
14 F29 StaleAnswer
16 record leader 0 epoch 1 isr 0 version 4
17 leads epoch 1 from 0
18 F22 StaleRecord
19 stopped
20 F28 Down
22 sent 4 record leader 0 epoch 1 isr 0 version 4
23 F28 Down
24 life 1 end 0 mark 0
25 F15 NotLeader
26 F15 NotLeader
27 F29 StaleAnswer
28 record leader 0 epoch 2 isr 0 version 5
29 leads epoch 2 from 0
30 F22 StaleRecord
status 1
""",
    "run proposal_comes_twice.script": opening(2) + """5 sent 0 asks from 0 no epoch
6 sent 1 batches 0 mark 0
7 sent 2 proposes isr 0 version 1
8 sent 3 record leader 0 epoch 0 isr 0 version 2
9 sent 4 record leader 0 epoch 0 isr 0 version 2
10 isr 0 version 2
11 F29 StaleAnswer
12 sent 5 proposes isr 0,1 version 2
13 sent 6 record leader 0 epoch 0 isr 0,1 version 3
15 sent 7 record leader 0 epoch 0 isr 0,1 version 3
16 isr 0,1 version 3
17 F29 StaleAnswer
18 sent 8 proposes isr 0 version 3
status 1
""",
    "run record_moves_on_before_the_decision.script": opening(3, 1) + """5 sent 0 proposes isr 0,1 version 1
6 record leader 1 epoch 1 isr 0,1,2 version 2
7 sent 1 record leader 1 epoch 1 isr 0,1,2 version 2
8 F22 StaleRecord
10 F34 ChangePending
11 sent 2 proposes isr 0,1 version 1
12 leads epoch 1 from 0
13 sent 3 proposes isr 0,1 version 2
14 sent 4 record leader 1 epoch 1 isr 0,1,2 version 2
15 sent 5 record leader 1 epoch 1 isr 0,1 version 3
16 F22 StaleRecord
18 record leader 1 epoch 2 isr 0,1 version 4
19 isr 0,1 version 3
20 sent 6 proposes isr 1 version 3
21 sent 7 record leader 1 epoch 2 isr 0,1 version 4
22 F22 StaleRecord
24 leads epoch 2 from 0
25 F29 StaleAnswer
26 F23 NotCaughtUp
27 follows 1 epoch 2
28 F15 NotLeader
29 F15 NotLeader
status 1
""",
    "run watermark_waits_for_a_pending_member.script": opening(2) + """5 sent 0 proposes isr 0 version 1
6 sent 1 record leader 0 epoch 0 isr 0 version 2
7 isr 0 version 2
8 at 0
9 mark 1
10 sent 2 asks from 0 no epoch
11 sent 3 batches 1 mark 1
12 end 1 mark 1
13 sent 4 asks from 1 epoch 0
14 sent 5 batches 0 mark 1
16 sent 6 proposes isr 0,1 version 2
17 at 1
18 mark 1
19 F34 ChangePending
20 sent 7 record leader 0 epoch 0 isr 0,1 version 3
21 mark 1
23 record leader 1 epoch 1 isr 0,1 version 4
24 leads epoch 1 from 1
25 mark 1
26 isr 0,1 version 3
27 mark 1
28 at 1
29 follows 1 epoch 1
30 sent 8 asks from 2 epoch 0
31 sent 9 diverges epoch 0 end 1
32 cut 1
33 read 1 0=61
status 1
""",
    "run same_set_again.script": opening(3, 1) + """5 sent 0 proposes isr 0,1 version 1
6 F34 ChangePending
7 sent 1 proposes isr 0,1 version 1
8 F34 ChangePending
9 F34 ChangePending
10 F34 ChangePending
11 sent 2 record leader 0 epoch 0 isr 0,1 version 2
12 isr 0,1 version 2
13 F21 NotInSync
14 sent 3 asks from 0 no epoch
15 sent 4 batches 0 mark 0
17 sent 5 proposes isr 0,1 version 2
18 at 0
19 sent 6 proposes isr 0,1 version 2
20 sent 7 proposes isr 0,1 version 2
21 sent 8 proposes isr 0,1 version 2
22 F34 ChangePending
23 sent 9 record leader 0 epoch 0 isr 0,1 version 2
24 F29 StaleAnswer
25 F34 ChangePending
26 sent 10 record leader 0 epoch 0 isr 0,1 version 3
27 sent 11 record leader 0 epoch 0 isr 0,1 version 3
28 isr 0,1 version 3
29 F21 NotInSync
30 F23 NotCaughtUp
31 F29 StaleAnswer
33 sent 12 proposes isr 0 version 3
34 sent 13 record leader 0 epoch 0 isr 0 version 4
35 isr 0 version 4
36 sent 14 proposes isr 0,1 version 4
37 F34 ChangePending
38 F34 ChangePending
39 sent 15 proposes isr 0,1 version 4
status 1
""",
    "run restarted_leader.script": opening(2) + """5 sent 0 proposes isr 0 version 1
6 sent 1 record leader 0 epoch 0 isr 0 version 2
7 isr 0 version 2
8 sent 2 asks from 0 no epoch
9 sent 3 batches 0 mark 0
10 sent 4 proposes isr 0,1 version 2
12 stopped
13 life 1 end 0 mark 0
14 F22 StaleRecord
15 F15 NotLeader
16 F15 NotLeader
17 sent 5 record leader 0 epoch 0 isr 0,1 version 3
18 F15 NotLeader
19 F22 StaleRecord
21 stopped
22 life 1 end 0 mark 0
23 follows 0 epoch 0
25 record leader 0 epoch 1 isr 0,1 version 4
26 stopped
27 life 2 end 0 mark 0
28 leads epoch 1 from 0
29 F22 StaleRecord
30 F22 StaleRecord
31 sent 6 proposes isr 0 version 4
32 stopped
33 life 3 end 0 mark 0
34 record leader 1 epoch 2 isr 0,1 version 5
35 leads epoch 2 from 0
36 follows 1 epoch 2
37 stopped
38 life 4 end 0 mark 0
39 follows 1 epoch 2
40 F22 StaleRecord
41 record leader 0 epoch 3 isr 0,1 version 6
42 leads epoch 3 from 0
43 sent 7 record leader 0 epoch 3 isr 0,1 version 6
44 F29 StaleAnswer
45 sent 8 proposes isr 0 version 6
status 1
""",
}
