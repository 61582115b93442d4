"""Makes scripts by chance, of one node and of clusters.

A script of a cluster is made beside the world of tools/lib/cluster.py in which it is played, so that most of its lines do
something there. Calm times, in which followers fetch and watermarks rise, take turns with storms of elections, in which
leaders that know nothing of one another take batches in. A leader proposes that who is slow leaves the in-sync set, and that
who has caught up joins it; until it has heard what the controller decided it proposes the same again, or tries something else.
Nodes stop and come up again, leaders too, which are elected anew then, and several may be down at once. Messages are lost, come
late, in another order, twice, in another life, and some numbers were never sent.
"""
from . import scripts
from .batch import end_of
from .cluster import Answer, Decision, Down, Follows, Idle, Leads, Proposal, World, end_and_epoch, last_epoch
from .decoder import Refused
from .definitions import batches_of, coordinator, kept_batches
from .logs import Maker, Numbers


def lines(texts):
    return "".join(f"{text}\n" for text in texts)


class Chance:
    """Makes a script of one node: producers that repeat themselves, skip, come back with old epochs, and their markers."""

    producers = (5, 6, 9)

    def __init__(self, seed):
        self.n = Numbers(seed)
        self.next, self.sent = {}, []

    def node(self):
        """The node that is handed the next batch."""
        return 0

    def known(self, pid):
        """The producer's epoch and next sequence."""
        return self.next.get(pid, (0, 0))

    def sender(self):
        """Producer, its epoch and its next sequence, which are right more often than not."""
        n = self.n
        pid = n.one_of(self.producers)
        epoch, sequence = self.known(pid)
        if n.once_in(9):
            epoch, sequence = epoch + 1, 0
        elif n.once_in(12) and epoch > 0:
            epoch -= 1
        elif n.once_in(20):
            sequence += 1
        return pid, epoch, sequence

    def again(self):
        """One of the last batches once more."""
        if not self.sent:
            return self.append()
        return f"append {self.node()} {self.n.one_of(self.sent[-4:])}"

    def append(self):
        n, node = self.n, self.node()
        values = ",".join(n.one_of(["a", "bc", "~", "x" * 30, "y" * 200]) for _ in range(1 + n.below(3)))
        if n.once_in(4):
            return f"append {node} {n.below(1000)} -1 -1 -1 {'t' if n.once_in(9) else 'd'} {values}"
        pid, epoch, sequence = self.sender()
        if not n.once_in(20):
            self.next[pid] = (epoch, sequence + values.count(",") + 1)
        self.sent.append(f"{n.below(1000)} {pid} {epoch} {sequence} {n.one_of('dttt')} {values}")
        return f"append {node} {self.sent[-1]}"

    def raw(self):
        """A batch of all kinds of records, sometimes with a byte changed."""
        n, node = self.n, self.node()
        maker = Maker(n.below(2 ** 32))
        maker.step()
        data = bytearray(maker.log[0].data)
        if n.once_in(2):
            data[n.below(len(data))] ^= 1 << n.below(8)
        return f"raw {node} {data.hex()}"

    def mark(self):
        n, node = self.n, self.node()
        pid, epoch, _ = self.sender()
        return f"mark {node} {n.below(1000)} {pid} {epoch} {n.below(4)} {n.one_of(['commit', 'abort'])}"

    def step(self):
        n = self.n
        start = n.below(16)
        return n.one_of([self.append] * 8 + [self.again] * 2 + [self.raw] + [self.mark] * 3 + [lambda: "raise 0"] * 3
                        + [lambda: "show 0", lambda: f"read 0 {start}", lambda: f"committed 0 {start}"])()

    def script(self, count=90):
        events = ["elect 0", "adopt 0", *(self.step() for _ in range(count))]
        if self.n.once_in(2):
            events[40:40] = ["elect 0", "append 0 5 -1 -1 -1 d z", "adopt 0"]
        return lines([f"nodes 1 segment {1024 + self.n.below(500)} interval {self.n.below(900)}", *events,
                      "raise 0", "show 0", "read 0 0", "committed 0 0"])


class Replicas(Chance):
    """Makes a script of a cluster, of one to seven nodes by the seed."""

    def __init__(self, seed):
        super().__init__(seed)
        self.count = 1 + seed % scripts.MAX_NODES
        self.world, self.events, self.unread, self.planned = World(self.count), [], [], []
        self.at, self.left, self.is_calm, self.is_late, self.rivals = 0, 0, True, False, []

    # What the world says

    def leader(self):
        """The node that the controller's record names, if it has taken that up."""
        record = self.world.record
        named = [] if record.leader is None else [self.world.nodes[record.leader]]
        return next((node for node in named if node.mode.epoch == record.epoch), None)

    def behind(self):
        """The nodes that have yet to take the record up, but for a leader that is the last to know."""
        record = self.world.record
        return [n for n in self.up() if self.world.nodes[n].is_news(record) and not (self.is_late and n == record.leader)]

    def has_led(self):
        """Whether the node that the record names is up, but was restarted since it led: it has to be elected anew."""
        record = self.world.record
        return not self.leader() and record.leader in self.up() and not self.world.nodes[record.leader].is_news(record)

    def of_mode(self, *modes):
        return [node.number for node in self.world.nodes if isinstance(node.mode, modes)]

    def up(self):
        return self.of_mode(Idle, Leads, Follows)

    def any_node(self):
        return self.n.below(self.count)

    def node(self):
        """The present leader more often than not, else anyone who believes to lead; now and then any node."""
        present = self.leader()
        if self.n.once_in(40):
            self.at = self.any_node()
        elif present and not self.n.once_in(8 if self.is_calm else 3):
            self.at = present.number
        else:
            self.at = self.n.one_of(self.of_mode(Leads) or range(self.count))
        return self.at

    def batches_of(self, pid):
        """By the log of the node that is handed the next batch, the newest first."""
        return batches_of(pid, self.world.nodes[self.at].log)

    def known(self, pid):
        found = self.batches_of(pid)
        kept = kept_batches(found) if found else []
        return found[0].producer[1] if found else 0, kept[-1][1] + 1 if kept else 0

    # Lines

    def mark(self):
        """Of the coordinator epoch that the producer's last marker has, a lower or a higher one."""
        n, node = self.n, self.node()
        pid, epoch, _ = self.sender()
        found = coordinator(self.batches_of(pid))
        said = max(0, (0 if found == "-" else int(found)) + n.one_of([-1, 0, 0, 0, 0, 1]))
        return f"mark {node} {n.below(1000)} {pid} {epoch} {said} {n.one_of(['commit', 'abort'])}"

    def elect(self):
        """In a storm mostly one of two rivals, whose logs part with each reign; else often the same node again, or one in
        sync that is up; now and then any."""
        n, (named, _, isr, _) = self.n, self.world.record
        self.is_late = n.once_in(2)
        if n.once_in(12):
            return f"elect {self.any_node()}"
        if not self.is_calm and not n.once_in(4):
            return f"elect {n.one_of([m for m in self.rivals if m in isr] or isr)}"
        fit = [m for m in isr if m in self.up()] or isr
        return f"elect {named if named in fit and n.once_in(2) else n.one_of(fit)}"

    def adopt(self):
        """Of a node to which the record is news; now and then of any."""
        return f"adopt {self.n.one_of(self.behind() or range(self.count))}"

    def ask(self):
        followers = self.of_mode(Follows)
        return f"ask {self.any_node() if self.n.once_in(12) or not followers else self.n.one_of(followers)}"

    def reign(self):
        """Who is elected takes the record up and takes a batch in, then another one is elected."""
        named, leader = self.world.record.leader, self.leader()
        if named is None or self.n.once_in(9):
            return self.elect()
        if named in self.of_mode(Down):
            return f"restart {named}" if self.n.once_in(2) else self.elect()
        if leader is None:
            return self.elect() if self.has_led() and self.n.below(9) else f"adopt {named}"
        return self.elect() if last_epoch(leader.log) == leader.mode.epoch else self.append()

    def forward(self):
        """What comes next between followers and leader, who may be the last to know; now and then a message is lost."""
        if not self.leader() and (self.has_led() or not (self.is_late and self.n.below(8))):
            return self.reign()
        if self.unread and self.n.once_in(9):
            self.unread.pop()
        if self.unread and self.parts(self.unread[-1]) and self.n.once_in(4):
            return self.overtake(self.unread.pop())
        if self.unread and self.is_change(self.unread[-1]) and self.n.once_in(3):
            return self.disturb_change(self.unread.pop())
        if self.unread:
            return f"deliver {self.unread.pop()}"
        if self.behind():
            return self.adopt()
        return self.ask_least() if self.of_mode(Follows) else self.write()

    def parts(self, number):
        """Whether the message is an answer that the logs have parted."""
        message = self.world.messages[number]
        return isinstance(message, Answer) and message.diverges()

    def overtake(self, number):
        """Before an answer that the logs have parted comes, the record moves on, or its node stops and comes up, and mostly follows
        again; or it comes twice."""
        node, chosen = self.world.messages[number].request.sender, self.n.below(5)
        self.planned = [f"deliver {number}"]
        if chosen < 2:
            return self.elect()
        if chosen == 2 or node not in self.up():
            return f"deliver {number}"
        self.planned = [f"restart {node}", f"adopt {node}", f"deliver {number}"]
        if self.n.once_in(4):
            del self.planned[1]
        return f"stop {node}"

    def is_change(self, number):
        """Whether the message is a proposal or a decision."""
        return isinstance(self.world.messages[number], (Proposal, Decision))

    def changing(self):
        """The leaders of which a change is pending."""
        return [n for n in self.of_mode(Leads) if self.world.nodes[n].mode.pending is not None]

    def same_change(self, node):
        """A line by which a leader proposes the set again that is pending."""
        mode = self.world.nodes[node].mode
        gone, new = {*mode.isr} - {*mode.pending}, {*mode.pending} - {*mode.isr}
        return f"{'leave' if gone else 'join'} {node} {self.n.one_of(sorted(gone or new or mode.isr))}"

    def disturb_change(self, number):
        """Before a proposal or a decision comes, an election comes, or its leader stops and comes up, be it elected anew or not,
        raises its watermark, or proposes the same again or anything else, or an earlier one comes once more; or it comes twice."""
        n, message = self.n, self.world.messages[number]
        node = message.sender if isinstance(message, Proposal) else message.proposal.sender
        self.planned = [f"deliver {number}"]
        if n.once_in(6):
            return self.elect()
        if n.once_in(8) and node in self.up():
            self.planned = [f"restart {node}", *([f"elect {node}", f"adopt {node}"] if n.once_in(2) else []), f"deliver {number}"]
            return f"stop {node}"
        if n.once_in(4):
            return f"deliver {number}"
        if n.once_in(3):
            return f"deliver {n.one_of([k for k in range(len(self.world.messages)) if self.is_change(k)][-4:])}"
        if node not in self.changing() or n.once_in(3):
            return f"raise {node}"
        return self.same_change(node) if n.once_in(2) else f"{n.one_of(['join', 'leave'])} {node} {self.any_node()}"

    def ask_least(self):
        """A follower that has reported the least to the present leader."""
        leader = self.leader()
        if leader is None:
            return self.ask()
        return f"ask {min(self.of_mode(Follows), key=lambda n: leader.mode.reported.get(n, -1))}"

    def fits(self, message):
        """Whether it is an answer by whose end and last leader epoch its node would ask again, be it stale or not."""
        if not isinstance(message, Answer):
            return False
        return end_and_epoch(message.request.log) == end_and_epoch(self.world.nodes[message.request.sender].log)

    def late(self):
        """A message that has waited, an answer that fits, any or a late one once more, or a number never sent."""
        n, messages = self.n, self.world.messages
        sent = len(messages)
        if sent == 0 or n.once_in(20):
            return f"deliver {n.one_of([sent, sent + 1, sent + n.below(2 ** 31 - sent)])}"
        if self.unread and n.once_in(2):
            return f"deliver {self.unread.pop(n.below(len(self.unread)))}"
        if (changes := [number for number in range(sent) if self.is_change(number)]) and n.once_in(6):
            return f"deliver {n.one_of(changes[-5:])}"
        fitting = [number for number, message in enumerate(messages) if self.fits(message)]
        if fitting and n.once_in(2):
            return f"deliver {n.one_of(fitting)}"
        return f"deliver {n.below(sent) if n.once_in(4) else max(0, sent - 1 - n.below(9))}"

    def raise_mark(self):
        return f"raise {self.node()}"

    def keep_set(self):
        """The leader proposes that who has caught up joins, else that who has reported the least leaves, more often where a member
        is down, and may raise its watermark at once; what is pending it proposes again. Now and then anyone proposes anything."""
        n, leader = self.n, self.leader()
        if leader is None or n.once_in(5):
            return f"{n.one_of(['join', 'leave'])} {self.node()} {self.any_node()}"
        said, mode = leader.number, leader.mode
        if mode.pending is not None and n.below(4):
            return self.same_change(said)
        ends = {m: mode.reported.get(m, -1) for m in range(self.count) if m != said}
        back = [m for m in ends if m not in mode.isr and ends[m] >= max(leader.mark, mode.start)]
        if back and not n.once_in(6):
            return f"join {said} {n.one_of(back)}"
        slow = [m for m in ends if m in mode.isr and ends[m] < end_of(leader.log)]
        if slow and (n.once_in(4) or len(mode.isr) > 2 and any(m in self.of_mode(Down) for m in slow)):
            self.planned = [f"raise {said}"] * n.below(2)
            return f"leave {said} {min(slow, key=ends.get)}"
        return f"join {said} {self.any_node()}" if n.once_in(4) else self.forward()

    def note_mark(self):
        return f"checkpoint {self.n.one_of(self.up() or range(self.count))}"

    def come_and_go(self):
        """A node that is down comes up, or one stops; in a storm as often the one as the other."""
        n, down, up = self.n, self.of_mode(Down), self.up()
        comes = down and (not up or not n.once_in(4 if self.is_calm else 2))
        return f"restart {n.one_of(down)}" if comes else f"stop {n.one_of(up)}"

    def bounce(self):
        """A node stops and comes up at once, mostly one to which an answer is on its way, so that it is of an earlier life."""
        n, messages = self.n, self.world.messages
        due = [messages[k] for k in self.unread if isinstance(messages[k], Answer)]
        waiting = [answer.request.sender for answer in sorted(due, key=lambda answer: not answer.diverges())]
        chosen = n.one_of([m for m in waiting if m in self.up()][:2] or self.up() or range(self.count))
        anew = [f"elect {chosen}", f"adopt {chosen}"] if self.leader() and chosen == self.world.record.leader else []
        self.planned = [f"restart {chosen}", f"adopt {chosen}", *anew][:n.one_of([1, 2, 4, 4])]
        return f"stop {chosen}"

    def disturb(self):
        """A node that is stopped is asked for something, or one that is up to come up."""
        n, down = self.n, self.of_mode(Down)
        if not down or n.once_in(9):
            return f"restart {n.one_of(self.up() or range(self.count))}" if n.once_in(3) else self.forward()
        line = n.one_of([self.adopt, self.append, self.raw, self.mark, self.ask, self.raise_mark, self.note_mark, self.look,
                         lambda: f"stop {self.any_node()}", lambda: f"join {self.node()} {self.any_node()}",
                         lambda: f"leave {self.node()} {self.any_node()}"])()
        verb, _, *words = line.split(" ")
        return " ".join([verb, str(n.one_of(down)), *words])

    def look(self):
        """At the end of a log, or above it."""
        node = self.n.one_of(self.world.nodes)
        start = max(0, end_of(node.log) + 2 - self.n.below(16))
        return self.n.one_of([f"show {node.number}", f"read {node.number} {start}", f"committed {node.number} {start}"])

    def write(self):
        """Where nobody leads, mostly a leader is made first."""
        if not self.of_mode(Leads) and not self.n.once_in(4):
            return self.reign()
        return self.n.one_of([self.append] * 9 + [self.again] * 2 + [self.mark] * 4 + [self.raw])()

    def turn(self):
        """From calm to a storm, or back. Rivals are in sync, if two are."""
        n, isr = self.n, self.world.record.isr
        self.is_calm = not self.is_calm
        self.left = 30 + 25 * self.count + n.below(60) if self.is_calm else 10 + n.below(n.one_of([30, 30, 100]))
        first = n.below(len(isr))
        self.rivals = [isr[first], isr[(first + 1 + n.below(max(1, len(isr) - 1))) % len(isr)]]

    def step(self):
        if self.planned:
            return self.planned.pop(0)
        if not self.up() and not self.n.once_in(3):
            return self.come_and_go()
        if self.left == 0:
            self.turn()
        self.left -= 1
        often = [self.forward] * 18 + [self.write] * 5 + [self.late] * 4 if self.is_calm else \
            [self.reign] * 20 + [self.write] * 5 + [self.late] * 3 + [self.ask, self.adopt]
        seldom = [self.raise_mark] * 2 + [self.look] + ([self.elect] if self.n.once_in(self.count) else [])
        lives = [self.note_mark, self.come_and_go, self.bounce, self.disturb] if self.n.once_in(2) else []
        return self.n.one_of(often + seldom + [self.keep_set] * (3 if self.is_calm else self.n.below(2)) + lives)()

    def play(self, line):
        """Adds the line to the script, and plays it."""
        sent = len(self.world.messages)
        self.events.append(line)
        try:
            scripts.event_of(line.encode(), self.count)(self.world)
        except Refused:
            pass
        self.unread += range(sent, len(self.world.messages))

    def script(self, count=90):
        """So many events, or one more. By the last ones all nodes come up, and tell what they have."""
        node = self.any_node()
        shown = [*(f"show {n}" for n in range(self.count)), f"read {node} 0", f"committed {node} 0"]
        while len(self.events) + len(self.of_mode(Down)) + len(shown) < count:
            self.play(self.step())
        for n in self.of_mode(Down):
            self.play(f"restart {n}")
        return lines([f"nodes {self.count} segment {1024 + self.n.below(500)} interval {self.n.below(900)}",
                      *self.events, *shown])


# Producers

def kit_hash(pid):
    """The hash by which a hash map of the kit's std finds a number: eight bytes folded to 64 bits by a multiplication, and these to 32."""
    product = (0x243f_6a88_85a3_08d3 ^ pid) * (0x9e37_79b9_7f4a_7c15 ^ 16)
    folded = product % 2 ** 64 ^ product >> 64
    return (folded ^ folded >> 32) % 2 ** 32


ONE_HASH = (9, 4165640953, 5233959828, 6429363679, 6857822124, 11075760734, 12315619785, 16128205096, 19771155950,
            20541540388, 21996609089, 27974094876)
LOW_BITS = tuple(place << 40 for place in range(12))  # they have their low 40 bits in common
HIGH_BITS = tuple(2 ** 63 - 1 - place for place in range(12))
POOLS = (ONE_HASH, ONE_HASH, LOW_BITS, HIGH_BITS, range(12), ONE_HASH + LOW_BITS + HIGH_BITS)
assert len({kit_hash(pid) for pid in ONE_HASH}) == 1, "they have one hash"


class Colliding(Replicas):
    """Makes a script of a cluster with up to eleven producers, whose numbers have much in common."""

    def __init__(self, seed):
        super().__init__(seed)
        pool = POOLS[seed % len(POOLS)]
        self.producers = [self.n.one_of(pool) for _ in range(3 + self.n.below(9))]
