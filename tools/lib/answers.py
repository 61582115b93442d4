"""Counts how often each answer to each event comes in the run of a script, each cause of a refusal by itself."""
import re
from collections import Counter

from . import scripts
from .cluster import Answer, Decision, Follows, Idle, Leads, Proposal, World, end_and_epoch
from .decoder import Refused


def kind_of(message):
    if isinstance(message, Answer):
        return "a diverging answer" if message.diverges() else "an answer with batches"
    return {Proposal: "a proposal", Decision: "a decision"}.get(type(message), "a request")


def message_of(world, line):
    """The message that the line delivers, if there is one."""
    verb, number = line.split()[:2]
    is_sent = verb == "deliver" and int(number) < len(world.messages)
    return world.messages[int(number)] if is_sent else None


def not_awaited(node, answer):
    """The first thing by which this isn't an answer that the node awaits; its life if that is all."""
    mode, request = node.mode, answer.request
    if not isinstance(mode, Follows):
        return "no follower"
    (end, epoch), asked = end_and_epoch(node.log), end_and_epoch(request.log)
    causes = {"another leader epoch": mode.epoch != request.epoch, "another end": end != asked[0],
              "another last epoch": epoch != asked[1], "another life": True}
    return next(name for name, holds in causes.items() if holds)


def not_caught_up(leader, other):
    """Why a leader doesn't take this node in."""
    reported = leader.mode.reported.get(other)
    if reported is None:
        return "the leader itself" if other == leader.number else "no report"
    return "below the watermark" if reported < leader.mark else "below the start"


def not_learned(mode, record):
    """Why a leader learns nothing from a decision with this record."""
    if record.epoch != mode.epoch:
        return f"of {'an earlier' if record.epoch < mode.epoch else 'a later'} leader epoch"
    age = "what it knows" if record.version == mode.version else "older than what it knows"
    return f"{age}{', a change is pending' if mode.pending else ''}"


def cause(world, line, answer):
    """Which of the several causes of a refusal it was, by the world, which is as before; nothing where there is but one."""
    verb, *words = line.split()
    if (verb, answer[:3]) == ("adopt", "F22"):
        has_led = world.record.epoch > world.nodes[int(words[0])].mode.epoch
        return "no leader" if world.record.leader is None else "it led in that leader epoch" if has_led else "no news"
    if (verb, answer[:3]) == ("leave", "F21"):
        return "the leader itself" if words[0] == words[1] else "no member"
    if (verb, answer[:3]) == ("join", "F23"):
        return not_caught_up(world.nodes[int(words[0])], int(words[1]))
    message = message_of(world, line)
    if isinstance(message, Decision) and answer[:3] in ("F22", "F29"):
        return not_learned(world.nodes[message.proposal.sender].mode, message.record)
    if isinstance(message, Answer) and answer[:3] in ("F22", "F29"):
        node = world.nodes[message.request.sender]
        idle = "idle" if isinstance(node.mode, Idle) else "the record has moved on"
        return idle if answer[:3] == "F22" else not_awaited(node, message)
    return None


def decided(world, proposal):
    """What the controller makes of a proposal."""
    if world.record == proposal.known:
        return "the record changes"
    where = "" if world.record.epoch == proposal.known.epoch else " to another leader epoch"
    return f"the record has moved on{where}"


def learned(world, decision):
    """Whether who learns the decision still is the record's leader."""
    return "" if world.record.epoch == decision.record.epoch else "the record has moved on"


def note(world, line):
    """What is told besides of an event that isn't refused, by the world before it."""
    verb, number = line.split()[:2]
    message = message_of(world, line)
    if isinstance(message, Answer):
        return "of an earlier life" if message.request.life != world.nodes[message.request.sender].life else ""
    if isinstance(message, (Proposal, Decision)):
        return decided(world, message) if isinstance(message, Proposal) else learned(world, message)
    mode = world.nodes[int(number)].mode if verb in ("raise", "join", "leave") else None
    return "a change is pending" if isinstance(mode, Leads) and mode.pending else ""


def form(world, line, answer, told):
    """An event and its answer without their numbers, of reads without records. Where it is refused, the world is as before."""
    verb, message = line.split()[0], message_of(world, line)
    if verb == "deliver":
        verb += f" {kind_of(message) if message else 'no message'}"
    refused = answer[0] == "F"
    why = cause(world, line, answer) if refused else told
    said = re.sub(" [0-9]+$", "", answer) if refused else re.sub("[0-9]+(,[0-9]+)*", "N", re.sub("^read.*", "read 0", answer))
    return f"{verb}: {said}{f', {why}' if why else ''}"


def forms(script):
    """How often each answer to each event comes in the script's run."""
    texts, (count, events), found = script.splitlines(), scripts.parse(script.encode()), Counter()
    world = World(count)
    for place, event in events:
        line = texts[place - 1]
        told = note(world, line)
        try:
            answer = event(world)
        except Refused as refusal:
            answer = str(refusal)
        found[form(world, line, answer, told)] += 1
    return found
