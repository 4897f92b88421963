"""Asks again what was with the program when it or the door ended.

The group's answers are in the journal, all or none of them, and nobody was told one. Questions that were due an answer go
first, in their order, and the denied ones last: a denial may have become an answer, since answers that came after it are
in the journal now. In any other order the transcript would show a denial that `simulate` wouldn't give there. Which are
due an answer the public columns tell, and the transcript.
"""
import asyncio

from .simulation import DENIALS, Simulation

FULL = b'{"refused":"full"}'


async def ask_again(table, left):
    """Asks each question that is left and takes it off the list. After a fault the list has those still to be asked."""
    if not left:
        return
    denied = []
    if table.period.simulating is None:
        table.say("what was with the program is asked again in its order: auditor simulate may disagree with a denial")
        while left:
            await _ask_first(table, left)
        return
    try:
        async with Simulation(table.auditor, table.period.simulating) as simulation:
            await simulation.read(table.transcript.released())
            await _ask_those_due(table, simulation, left, denied)
            if simulation.gap:
                table.say("the transcript has a gap, or the history is full: auditor simulate says which")
        while denied:
            await _ask_first(table, denied)
    finally:
        left.extend(denied)


async def _ask_those_due(table, simulation, left, denied):
    while left:
        verdict = await simulation.verdict(left[0].line)
        if verdict in DENIALS:
            simulation.reply(DENIALS[verdict])
            denied.append(left.pop(0))
            continue
        reply = await _ask_first(table, left)
        simulation.reply(reply)
        # A full history decides nothing any more, and `simulate` counts fewer records than the journal may have.
        simulation.gap = simulation.gap or reply == FULL


async def _ask_first(table, left):
    """Asks the first question alone. `waiting.jsonl` has had all of them since their group left, and keeps them until the
    last is in the transcript: written anew, it could be torn while others are still to be asked."""
    reply, = await table.groups.ask([left[0].line])
    await asyncio.to_thread(table.transcript.add, [(left[0].line, reply)])
    table.answer(left.pop(0), reply)
    return reply
