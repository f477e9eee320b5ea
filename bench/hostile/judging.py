"""What a run of the soak may end with, by docs/FORMATS.md. Each judge answers what is wrong, or None."""
import re

from running import BETWEEN, LACKS, TABLE, module_of

import checker

reader = module_of("reading", "reader")
writer = module_of("whole", "model")
COUNTS = rb"ddfarm: \d+ of \d+ results, \d+ of \d+ boards, \d+ s"
PROGRESS = re.compile(rb"(?:" + COUNTS + rb"\n)*" + COUNTS + rb", (?:(1) table|(\d+) tables) incomplete\n")
NOTE = reader.NOTE.encode()
STEPS = re.compile(rb" (\d+) search(?:es)? ran out of steps,")
REFUSED = re.compile(
    rb"refused (?:9 KTooLarge|(?:declarer|defenders) (?:10 Text [1-6] [A-Za-z]+ line \d+|1 RootMissing|2 RootNeedless"
    rb"|3 RootTrump|4 RootSide|5 RootLead|6 RootNeed|7 RootPattern|8 Node \d+ [1-8] [A-Za-z]+))\n")
# A board with a deal, and no result; and with its table, or how many results are known.
DEALT = re.compile(rb'(\[Deal "N:.*"\]\n); table incomplete: 0 of 20\n')
SHOWN = re.compile(rb'^\[Deal "(N:.*)"\]\n(?:; table incomplete: (\d+) of 20)?', re.M)
# Longer answers are not given to the slow checker too.
SHORT = 20_000
WRITING_FAILED = b"ddfarm: writing failed\n"


def progress_fault(told, lacking):
    """What is wrong with what was told of the work, of which so many tables of boards with a deal lack a number."""
    match = PROGRESS.fullmatch(told)
    if match is None:
        return "progress has another form"
    return None if int(match[1] or match[2]) == lacking else "progress tells another number of incomplete tables"


def searches_fault(steps, missing, words):
    """What is wrong with the number of searches that ran out of steps, if each deal lacks this many results: for those
    every try did, for each other result all but one at most."""
    tries, lacks = int(words[words.index("--tries") + 1]), sum(missing.values())
    least, known = tries * lacks, reader.ENTRIES * len(missing) - lacks
    most = least + (tries - 1) * known
    return None if least <= steps <= most else f"{steps} searches are noted, not {least} to {most}"


def notes_fault(noted, text, shown, words):
    """What is wrong with the notes on a text, if its boards with a deal have these deals and lack that many results."""
    tables, match = sum(lacks > 0 for _, lacks in shown), STEPS.search(noted)
    steps = int(match[1]) if match else 0
    if noted != reader.board_note(reader.read(text)) + reader.table_note(tables, steps):
        return "other notes"
    return searches_fault(steps, dict(shown), words) if tables else None


def game_fault(game, predicted, numbers):
    """What is wrong with a board and its table, of which the lines of the board are predicted."""
    lines, _, _ = predicted.rpartition(b"\n")
    table = game[len(lines) + 1:]
    if not game.startswith(lines + b"\n"):
        return "another board"
    if LACKS.fullmatch(table):
        return None
    if not TABLE.fullmatch(table):
        return "no table"
    return None if table == numbers.of(lines.splitlines()[-1]) else "a number is not DDS's"


def tables_fault(written, predicted, numbers):
    """What is wrong with the text of tables whose boards are predicted, without a result."""
    games, wanted = written.split(BETWEEN), predicted.split(BETWEEN)
    if len(games) != len(wanted) or games[-1] != wanted[-1]:
        return "another number of boards, or another end"
    return next(filter(None, (game_fault(game, want, numbers) for game, want in zip(games[:-1], wanted))), None)


def lacking_in(written):
    """How many tables lack a number."""
    return sum(LACKS.fullmatch(game.rpartition(b"\n")[2]) is not None for game in written.split(BETWEEN))


def as_tables(written, text, predicted):
    """What was written of a text with `--whole` as `table` writes it, whose boards are predicted, without a result;
    None where a section lacks, or something else is lost or added."""
    taken = writer.taken_out(written)
    if taken is None or not writer.loses_nothing(taken[0], text):
        return None
    shown = iter(taken[1])
    return DEALT.sub(lambda board: board[1] + writer.section(next(shown), b"\n"), predicted)


def end_fault(outcome, text, written, words):
    """What is wrong with the status and the error output of `table` with these words on a text, of which it wrote this
    or, with `--whole`, the same tables."""
    shown = [(deal, reader.ENTRIES - int(known) if known else 0) for deal, known in SHOWN.findall(written)]
    lacking = sum(lacks > 0 for _, lacks in shown)
    incomplete = lacking if "--whole" in words else lacking_in(written)
    if outcome.status != (3 if incomplete else 0):
        return f"another status with {incomplete} incomplete tables"
    told, note, notes = outcome.err.partition(NOTE)
    fault = notes_fault(note + notes, text, shown, words)
    if fault:
        return fault
    if "--progress" in words:
        return progress_fault(told, lacking)
    return "something is told" if told else None


def table_fault(outcome, text, numbers, words):
    """What is wrong with an outcome of `table` with these words on a text."""
    status, predicted, told = reader.predict(text)
    if status == 2:
        return None if outcome == (status, predicted, told) else f"not refused with {told}"
    written = as_tables(outcome.out, text, predicted) if "--whole" in words else outcome.out
    if written is None:
        return "a section lacks, or something is lost or added"
    fault = tables_fault(written, predicted, numbers)
    if fault:
        return fault
    return end_fault(outcome, text, written, words)


def check_fault(outcome, words, text, tricks):
    """What is wrong with an outcome of `check` on an answer, where DDS says so many tricks."""
    if len(text) <= SHORT:
        said, status = checker.predict(*words, text)
        line = said.encode() + b"\n"
        if outcome != ((status, b"", line) if status == 2 else (status, line, b"")):
            return f"not {said} with status {status}"
    if outcome.status == 2:
        return None if outcome[1:] == (b"", checker.NOT_AN_ANSWER.encode() + b"\n") else "refused with another line"
    if outcome.err:
        return "something is told"
    if outcome.status == 0:
        return None if outcome.out == b"accepted %d\n" % tricks else "a number is not DDS's"
    return None if outcome.status == 4 and REFUSED.fullmatch(outcome.out) else "another status or line"


def unread_fault(outcome, whole, room):
    """What is wrong with an outcome whose output was closed, of a run that ends as `whole` does where it is read to its
    end. What was not read of it but written lies in the pipe, that has so much room. Notes may come before a fault."""
    if not whole.out.startswith(outcome.out):
        return "other bytes were written"
    if outcome.status == 1 and outcome.err in (WRITING_FAILED, whole.err + WRITING_FAILED):
        return None
    if (outcome.status, outcome.err) != (whole.status, whole.err):
        return "another end"
    return None if len(whole.out) <= len(outcome.out) + room else "not told that writing failed"
