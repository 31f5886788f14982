"""Compares the proved session library with the independent second program in plain Rust (second/) on whole sessions: every
sort in tests/lib/session_sorts.py, by way of `session_cases`, which takes many in one process; the first few of each sort, and
the rule book's boards to try, also by the program `herdspiral` itself. The bytes that both print must be the same, and every
word and every refusal that a session can come to must occur. Both are also held to models in Python, on each form of a number
at each place (tests/lib/number_sessions.py). Some sessions must print the same at several W, places apart. Also builds the
second program and runs its unit tests, and tries how `herdspiral` reads and writes (tests/lib/session_streams.py). Seeded, so
each run tries the same sessions; `python3 tests/sessions.py SEED SESSIONS` tries others, or more (it is 1 and 5,000 else; those
that are much work are always as many). Needs cargo, and the programs herdspiral and session_cases, which
`rt ci` builds, or `rt run` in their folders."""
import collections
import concurrent.futures
import os
import re
import shutil
import sys

sys.path.insert(0, os.path.join(os.path.dirname(os.path.abspath(__file__)), "lib"))
import book_sessions
import number_sessions
import program
import repository
import second_program
import session_sorts
import session_streams
from board_model import LARGEST, number_bytes

SHOWN = 300  # characters of an answer in a message
SESSION_SHOWN = 2_200  # and of a session: those with few events are shown whole
ALONE = 6  # of each sort, so many sessions are given to the program itself, one to a process
OFTEN = 10  # each word and refusal occurs at least so many times
ALLOWANCES = (0, 1, 127, 128, LARGEST)  # of one, two and five bytes
WORDS = ("idle", "spent", "conflict", "buzz")
NEVER_SPENT = 12  # with up to so many relays there are not more states than a session's log has room for moves
FILE_REFUSALS = (*range(1, 10), 17, 10)
EVENT_REFUSALS = (1, 2, 7)  # 12 has a line of its own form
PLACES = 4  # each refusal but 10, the last, occurs at so many places
RUN_LINE = re.compile(rb"(\d+) (idle|spent|conflict|buzz) (\d+) (\d+)")
DOUBLE_LINE = re.compile(rb"(\d+) refused 12")
REFUSED_LINE = re.compile(rb"refused (\d+) (\d+)")


def shown(words, most=SHOWN):
    """The begin and the end of a text of more characters than these."""
    return words if len(words) <= most else f"{words[: most // 2]} .. {words[-most // 2 :]} ({len(words)})"


def from_difference(first, second):
    """Two answers from the first line on that is not the same, as texts to be shown."""
    if first is None or second is None:
        return shown(repr(first)), shown(repr(second))
    begin = len(os.path.commonprefix([first, second]))
    begin = first.rfind(b"\n", 0, begin) + 1
    before = f"(the same up to byte {begin}) " if begin else ""
    return before + shown(repr(first[begin:])), before + shown(repr(second[begin:]))


def proved(session):
    """What the proved program comes to on a session."""
    return program.run(program.command("herdspiral"), session)


def same(name, session, told, wanted, ended=program.well):
    """The check that a program prints for a session what is wanted, some line at least, and that it ended so: with nothing on
    standard error, if nothing else is said, and with status 0."""
    if told == ended(wanted or b"") and wanted and wanted.endswith(b"\n"):
        return name, True
    want, got = from_difference(wanted, told.out)
    return f"{name}: {shown(session.hex(), SESSION_SHOWN)}: wanted {want}, got {got}, on standard error {shown(repr(told.errors))}, status {told.status}", False


class Seen:
    """What the answers of the second program come to, counted."""

    def __init__(self):
        self.words, self.places, self.odd = collections.Counter(), collections.defaultdict(set), []

    def look(self, answer):
        """Counts the lines of an answer."""
        lines, stopped = (answer or b"").split(b"\n")[:-1], False
        for number, line in enumerate(lines):
            if (form := RUN_LINE.fullmatch(line)) and int(form[1]) == number:
                self.ran(form[2].decode(), int(form[3]), stopped)
                self.words["drawn from the start, without a move"] += number == 0 == int(form[3]) < int(form[4])
                stopped = form[2] != b"idle"
            elif (form := DOUBLE_LINE.fullmatch(line)) and int(form[1]) == number > 0:
                self.words["event refused 12"] += 1
            elif (form := REFUSED_LINE.fullmatch(line)) and number == len(lines) - 1:
                self.refused("event" if number else "file", int(form[1]), int(form[2]))
            else:
                self.odd.append(line)

    def ran(self, word, moves, stopped):
        """Counts the line of a run; whether the one before it stopped."""
        self.words[word] += 1
        if moves > 0:
            self.words["a move after a run that stopped"] += stopped
            self.words["conflict after a move"] += word == "conflict"
            self.words["idle after 3 moves or more"] += word == "idle" and moves >= 3
            self.words["buzz after 3 moves or more"] += word == "buzz" and moves >= 3

    def refused(self, what, number, place):
        """Counts the line that ends a session."""
        self.words[f"{what} refused {number}"] += 1
        self.places[number].add(place)

    def checks(self):
        """That all that must occur does, and nothing else."""
        known = [f"file refused {number}" for number in FILE_REFUSALS] + [f"event refused {number}" for number in EVENT_REFUSALS]
        known += [*WORDS, "event refused 12", "idle after 3 moves or more", "a move after a run that stopped", "conflict after a move"]
        known += ["drawn from the start, without a move", "buzz after 3 moves or more"]
        for word in known:
            yield f"{word} occurs {self.words[word]} times, at least {OFTEN}", self.words[word] >= OFTEN
        for number in FILE_REFUSALS[:-1]:
            yield f"refusal {number} occurs at {len(self.places[number])} places, at least {PLACES}", len(self.places[number]) >= PLACES
        yield f"nothing else is printed: {self.odd[:3]}, {set(self.words) - set(known)}", not self.odd and not set(self.words) - set(known)


def by_library(sessions):
    """What the proved library prints for each session, by way of `session_cases`, a process for each processor."""
    shares = os.cpu_count()
    with concurrent.futures.ThreadPoolExecutor(shares) as workers:
        told = list(workers.map(lambda share: program.many(program.command("session_cases"), sessions[share::shares]), range(shares)))
    return [told[place % shares][place // shares] for place in range(len(sessions))]


def by_program(sessions):
    """What the program itself prints for each session, one after the other on each processor."""
    with concurrent.futures.ThreadPoolExecutor(os.cpu_count()) as workers:
        return list(workers.map(proved, sessions))


def compared(sessions):
    """A check for each session, that the proved library prints what the second program does; one for the first few of each
    sort, that the proved program itself does; and those on what the answers come to. A session has its name, its sort and
    its bytes."""
    seen, data = Seen(), [session for _, _, session in sessions]
    second = second_program.answers(data)
    checks = [same(name, session, program.well(own), wanted) for (name, _, session), own, wanted in zip(sessions, by_library(data), second)]
    first = [place for place, (name, _, _) in enumerate(sessions) if int(name.split()[-1]) < ALONE]
    for place, own in zip(first, by_program([data[place] for place in first])):
        checks.append(same(f"{sessions[place][0]}, alone", data[place], own, second[place], program.session_told))
    for (name, _, session), wanted in zip(sessions, second):
        seen.look(wanted)
        if wanted and b" spent " in wanted:
            checks.append((f"{name}: {session[1]} relays, more than {NEVER_SPENT}, where some run is spent", session[1] > NEVER_SPENT))
    for word, count in sorted(seen.words.items()):
        print(f"{count:7} {word}")
    return checks + list(seen.checks())


def counted(sessions):
    """Prints how many sessions there are of each sort; the checks that there are some."""
    counts = collections.Counter(sort for _, sort, _ in sessions)
    for sort in [*session_sorts.SORTS, *session_sorts.FEW]:
        print(f"{counts[sort]:7} {sort}")
        yield f"some session is of the sort: {sort}", counts[sort] > 0


def book():
    """That both programs print what the rule book says of its boards."""
    for name, session, wanted in book_sessions.sessions():
        yield same(f"{name}, herdspiral", session, proved(session), wanted, program.session_told)
        yield same(f"{name}, the second program", session, second_program.answer(session), wanted)


def moved(lines, count):
    """The lines of a session, with the place of the refusal that ends it, if one does, so many bytes further on."""
    return re.sub(rb"^(refused \d+) (\d+)$", lambda form: b"%s %d" % (form[1], int(form[2]) + count), lines, flags=re.M)


def any_allowance():
    """That the program prints the same at every W, but for the place of a refusal that ends a session: it moves with W's length."""
    for name, *typed in book_sessions.ANY_W:
        board, events = map(bytes.fromhex, typed)
        sessions = [board + bytes(number_bytes(allowance)) + events for allowance in ALLOWANCES]
        first = proved(sessions[0]).out
        for allowance, session in zip(ALLOWANCES, sessions):
            wanted = moved(first, len(session) - len(sessions[0]))
            yield same(f"{name}, W {allowance}", session, proved(session), wanted, program.session_told)


def numbers():
    """That both print what the models do for each form of a number at each place."""
    found = number_sessions.sessions()
    data = [session for _, session, _ in found]
    print(f"{len(found):7} H2 with one number typed otherwise, whole and cut at every byte")
    for (name, session, wanted), own, second in zip(found, by_library(data), second_program.answers(data)):
        yield same(f"{name}, the library", session, program.well(own), wanted)
        yield same(f"{name}, the second program", session, program.well(second), wanted)


def compare(seed, count):
    if not shutil.which("cargo"):
        return [("cargo is there, to build the second program", False)]
    built, tested = second_program.cargo("build"), second_program.cargo("test")
    checks = [(f"the second program builds: {built.stderr}", built.returncode == 0)]
    checks.append((f"its unit tests pass: {tested.stdout}{tested.stderr}", tested.returncode == 0))
    for name in ("herdspiral", "session_cases"):
        checks.append((f"crates/{name}/out/{name} is there", os.path.exists(program.path(name))))
    if not all(holds for _, holds in checks):
        return checks
    sessions = [(f"seed {seed}, {sort}, {number}", sort, session) for sort, number, session in session_sorts.sessions(seed, count)]
    return checks + list(book()) + list(any_allowance()) + list(numbers()) + list(counted(sessions)) + compared(sessions) + session_streams.checks()


if __name__ == "__main__":
    seed, count = [int(word) for word in sys.argv[1:3]] + [1, 5_000][len(sys.argv[1:3]) :]
    sys.exit(repository.report(compare(seed, count)))
