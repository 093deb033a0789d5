"""The scripts of bench/linear and bench/sessions, which bench/beside runs too, and what is printed for them."""
import itertools

STATEMENTS = 64_000
SESSIONS = (1, 8, 64)
STANDING = 33

BEGINNING = """{"session":"s1","at":"home"}
{"s":"s1","do":"create-table","table":"t","fields":{"qty":"num"}}
{"s":"s1","do":"create-queue","queue":"q","table":"t"}
{"s":"s1","do":"start-queue","queue":"q"}
"""
BEGUN = "s1.1 create-table ok\ns1.2 create-queue ok\ns1.3 start-queue ok\n"


def write_pairs(path, pairs):
    with open(path, "w") as it:
        it.write(BEGINNING)
        for number in range(1, pairs + 1):
            it.write('{"s":"s1","do":"enqueue","queue":"q","payload":{"qty":%d},"visibility":"immediate"}\n' % number)
            it.write('{"s":"s1","do":"dequeue","queue":"q","visibility":"immediate"}\n')


def are_pairs(path, pairs):
    """Whether the file has the transcript of that script."""
    with open(path) as it:
        if it.read(len(BEGUN)) != BEGUN:
            return False
        for number in range(1, pairs + 1):
            at = 2 * number + 2
            if it.readline() != f"s1.{at} enqueue ok h{number}\n":
                return False
            if it.readline() != f's1.{at + 1} dequeue message h{number} priority 1 retries 0 corr null {{"qty":{number}}}\n':
                return False
        return it.read() == "s1 end\n"


def enqueue(session, number, more=""):
    return f'{{"s":"{session}","do":"enqueue","queue":"q","payload":{{"qty":{number}}}{more}}}\n'


def dequeue(session, more=""):
    return f'{{"s":"{session}","do":"dequeue","queue":"q"{more}}}\n'


def word(session, do):
    return f'{{"s":"{session}","do":"{do}"}}\n'


def given(number, retries=0):
    return f'dequeue message h{number} priority 1 retries {retries} corr null {{"qty":{number}}}'


def beginning(session, standing):
    """The statements with which the queue is begun, so many messages in it, and the replies."""
    asked = [
        f'{{"s":"{session}","do":"create-table","table":"t","fields":{{"qty":"num"}}}}\n',
        f'{{"s":"{session}","do":"create-queue","queue":"q","table":"t","max_retries":2147483647}}\n',
        f'{{"s":"{session}","do":"start-queue","queue":"q"}}\n',
    ]
    replies = ["create-table ok", "create-queue ok", "start-queue ok"]
    for number in range(1, standing + 1):
        asked.append(enqueue(session, number, ',"visibility":"immediate"'))
        replies.append(f"enqueue ok h{number}")
    return asked, replies


class Together:
    """Sessions that ask so many statements together, in rounds: in each of them every session asks one."""

    def __init__(self, sessions):
        self.sessions = [f"s{n}" for n in range(1, sessions + 1)]
        self.asked, self.replies = beginning("s1", STANDING)
        self.turns = (STATEMENTS // sessions - len(self.asked)) // 4
        self.statements = sessions * (len(self.asked) + 4 * self.turns)

    def script(self):
        for session in self.sessions:
            yield f'{{"session":"{session}","at":"home"}}\n'
        yield from self.asked
        for session in self.sessions[1:]:
            yield word(session, "commit") * len(self.asked)
        for at, session in enumerate(self.sessions, 1):
            for turn in range(self.turns):
                yield enqueue(session, STANDING + turn * len(self.sessions) + at) + word(session, "commit")
                yield dequeue(session) + word(session, "commit")

    def transcript(self):
        number = 0
        for reply in self.replies:
            number += 1
            yield f"s1.{number} {reply}\n"
            for session in self.sessions[1:]:
                yield f"{session}.{number} commit ok\n"
        for turn in range(self.turns):
            before = turn * len(self.sessions)
            for step in range(4):
                number += 1
                for at, session in enumerate(self.sessions, 1):
                    replies = (f"enqueue ok h{STANDING + before + at}", "commit ok", given(before + at), "commit ok")
                    yield f"{session}.{number} {replies[step]}\n"
        for session in self.sessions:
            yield f"{session} end\n"


def is_right(path, transcript):
    """Whether the file has that transcript."""
    with open(path) as it:
        return all(a == b for a, b in itertools.zip_longest(it, "".join(transcript).splitlines(keepends=True)))
