"""A volume with its eight clients: what each line of a script answers."""

from collections import Counter

from clients import Client
from files import Files
from rows import LAST_MOMENT, Refusal
from script import CLIENTS, read_line


class Model:
    """What the program is compared with. It is written from what each operation is said to do, and from no proof."""

    def __init__(self, settings):
        self.volume = Files(settings)
        self.clients = [Client(self.volume, number) for number in range(len(CLIENTS))]
        self.ticked = 0
        self.entries = 0  # of the journal
        self.refusals = Counter()  # by operation and name

    def answer(self, text):
        """What a line prints."""
        order, number, operation, arguments = read_line(text)
        client = self.clients[number]
        self.entries += order in ('tick', 'crash')
        if order == 'tick':
            self.ticked += arguments[0]
            return f'now {self.moment()}'
        if order == 'crash':
            client.reset()
            return 'crashed'
        if order in ('begin', 'do'):
            try:
                client.begin(operation, arguments)
            except Refusal as refusal:
                return self.refused(operation, refusal)
            if order == 'begin':
                return 'begun'
        answer = self.step(client) if client.operation else 'idle'
        while answer == 'more' and order != 'step':
            answer = self.step(client)
        return answer

    def moment(self):
        """The time of the clock, which stands but for ticks."""
        return min(LAST_MOMENT, self.volume.settings.clock + self.ticked)

    def step(self, client):
        """Makes a step: `more`, or the operation's answer. A request has an entry, and so has an answer."""
        self.volume.now = self.moment()
        name = client.operation_name
        try:
            if not client.at_request:
                next(client.operation)
                client.at_request = True
            self.entries += 1
            next(client.operation)
            return 'more'
        except StopIteration as end:
            answer = end.value
            self.entries += 1
        except Refusal as refusal:
            answer = self.refused(name, refusal)
            client.pending.segments.pop(refusal.gone, None)
        client.operation = None
        return answer

    def refused(self, operation, refusal):
        """The text of a refusal, which is counted."""
        self.entries += 1
        self.refusals[operation, str(refusal).split(' ')[0]] += 1
        return f'err {refusal}'
