"""Records as text, with the script of their run at hand: which line each step is, and what each value is."""

from surbeldoi.records.wording import REJECTIONS, STATUSES, buffer_sentence, call_name, listed, named, sentence
from surbeldoi.view.viewing import values_text

INDENT = "\n    "


class Named:
    """Says what the records of a run tell."""

    def __init__(self, asked):
        self.asked, self.course, self.waiting = asked, asked.course, asked.waiting
        self.sentences = {"REPL": self.reply, "COMM": self.commit, "ARRV": self.arrivals, "HIST": self.history, "HOLD": self.held, "STUK": self.stuck}

    def sentence(self, record):
        """What a record says, behind its tag."""
        if record.fields is None or record.tag not in self.sentences:
            return sentence(record)
        return f"{record.tag} {self.sentences[record.tag](record.fields)}"

    def line(self, actor, number):
        step = self.course.script.step(actor, number)
        return f"line {step.line}: {step.text()}"

    def step(self, actor, number):
        return self.course.script.step_text(actor, number)

    def reply(self, fields):
        by = fields["actor"], fields["step"]
        if fields["status"]:
            return f"reply of {self.step(*by)}: {self.asked.refusal_text(*by, fields['status'])}"
        values = values_text(self.course.script.step(*by).words[0], [value for (value,) in fields["values"]])
        return f"reply of {self.step(*by)}: {named(STATUSES, 0)}" + (f": {values}" if values else "")

    def commit(self, fields):
        arrival = self.course.reader.arrivals.get(fields["arrival"])
        text = f"token {fields['token']}, {self.waiting.arrival_text(fields['arrival'])}: "
        if fields["result"]:
            operation = arrival.operations[fields["operation"] - 1:fields["operation"]] if arrival else []
            where = f" ({self.line(operation[0].actor, operation[0].step)})" if operation else ""
            text += f"rejected, operation {fields['operation']}{where}: {REJECTIONS.get(fields['result'], 'number %d' % fields['result'])}"
        else:
            text += "committed"
        shown = [operation for operation in arrival.operations if operation.frame] if arrival else []
        lines = [f" ({self.line(operation.actor, operation.step)})" for operation in shown] + [""] * len(fields["buffers"])
        return text + "".join(buffer_sentence(row) + line for row, line in zip(fields["buffers"], lines))

    def arrivals(self, fields):
        rows = [f"{number} of token {token}: {self.step(actor, step)}" for number, (actor, step, token) in enumerate(fields["arrivals"], 1)]
        return "arrivals" + (INDENT + INDENT.join(rows) if rows else " none")

    def history(self, fields):
        return f"history of queue {fields['queue']}" + "".join(
            f"{INDENT}{self.step(caller, step) if caller else f'vsync {step}'}: {call_name(kind, slot, frame)}: {named(STATUSES, status)}"
            for caller, step, kind, status, slot, frame in fields["calls"])

    def held(self, fields):
        return "held " + listed(f"{self.waiting.arrival_text(arrival)}: {self.waiting.held_text(arrival)}" for arrival, *_ in fields["held"])

    def stuck(self, fields):
        return "stuck " + listed(f"{self.step(*by)}: {self.stuck_text(*by)}" for by in fields["stuck"])

    def stuck_text(self, actor, number):
        need = self.waiting.step_wait(actor, number)
        return need.text if need else "the records do not tell why"


def sentences_of(records, asked):
    """A sentence for each record, with the names and the lines of the script; those without where there is no run to be asked about."""
    return map(Named(asked).sentence if asked else sentence, records)
