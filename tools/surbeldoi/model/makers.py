"""Whose turn a draw is: buffers are followed back through attach calls to where they were made."""

from surbeldoi.model.steps import Lent, Owing


class Makers:
    """Who made each buffer that was attached: `was` has, of a queue and a buffer's number there, those that it had before.
    No buffer is followed back further than `most` times."""

    def __init__(self, most):
        self.was, self.most = {}, most

    def attached(self, token, loose):
        self.was[token.queue, token.buffer] = (loose.was.queue, loose.was.buffer)

    def maker_of(self, token):
        """The queue and number of a buffer when it was made, and how often it was attached since."""
        at, age = (token.queue, token.buffer), 0
        while at in self.was and age < self.most:
            at, age = self.was[at], age + 1
        return at, age

    def turn_of(self, token):
        """The maker of what a name holds, and the place of its draw among those of the same maker: behind the frames that its
        queue had got when it was lent."""
        maker, age = self.maker_of(token)
        return maker, (age, token.frames + 1 if isinstance(token, Lent) else token.frame)

    def is_older(self, owing, token):
        """What is owed has to be drawn before what a name holds: before all leases of the same maker, and before later frames."""
        (maker, turn), (of_maker, of_turn) = self.turn_of(owing), self.turn_of(token)
        return maker == of_maker and (not isinstance(token, Owing) or turn < of_turn)
