"""Watches that views come, and that messages are delivered which were handed over. No specification that an audit judges promises it, so the log alone
would not show that the ring hangs."""
import os
import threading
import time

from recording.trouble import say

# How many seconds messages wait before the recorder says so. (Tests have less time.)
PATIENCE = float(os.environ.get('TOTEM_RECORD_PATIENCE', '30'))


class Watch:
    """Says when what has to come does not come. A thread of its own looks, since a call of the library can wait for the daemon."""

    def __init__(self, log):
        self.log = log
        # Since when something has been missing, what is said of that and of its end, and whether the first was said.
        self.since, self.missing, self.again, self.is_told = None, '', '', False
        threading.Thread(target=self._look, daemon=True).start()

    def begin(self, missing, again):
        """From now on something is missing, if nothing is yet. The first text has a place for the seconds."""
        if self.since is None:
            self.since, self.missing, self.again = time.monotonic(), missing, again

    def end(self):
        """It has come."""
        self.since = None
        if self.is_told:
            self.is_told = False
            say(self.again)

    def stop(self):
        """Nothing more is to come."""
        self.log = None

    def _look(self):
        while self.log:
            time.sleep(min(1, PATIENCE / 4))
            since, log = self.since, self.log
            if since is not None and log and not self.is_told and time.monotonic() > since + PATIENCE:
                self.is_told = True
                told = self.missing % PATIENCE
                log.write(['# ' + told])
                say(told + ': does the ring hang?')
