"""What a yes is worth with the options of a call: what each option can hide (docs/OWN-LOGS.md, "What each option may change")."""
from joining.trouble import tell

# The options that can hide something, each with that of which a yes then says nothing.
HIDES = {
    'made_up': 'what these processes did otherwise than the logs say that are made up',
    'failed': 'what a process still had to deliver, if it did not fail (3, 7.1)',
    'torn': 'whether anybody sent the messages whose sends are added (1.3), and safe messages among them (7.1, 7.2)',
    'quiet': 'agreed messages of others that a quiet log lacks at its end',
    'lives': 'lives that the layer confused (2.3, 2.4)',
    'own_sends': '3, but for messages that others delivered and their sender did not, and 1.3 for those that a process itself delivers, since '
                 'sends stand at their own deliveries',
    'own_order_unknown': 'messages of one process that were reordered (5)',
    'late_sends': 'messages that got their place in a transitional configuration (2.2)',
    'transitional': 'processes that the layer wrongly counted as gone on together (2.4, 4)',
    'early_ends': 'messages of a process that was gone (1.3, 4, 5, 6)',
    'late_changes': 'messages that were lost at the end of a configuration, and whose senders did not go along (5, 6.3)',
    'trim': 'what comes after the cut',
    'cut': 'names that come again in another part (1.1, 1.4, 2.3)',
}


def tell_worth(asked):
    """Says of what a yes says nothing, if an option can hide anything; also one that first lines ask for."""
    hidden = ['%s (--%s)' % (what, option.replace('_', '-')) for option, what in HIDES.items() if getattr(asked, option)]
    if hidden:
        tell('as joined, a yes says nothing of: %s' % '; '.join(hidden))
